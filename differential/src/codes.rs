//! The numbers that the proved library's functions return, made from the second
//! implementation's answers, or made into one.

use reference::{Dependency, Entry};

/// A refusal's number times 65,536 plus the value, which is 0 on refusal.
pub fn answer(answer: Result<u32, u8>) -> u32 {
    match answer {
        Ok(value) => value,
        Err(refusal) => u32::from(refusal) * 65_536,
    }
}

/// An item that is read from a query: a refusal's number times 2 to the 48 plus the
/// value, which is 0 on refusal.
pub fn item(answer: Result<u64, u8>) -> u64 {
    match answer {
        Ok(value) => value,
        Err(refusal) => u64::from(refusal) << 48,
    }
}

/// Whether two rows are written, or the refusal, where a number says either.
pub fn two_rows(code: u32) -> Option<Result<bool, u8>> {
    let said = match code {
        0 => Ok(false),
        1 => Ok(true),
        refused => Err(u8::try_from(refused >> 16).ok()?),
    };
    (answer(said.map(u32::from)) == code).then_some(said)
}

/// An order: its length in the lowest byte, then its entries, a byte each.
pub fn order(order: &[Entry]) -> u64 {
    let entries = order.iter().map(|entry| entry.byte());
    order.len() as u64 | bytes(entries) << 8
}

/// A dependency: its set in the lowest byte, its kind in the next one, then its
/// columns, a byte each.
pub fn dependency(Dependency { set, rule }: &Dependency) -> u64 {
    u64::from(*set) | u64::from(rule.kind()) << 8 | bytes(rule.columns().into_iter()) << 16
}

/// Bytes as one number, the first one lowest.
fn bytes(bytes: impl DoubleEndedIterator<Item = u8>) -> u64 {
    bytes
        .rev()
        .fold(0, |number, byte| number << 8 | u64::from(byte))
}
