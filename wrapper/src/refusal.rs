//! The refusal list.

use std::fmt;

/// Why something is refused, with the number it has in the refusal list.
#[derive(Clone, Copy, Debug, PartialEq, Eq, Hash)]
pub enum Refusal {
    /// Fewer bytes than the sizes take, or a total other than they imply.
    Length = 1,
    /// A size outside its limits.
    Size,
    /// Order length above 4, kind above 4, set not below S, or unused byte not
    /// 255.
    Item,
    /// A column not below N. A dependency's columns have no direction, so each byte of
    /// 128 or more is one.
    Column,
    /// A column twice in one order, whatever its directions, or in one dependency.
    Repeat,
    /// Two equal interesting orders, directions compared.
    Twin,
    /// Never given: its number and word stay in the list.
    Orderings,
    /// The smallest table has more than 128 rows.
    States,
    /// Scratch below 16,384 bytes, or output, text or rows too short.
    Space,
    /// State, produced order, set, interesting order or dependency not in the table or
    /// the query.
    Handle,
    /// A start or successor not below Q, or a held bit past P+T.
    Row,
    /// A table with another P, T or S than the query.
    Mismatch,
    /// A table whose answer, from some start and through some run of sets, is
    /// wrong for the query.
    Answer,
    /// The count in the scratch is 0, or above P × 2^S + 1: no build was begun there.
    /// A [`SteppedBuild`](crate::SteppedBuild) is never refused so.
    Count,
}

impl Refusal {
    /// All refusals, in the order of their numbers.
    pub const ALL: [Self; 14] = [
        Self::Length,
        Self::Size,
        Self::Item,
        Self::Column,
        Self::Repeat,
        Self::Twin,
        Self::Orderings,
        Self::States,
        Self::Space,
        Self::Handle,
        Self::Row,
        Self::Mismatch,
        Self::Answer,
        Self::Count,
    ];

    /// The refusal's number.
    pub fn number(self) -> u8 {
        self as u8
    }

    /// The refusal's word.
    pub fn word(self) -> &'static str {
        match self {
            Self::Length => "length",
            Self::Size => "size",
            Self::Item => "item",
            Self::Column => "column",
            Self::Repeat => "repeat",
            Self::Twin => "twin",
            Self::Orderings => "orderings",
            Self::States => "states",
            Self::Space => "space",
            Self::Handle => "handle",
            Self::Row => "row",
            Self::Mismatch => "mismatch",
            Self::Answer => "answer",
            Self::Count => "count",
        }
    }
}

impl fmt::Display for Refusal {
    fn fmt(&self, f: &mut fmt::Formatter<'_>) -> fmt::Result {
        write!(f, "refused {}", self.number())
    }
}

impl std::error::Error for Refusal {}

/// The refusal that has a number of the list; none for 0.
fn passed(number: usize) -> Result<(), Refusal> {
    match number {
        0 => Ok(()),
        number => Err(Refusal::ALL[number - 1]),
    }
}

/// The value of a result of the proved library, or its refusal.
pub(crate) fn value(result: u32) -> Result<u16, Refusal> {
    passed((result >> 16) as usize).map(|()| result as u16)
}

/// The bytes of an item that the proved library has read, the lowest first, or its
/// refusal.
pub(crate) fn item(result: u64) -> Result<[u8; 6], Refusal> {
    passed((result >> 48) as usize)?;
    let [a, b, c, d, e, f, ..] = result.to_le_bytes();
    Ok([a, b, c, d, e, f])
}

/// A result of the proved library that has no value, or its refusal.
pub(crate) fn granted(result: u32) -> Result<(), Refusal> {
    value(result).map(|_| ())
}
