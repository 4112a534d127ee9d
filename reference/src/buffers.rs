//! Lent buffers: when space is refused, and how scratch, output and text are
//! after a build, a listing or a trial of a table, and the rows after they are asked
//! for.

use crate::counterexample::Question;
use crate::listing::printed;
use crate::table::Table;
use crate::{refusal, verification};

/// Bytes of scratch that a build, in one call or in steps, a listing or a trial of a
/// table takes.
pub const SCRATCH_BYTES: usize = 16_384;

/// A build of a query whose table, or refusal 1 to 8, is known. Changes the
/// buffers as the build has to, and gives the table's length or the refusal.
///
/// The output keeps its bytes on every refusal, and past the table always.
pub fn build(
    table: &Result<Vec<u8>, u8>,
    scratch: &mut [u8],
    output: &mut [u8],
) -> Result<usize, u8> {
    use_scratch(table, scratch)?;
    let table = table.as_ref().map_err(|&refusal| refusal)?;
    write(table, output)
}

/// A listing of a query whose lines, or refusal 1 to 8, are known. Changes the
/// buffers as the listing has to, and gives the length of what is printed or 9.
///
/// A refusal 1 to 8 is printed as a line. The text keeps its bytes when space is
/// refused, and past what is printed always.
pub fn list(lines: &Result<String, u8>, scratch: &mut [u8], text: &mut [u8]) -> Result<usize, u8> {
    use_scratch(lines, scratch)?;
    write(printed(lines).as_bytes(), text)
}

/// A trial of a supplied table, for a query whose own table, or refusal 1 to 8,
/// is known. Changes the scratch as the trial has to, and gives the refusal.
pub fn verify(own: &Result<Table, u8>, supplied: &[u8], scratch: &mut [u8]) -> Result<(), u8> {
    use_scratch(own, scratch)?;
    let own = own.as_ref().map_err(|&refusal| refusal)?;
    verification::compare(own, supplied)
}

/// Two rows to a question, which is read or refused with 1 to 6 or 10. Writes them into
/// the buffer's first bytes, row after row, and gives whether there are two, or the
/// refusal.
///
/// There must be room for two rows even where there are none. The buffer keeps its
/// bytes on every refusal and where there are none, and past the rows always.
pub fn counterexample(question: &Result<Question, u8>, rows: &mut [u8]) -> Result<bool, u8> {
    let question = question.as_ref().map_err(|&refusal| refusal)?;
    if rows.len() < question.bytes() {
        return Err(refusal::SPACE);
    }
    let given = question.two_rows();
    if let Some(given) = &given {
        let bytes: Vec<u8> = given.iter().flatten().map(|&value| value as u8).collect();
        write(&bytes, rows)?;
    }
    Ok(given.is_some())
}

/// The scratch of a query that is constructed, or refused as this says. Checks 1
/// to 6 come before the scratch, and when they refuse, it keeps its bytes. So it
/// does when it is too short. Otherwise its first 16,384 bytes are 0 afterwards,
/// and the others keep theirs.
fn use_scratch<T>(constructed: &Result<T, u8>, scratch: &mut [u8]) -> Result<(), u8> {
    if !matches!(constructed, Err(refusal::LENGTH..=refusal::TWIN)) {
        let scratch = scratch.get_mut(..SCRATCH_BYTES).ok_or(refusal::SPACE)?;
        scratch.fill(0);
    }
    Ok(())
}

/// The first bytes are written when there is room for all, and then only they.
pub fn write(bytes: &[u8], output: &mut [u8]) -> Result<usize, u8> {
    let output = output.get_mut(..bytes.len()).ok_or(refusal::SPACE)?;
    output.copy_from_slice(bytes);
    Ok(bytes.len())
}
