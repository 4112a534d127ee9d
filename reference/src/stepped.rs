//! Stepped builds: a build that is begun and then continued by calls, each of which
//! settles one pair of a produced order and a choice of sets in force. One call more
//! merges what was settled and writes the table.
//!
//! All that a build keeps between calls lies in the lent scratch, as words of two bytes,
//! the low byte first. The first one is the count, which is the pairs settled plus one,
//! and 0 where there is no build. Behind it is the held word of each pair. So a count
//! that is no larger than the pairs are many is the place of the word that comes next.

use crate::buffers::{write, SCRATCH_BYTES};
use crate::builder::within_limit;
use crate::construction::{pair_word, with_words};
use crate::merging::merged;
use crate::query::Query;
use crate::refusal;
use crate::table::Table;

/// Bytes of a word in the scratch.
const WORD_BYTES: usize = 2;

/// Begins a build of a query that is read, or refused with 1 to 6. Refuses with that,
/// then with 9 for scratch, and then the scratch keeps its bytes.
pub fn begin(query: &Result<Query, u8>, scratch: &mut [u8]) -> Result<(), u8> {
    let (_, scratch) = lent(query, scratch)?;
    scratch.fill(0);
    let (words, _) = scratch.as_chunks_mut();
    words[0] = u16::to_le_bytes(1);
    Ok(())
}

/// Continues a build, by this query: gives nothing when a pair is settled, and the
/// table's length when the build is done.
///
/// Refuses as beginning does, then with 14 for the count, and then both buffers keep
/// their bytes. The last call refuses with 8, and with 9 for output; then the output
/// keeps its bytes, and so it does past the table and in every call before.
pub fn continue_build(
    query: &Result<Query, u8>,
    scratch: &mut [u8],
    output: &mut [u8],
) -> Result<Option<usize>, u8> {
    let (query, scratch) = lent(query, scratch)?;
    let (words, _) = scratch.as_chunks_mut();
    let count = u16::from_le_bytes(words[0]);
    let place = usize::from(count);
    if place == 0 || place > query.pairs() + 1 {
        return Err(refusal::COUNT);
    }
    if place <= query.pairs() {
        words[place] = pair_word(query, place - 1).to_le_bytes();
        words[0] = u16::to_le_bytes(count + 1);
        return Ok(None);
    }
    let table = merged_from(query, &words[1..place]);
    scratch.fill(0);
    write(&within_limit(table)?.write(), output).map(Some)
}

/// The smallest table that answers as pairs with these held words do, whatever they
/// are. Their bits past the interesting orders are dropped.
fn merged_from(query: &Query, words: &[[u8; WORD_BYTES]]) -> Table {
    let bits = u16::MAX >> (16 - query.interesting().count());
    let words = words.iter().map(|&word| u16::from_le_bytes(word) & bits);
    merged(&with_words(query, words))
}

/// The query and the part of the scratch that a build takes, or the refusal: of the
/// query, then 9 for scratch.
fn lent<'l>(
    query: &'l Result<Query, u8>,
    scratch: &'l mut [u8],
) -> Result<(&'l Query, &'l mut [u8]), u8> {
    let query = query.as_ref().map_err(|&refusal| refusal)?;
    let scratch = scratch.get_mut(..SCRATCH_BYTES).ok_or(refusal::SPACE)?;
    Ok((query, scratch))
}
