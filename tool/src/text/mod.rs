//! A query as text. docs/FORMAT.md has the grammar.

mod error;
mod line;
mod read;
mod write;

#[cfg(test)]
mod tests;

pub use error::TextError;
pub use read::{order_names, read, set_names, Text};
pub use write::write;

/// The characters that a text may begin with, so that it is told from a query's bytes.
const FIRST_CHARACTERS: std::ops::RangeInclusive<u8> = b' '..=b'~';
/// The most bytes of a text.
pub const MOST_BYTES: usize = 1 << 20;

/// Whether a query is text: its first byte is 32 to 126. Otherwise it is bytes, also when
/// it is empty.
pub fn is_text(query: &[u8]) -> bool {
    let first = query.first();
    first.is_some_and(|first| FIRST_CHARACTERS.contains(first))
}

/// Whether bytes look like text to people, wherever they begin.
pub fn looks_like_text(bytes: &[u8]) -> bool {
    let text = std::str::from_utf8(bytes);
    let is_text = |character: char| !character.is_control() || character.is_ascii_whitespace();
    !bytes.is_empty() && text.is_ok_and(|text| text.chars().all(is_text))
}
