//! What may become of the scratch between the calls of a stepped build: other counts,
//! and other held words.

use crate::query::Query;
use crate::random::Random;

/// How the held words of a query's pairs are changed.
#[derive(Clone, Copy, Debug, PartialEq, Eq)]
pub enum Changed {
    /// Every word is random.
    All,
    /// Every word is one of two, so that many pairs may share a row.
    OfTwo,
    /// Every word is that of another pair or its own.
    Exchanged,
    /// One word is random.
    One,
    /// One bit of one word is turned.
    Bit,
    /// Bits past the interesting orders are random, and no others, so that the table is
    /// the same.
    PastOrders,
    /// Every bit is 0.
    Empty,
    /// Every bit is 1.
    Full,
}

impl Changed {
    /// All ways.
    pub const ALL: [Self; 8] = [
        Self::All,
        Self::OfTwo,
        Self::Exchanged,
        Self::One,
        Self::Bit,
        Self::PastOrders,
        Self::Empty,
        Self::Full,
    ];

    /// Changes the held words of a query's pairs in a scratch that has room for them.
    pub fn change(self, random: &mut Random, query: &Query, scratch: &mut [u8]) {
        let (words, _) = scratch.as_chunks_mut();
        let words: &mut [[u8; 2]] = &mut words[1..=query.pairs()];
        let one = random.below(words.len());
        match self {
            Self::All => words.fill_with(|| any_word(random)),
            Self::OfTwo => {
                let two = [any_word(random), any_word(random)];
                words.fill_with(|| two[random.below(2)]);
            }
            Self::Exchanged => random.shuffle(words),
            Self::One => words[one] = any_word(random),
            Self::Bit => words[one][random.below(2)] ^= 1 << random.below(8),
            Self::PastOrders => {
                let past = u16::MAX.checked_shl(query.interesting().count() as u32);
                let past = past.unwrap_or(0).to_le_bytes();
                for word in words {
                    let bits = any_word(random);
                    for byte in 0..2 {
                        word[byte] = word[byte] & !past[byte] | bits[byte] & past[byte];
                    }
                }
            }
            Self::Empty => words.fill([0; 2]),
            Self::Full => words.fill([255; 2]),
        }
    }
}

/// Counts at the limits of a build of so many pairs, and one random count.
pub fn counts(random: &mut Random, pairs: usize) -> [u16; 8] {
    let pairs = pairs as u16;
    let any = random.below(1 << 16) as u16;
    [0, 1, pairs, pairs + 1, pairs + 2, pairs << 8, u16::MAX, any]
}

/// A random word of two bytes.
fn any_word(random: &mut Random) -> [u8; 2] {
    u16::to_le_bytes(random.below(1 << 16) as u16)
}
