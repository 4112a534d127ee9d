//! Held words for the last call of a stepped build, which merges whatever words lie in
//! the scratch.

use order_tables::{raw as proved, LONGEST_TABLE, SCRATCH_BYTES};
use reference::random::Random;

use crate::large_queries::{Sizes, MOST_PRODUCED};

/// Words in which produced orders differ under few choices.
#[derive(Clone, Debug, PartialEq, Eq)]
pub struct Pattern {
    /// With so many sets in force or more, one order more is held.
    pub threshold: u32,
    /// Where produced orders differ.
    pub differences: Vec<Difference>,
}

/// A choice, and for each produced order the bits that are turned in its word there.
#[derive(Clone, Copy, Debug, PartialEq, Eq)]
pub struct Difference {
    /// The choice.
    pub choice: u8,
    /// The bits of each produced order, below [`Difference::LIMIT`].
    pub turned: [u8; MOST_PRODUCED],
}

impl Difference {
    /// What the turned bits are below.
    pub const LIMIT: u8 = 8;
}

impl Pattern {
    /// Each produced order differs from all others under the choice of all eight sets,
    /// and under no other.
    pub fn under_the_full_choice() -> Self {
        Self {
            threshold: 8,
            differences: vec![Difference {
                choice: 255,
                turned: [0, 1, 2, 3, 4, 5, 6, 7],
            }],
        }
    }

    /// The slowest to merge that searches found: of those that end in a table, and of those
    /// refused with 8.
    pub fn slowest_found() -> [Self; 2] {
        let pattern = |threshold, differences: &[(u8, [u8; MOST_PRODUCED])]| Self {
            threshold,
            differences: differences
                .iter()
                .map(|&(choice, turned)| Difference { choice, turned })
                .collect(),
        };
        [
            pattern(
                3,
                &[
                    (0xe0, [3, 3, 3, 4, 0, 3, 1, 2]),
                    (0xe8, [0, 1, 1, 2, 2, 2, 2, 2]),
                    (0xf0, [1, 0, 2, 2, 2, 2, 2, 2]),
                ],
            ),
            pattern(
                8,
                &[
                    (0xe0, [0, 0, 0, 0, 0, 0, 1, 2]),
                    (0xf0, [0, 0, 1, 2, 1, 0, 0, 0]),
                    (0xf5, [2, 0, 0, 0, 0, 0, 0, 0]),
                    (0xf6, [1, 0, 0, 0, 0, 0, 0, 0]),
                    (0xf8, [1, 1, 1, 0, 0, 0, 0, 0]),
                ],
            ),
        ]
    }

    /// The words of the pairs, in their sequence.
    pub fn words(&self, sizes: Sizes) -> Vec<u16> {
        let choices = 1 << sizes.sets;
        let pairs = (0..sizes.pairs()).map(|pair| (pair / choices, pair % choices));
        let words = pairs.map(|(produced, choice)| {
            let reached = choice.count_ones() >= self.threshold;
            let held = u8::from(reached) * Difference::LIMIT;
            let here = self.differences.iter();
            let here = here.filter(|difference| usize::from(difference.choice) == choice);
            let word = here.fold(held, |word, here| word ^ here.turned[produced]);
            word.into()
        });
        words.collect()
    }
}

/// Words of several kinds for the largest sizes, with what is said of them: those to begin
/// a search with, then the slowest that searches found.
pub fn kinds() -> Vec<(&'static str, Vec<u16>)> {
    let sizes = Sizes::LARGEST;
    let random = &mut Random::new(1);
    let under_the_full_choice = Pattern::under_the_full_choice();
    let [table, refused] = Pattern::slowest_found();
    vec![
        ("each random", random_words(random, sizes)),
        ("each one of two", few_words(random, sizes, 2)),
        ("each one of four", few_words(random, sizes, 4)),
        ("of 128 rows", most_rows(sizes, false)),
        ("of 129 rows", most_rows(sizes, true)),
        (
            "orders differ under the full choice",
            under_the_full_choice.words(sizes),
        ),
        ("slowest found with a table", table.words(sizes)),
        ("slowest found", refused.words(sizes)),
    ]
}

/// Words of which each is random.
fn random_words(random: &mut Random, sizes: Sizes) -> Vec<u16> {
    let words = (0..sizes.pairs()).map(|_| random.below(1 << 16) as u16);
    words.collect()
}

/// Words of which each is one of so many.
fn few_words(random: &mut Random, sizes: Sizes, different: usize) -> Vec<u16> {
    let words = (0..sizes.pairs()).map(|_| random.below(different) as u16);
    words.collect()
}

/// Words that depend on the produced order and on the last four sets alone: each choice
/// of these has a row of its own for each of eight produced orders, 128 in all. With
/// `one_more` the first start has another word, and so a row of its own.
fn most_rows(sizes: Sizes, one_more: bool) -> Vec<u16> {
    let choices = 1 << sizes.sets;
    let words = (0..sizes.pairs()).map(|pair| match pair % choices {
        0 if one_more && pair == 0 => 9,
        240.. => (pair / choices) as u16,
        _ => 8,
    });
    words.collect()
}

/// Makes a scratch that of a stepped build whose pairs are all settled, with these held
/// words.
pub fn put(scratch: &mut [u8], words: &[u16]) {
    let count = words.len() as u16 + 1;
    let held = [count].into_iter().chain(words.iter().copied());
    for (bytes, word) in scratch.chunks_exact_mut(2).zip(held) {
        bytes.copy_from_slice(&word.to_le_bytes());
    }
}

/// Merges words by the last call of the proved library: the rows of the table, or the
/// refusal.
pub fn merged(query: &[u8], words: &[u16]) -> Result<u8, u32> {
    let mut scratch = vec![0; SCRATCH_BYTES];
    let mut output = vec![0; LONGEST_TABLE];
    put(&mut scratch, words);
    match proved::table_continue(query, &mut scratch, &mut output) >> 16 {
        0 => Ok(output[0]),
        refusal => Err(refusal),
    }
}
