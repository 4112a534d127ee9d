//! Looking for held words that are slow to merge: many random patterns, and small changes
//! of the slowest.

use std::time::{Duration, Instant};

use reference::random::Random;

use crate::held_words::{merged, Difference, Pattern};
use crate::instructions::of_merges;
use crate::large_queries::{Sizes, MOST_PRODUCED};

/// How many merges are counted in one run.
const GENERATION: usize = 64;
/// The most differences of a pattern.
const MOST_DIFFERENCES: usize = 8;

/// The sizes of the climbs, one behind another, and whether a climb begins with the
/// slowest patterns of earlier searches too.
const CLIMBS: [(Sizes, bool); 4] = [
    (Sizes::LARGEST, false),
    (Sizes::LARGEST, true),
    (
        Sizes {
            sets: 7,
            ..Sizes::LARGEST
        },
        false,
    ),
    (
        Sizes {
            produced: 7,
            ..Sizes::LARGEST
        },
        false,
    ),
];

/// A pattern and how many instructions its merge takes.
#[derive(Clone, Debug)]
pub struct Slow {
    /// The sizes.
    pub sizes: Sizes,
    /// The pattern.
    pub pattern: Pattern,
    /// The rows of the table, or the refusal.
    pub merged: Result<u8, u32>,
    /// Instructions of the last call.
    pub instructions: u64,
}

/// The slowest merges found so far: of those that end in a table, and of those refused
/// with 8.
#[derive(Default)]
pub struct SlowestMerges {
    by_outcome: [Option<Slow>; 2],
    /// How many merges were counted.
    pub counted: usize,
}

impl SlowestMerges {
    /// Looks for so long, by a climb of each size, or says why it can't count.
    pub fn find(random: &mut Random, time: Duration) -> Result<Self, String> {
        let mut slowest = Self::default();
        for (sizes, from_found) in CLIMBS {
            let mut patterns: Vec<Pattern> = (0..GENERATION).map(|_| any_pattern(random)).collect();
            patterns.push(Pattern::under_the_full_choice());
            if from_found {
                patterns.extend(Pattern::slowest_found());
            }
            let time = time / CLIMBS.len() as u32;
            slowest.join(Self::climb(random, sizes, patterns, time)?);
        }
        Ok(slowest)
    }

    /// The slowest merge that ends in a table, and that is refused with 8.
    pub fn of_each_outcome(&self) -> impl Iterator<Item = &Slow> {
        self.by_outcome.iter().flatten()
    }

    /// Looks for so long: first at these patterns, then at changes of the slowest of the
    /// generation before. That may be faster than the slowest so far, so that a climb
    /// gets away from where no small change makes a merge slower.
    fn climb(
        random: &mut Random,
        sizes: Sizes,
        mut patterns: Vec<Pattern>,
        time: Duration,
    ) -> Result<Self, String> {
        let begin = Instant::now();
        let mut slowest = Self::default();
        while begin.elapsed() < time {
            let generation = Self::counted(sizes, patterns)?;
            patterns = (0..GENERATION)
                .map(|_| generation.changed(random))
                .collect();
            slowest.join(generation);
        }
        Ok(slowest)
    }

    /// The slowest merges of some patterns.
    fn counted(sizes: Sizes, patterns: Vec<Pattern>) -> Result<Self, String> {
        let query = sizes.long_checks().write();
        let words: Vec<_> = patterns
            .iter()
            .map(|pattern| pattern.words(sizes))
            .collect();
        let counts = of_merges(words.iter().map(|words| (&query[..], &words[..])))?;
        let mut slowest = Self {
            counted: counts.len(),
            ..Self::default()
        };
        for ((pattern, words), instructions) in patterns.into_iter().zip(words).zip(counts) {
            slowest.keep(Slow {
                sizes,
                pattern,
                merged: merged(&query, &words),
                instructions,
            });
        }
        Ok(slowest)
    }

    /// Takes in what was found elsewhere.
    fn join(&mut self, other: Self) {
        self.counted += other.counted;
        let found = other.by_outcome.into_iter().flatten();
        found.for_each(|slow| self.keep(slow));
    }

    /// Keeps a merge if none of its outcome is as slow.
    fn keep(&mut self, slow: Slow) {
        let kept = &mut self.by_outcome[usize::from(slow.merged.is_err())];
        let as_slow = |kept: &Slow| kept.instructions >= slow.instructions;
        if !kept.as_ref().is_some_and(as_slow) {
            *kept = Some(slow);
        }
    }

    /// A slowest pattern with one or two changes. A refusal may be a change away from a
    /// table.
    fn changed(&self, random: &mut Random) -> Pattern {
        let slow = &self.by_outcome[random.below(2)];
        let Some(Slow { pattern, .. }) = slow else {
            return any_pattern(random);
        };
        let mut pattern = pattern.clone();
        for _ in 0..random.between((1, 2)) {
            change(random, &mut pattern);
        }
        pattern
    }
}

/// A random pattern of few differences.
fn any_pattern(random: &mut Random) -> Pattern {
    let threshold = random.between((1, 8)) as u32;
    let differences = (0..random.between((1, 4))).map(|_| difference(random));
    Pattern {
        threshold,
        differences: differences.collect(),
    }
}

/// A random difference.
fn difference(random: &mut Random) -> Difference {
    Difference {
        choice: random.below(256) as u8,
        turned: [0; MOST_PRODUCED].map(|_| turned(random)),
    }
}

/// Random bits that are turned, few of them different.
fn turned(random: &mut Random) -> u8 {
    random.below(3) as u8
}

/// Changes the threshold or one difference.
fn change(random: &mut Random, pattern: &mut Pattern) {
    let count = pattern.differences.len();
    if count == 0 {
        return pattern.differences.push(difference(random));
    }
    let place = random.below(count);
    let [one, other] = [0; 2].map(|_| random.below(MOST_PRODUCED));
    let changed = &mut pattern.differences[place];
    match random.below(16) {
        0 => pattern.threshold = random.between((1, 8)) as u32,
        1 if count < MOST_DIFFERENCES => pattern.differences.push(difference(random)),
        2 => {
            pattern.differences.swap_remove(place);
        }
        3..6 => changed.choice ^= 1 << random.below(8),
        6 => changed.choice = random.below(256) as u8,
        7..10 => changed.turned.swap(one, other),
        10 => {
            let differences = pattern.differences.iter_mut();
            differences.for_each(|difference| difference.turned.swap(one, other));
        }
        _ => changed.turned[one] = turned(random),
    }
}
