//! The construction: what each pair of a produced order and a choice of the sets in
//! force holds, and the smallest table that answers so.
//!
//! A choice is a number whose bit i is set i. Pair p × 2^S + x is produced order p under
//! choice x.

use crate::merging::merged;
use crate::query::{Entry, Query};
use crate::settled::InForce;
use crate::table::{State, Table};

/// The table with a row for each pair, none merged, so there may be more rows than a
/// table has room for.
pub fn of_pairs(query: &Query) -> Table {
    let in_force: Vec<InForce> = (0..1 << query.sets)
        .map(|choice| under_choice(query, choice))
        .collect();
    let words = query.produced.iter().flat_map(|produced| {
        let of_choice = |in_force| held_word(query, in_force, produced);
        in_force.iter().map(of_choice)
    });
    with_words(query, words)
}

/// The table with a row for each pair, none merged, whose rows hold these words, in
/// which bit i is interesting order i.
pub fn with_words(query: &Query, words: impl Iterator<Item = u16>) -> Table {
    let choices = 1 << query.sets;
    let states = words.enumerate().map(|(pair, held)| {
        let taken = (0..query.sets).map(|set| pair | 1 << set);
        State {
            successors: taken.collect(),
            held,
        }
    });
    Table {
        tested: query.tested.len() as u8,
        sets: query.sets,
        starts: (0..query.produced.len()).map(|p| p * choices).collect(),
        states: states.collect(),
    }
}

/// What a pair holds, bit i for interesting order i.
pub fn pair_word(query: &Query, pair: usize) -> u16 {
    let choices = 1 << query.sets;
    let in_force = under_choice(query, pair % choices);
    held_word(query, &in_force, &query.produced[pair / choices])
}

/// The smallest table with the answers of the pairs, its rows numbered by the walk.
/// It may have more rows than a table has room for.
pub fn smallest(query: &Query) -> Table {
    merged(&of_pairs(query))
}

/// The dependencies of the sets of a choice, together.
fn under_choice(query: &Query, choice: usize) -> InForce {
    InForce::new(query.columns, query.dependencies_of(&query.chosen(choice)))
}

/// What a produced order holds under some dependencies, bit i for interesting order
/// i.
fn held_word(query: &Query, in_force: &InForce, produced: &[Entry]) -> u16 {
    (0..)
        .zip(query.interesting())
        .filter(|(_, order)| in_force.holds(produced, order))
        .fold(0, |bits, (number, _): (u32, _)| bits | 1 << number)
}
