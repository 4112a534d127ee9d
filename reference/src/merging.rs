//! Merging: the smallest table with a table's answers. Two states share a row
//! exactly when no order lookup after any run of sets tells them apart.
//!
//! This is the refinement of classes for finite automata. At first the states that
//! hold the same orders are a class. States of one class are then put into two where
//! some set leads from them to different classes, until no class falls apart. States
//! of different classes are told apart by the run of sets that put them there. From
//! states of one class every run leads to states of one class, which hold the same
//! orders, so nothing tells them apart.
//!
//! The rows are then numbered by the walk, with the states of a class as one. States
//! that no start reaches get no row.

use std::collections::HashMap;
use std::hash::Hash;

use crate::table::{State, Table};

/// The table with the fewest rows among those that answer as this one does, from
/// every start and through every run of sets.
pub fn merged(table: &Table) -> Table {
    numbered(table, &classes(table))
}

/// The table with its states numbered by the walk, none merged.
pub fn walked(table: &Table) -> Table {
    let of_its_own: Vec<usize> = (0..table.states.len()).collect();
    numbered(table, &of_its_own)
}

/// Of each state, the number of its class. Two states are in one class exactly when
/// no order lookup after any run of sets tells them apart.
pub fn classes(table: &Table) -> Vec<usize> {
    let mut classes = numbers_of(table.states.iter().map(|state| state.held));
    let mut count = different(&classes);
    loop {
        let seen = table.states.iter().zip(&classes).map(|(state, own)| {
            let next = state.successors.iter().map(|&next| classes[next]);
            (own, next.collect::<Vec<usize>>())
        });
        let finer = numbers_of(seen);
        let more = different(&finer);
        if more == count {
            return classes;
        }
        (classes, count) = (finer, more);
    }
}

/// A number for each key, from 0 on. Equal keys get the same.
fn numbers_of<K: Eq + Hash>(keys: impl Iterator<Item = K>) -> Vec<usize> {
    let mut numbers = HashMap::new();
    keys.map(|key| {
        let next = numbers.len();
        *numbers.entry(key).or_insert(next)
    })
    .collect()
}

/// How many different numbers there are, where they count from 0 on.
fn different(numbers: &[usize]) -> usize {
    numbers.iter().max().map_or(0, |most| most + 1)
}

/// The table with a row for each class that the walk meets. The walk meets the
/// starts first, in the order of the produced orders, then the successors of each row
/// in number order, each set in number order.
fn numbered(table: &Table, classes: &[usize]) -> Table {
    let mut walk = Walk {
        classes,
        rows: vec![None; different(classes)],
        met: Vec::new(),
    };
    let starts = table.starts.iter().map(|&state| walk.row(state));
    let starts = starts.collect();
    let mut states = Vec::new();
    while let Some(&state) = walk.met.get(states.len()) {
        let State { successors, held } = &table.states[state];
        states.push(State {
            successors: successors.iter().map(|&next| walk.row(next)).collect(),
            held: *held,
        });
    }
    Table {
        starts,
        states,
        ..*table
    }
}

/// A walk over the classes of states.
struct Walk<'c> {
    classes: &'c [usize],
    /// Per class, its row, once it is met.
    rows: Vec<Option<usize>>,
    /// Per row, the state by which the walk met it.
    met: Vec<usize>,
}

impl Walk<'_> {
    /// The row of a state that the walk meets: that of its class, or the next free
    /// one.
    fn row(&mut self, state: usize) -> usize {
        let row = &mut self.rows[self.classes[state]];
        *row.get_or_insert_with(|| {
            self.met.push(state);
            self.met.len() - 1
        })
    }
}
