//! A supplier's table on trial: whether it answers as a query's own table does.
//!
//! This is the equivalence test of Hopcroft and Karp for finite automata. The
//! states of both tables are put into classes by a union-find. For each produced
//! order its two starts are joined, and with every two states that are joined,
//! their two successors under each set are joined too, until nothing is left to
//! join. Two states that are in one class already need no more.
//!
//! Only states that one run of sets reaches in both tables are joined, so two
//! joined states that hold different orders are a wrong answer. When no two do,
//! each class holds the same orders throughout and leads to one class under each
//! set. So every run of sets ends in both tables in one class, and all answers
//! are alike. Each joining makes one class of two, so there are fewer of them
//! than states.

use crate::listing;
use crate::refusal;
use crate::table::Table;

/// Puts a supplied table on trial beside a query's own table. Refuses with 1, 2
/// or 11 for the supplied table's form, then with 12 when its P, T or S differ
/// from the query's, then with 13 when an answer that some start and run of sets
/// reach is wrong.
pub fn compare(own: &Table, supplied: &[u8]) -> Result<(), u8> {
    let supplied = Table::read(supplied)?;
    if sizes(own) != sizes(&supplied) {
        return Err(refusal::MISMATCH);
    }
    if answer_alike(own, &supplied) {
        Ok(())
    } else {
        Err(refusal::ANSWER)
    }
}

/// What is printed of a trial: one line, which ends in a newline.
pub fn printed(verified: Result<(), u8>) -> String {
    listing::printed(&verified.map(|()| "accepted\n".to_owned()))
}

/// P, T and S of a table.
fn sizes(table: &Table) -> (usize, u8, u8) {
    (table.starts.len(), table.tested, table.sets)
}

/// Whether two tables of the same P, T and S give the same answers from every
/// start and through every run of sets.
fn answer_alike(one: &Table, other: &Table) -> bool {
    let starts = one.starts.iter().zip(&other.starts);
    answer_alike_from(starts.collect(), one, other)
}

/// Whether two states of a table give the same answers through every run of
/// sets.
pub fn states_alike(table: &Table, one: usize, other: usize) -> bool {
    answer_alike_from(vec![(&one, &other)], table, table)
}

/// Two states of a table that give the same answers through every run of sets,
/// if there are two.
pub fn two_alike(table: &Table) -> Option<(usize, usize)> {
    let states = table.states.len();
    let mut pairs = (0..states).flat_map(|one| (0..one).map(move |other| (other, one)));
    pairs.find(|&(one, other)| states_alike(table, one, other))
}

/// Whether two tables of the same P, T and S give the same answers from some
/// states, each of the one with one of the other, through every run of sets.
fn answer_alike_from<'t>(
    mut waiting: Vec<(&'t usize, &'t usize)>,
    one: &'t Table,
    other: &'t Table,
) -> bool {
    let mut classes = Classes::new(one.states.len() + other.states.len());
    while let Some((&state, &other_state)) = waiting.pop() {
        if classes.join(state, one.states.len() + other_state) {
            let (state, other_state) = (&one.states[state], &other.states[other_state]);
            if state.held != other_state.held {
                return false;
            }
            waiting.extend(state.successors.iter().zip(&other_state.successors));
        }
    }
    true
}

/// Classes of the numbers below a count, as trees: each number has a parent, and
/// the root of a tree, which is its own parent, stands for the class.
struct Classes {
    parents: Vec<usize>,
    sizes: Vec<usize>,
}

impl Classes {
    /// So many numbers, each a class of its own.
    fn new(count: usize) -> Self {
        Self {
            parents: (0..count).collect(),
            sizes: vec![1; count],
        }
    }

    /// The root of a number's class. The numbers on the way to it come closer to
    /// it.
    fn root(&mut self, mut number: usize) -> usize {
        while self.parents[number] != number {
            self.parents[number] = self.parents[self.parents[number]];
            number = self.parents[number];
        }
        number
    }

    /// Makes one class of the classes of two numbers, and says whether they were
    /// two. The larger one keeps its root.
    fn join(&mut self, one: usize, other: usize) -> bool {
        let (one, other) = (self.root(one), self.root(other));
        if one == other {
            return false;
        }
        let (kept, gone) = match self.sizes[one] < self.sizes[other] {
            true => (other, one),
            false => (one, other),
        };
        self.parents[gone] = kept;
        self.sizes[kept] += self.sizes[gone];
        true
    }
}
