//! Tables that a supplier may send for a query: right ones that differ from the
//! query's own, ones with a change, and ones that are far from it.

use crate::construction::of_pairs;
use crate::merging::walked;
use crate::query::Query;
use crate::random::Random;
use crate::refusal;
use crate::samples::bytes::damaged;
use crate::samples::queries::{near_query_with_table, query_with_table, Shape};
use crate::samples::tables::{any_table, table_of_sizes};
use crate::table::{State, Table, MOST_STATES};

/// How many rows are put into a table at most, one by one.
const FEW_ROWS: usize = 4;
/// How many rows are put into a table at most, in a chain.
const MANY_ROWS: usize = 128;

/// How a supplied table is made for a query.
#[derive(Clone, Copy, Debug, PartialEq, Eq)]
pub enum Kind {
    /// The query's own table.
    Own,
    /// It has a row for each pair of a produced order and a choice of sets, where
    /// there is room for them; otherwise it is the query's own.
    Unmerged,
    /// Its states are numbered otherwise.
    Renumbered,
    /// Some of its rows come twice or more.
    TwinRows,
    /// It has a chain of rows that are alike, which one set leads through.
    Chain,
    /// It has rows that no start reaches, with anything in them.
    UnreachableRows,
    /// Any of these, one after another.
    Right,
    /// A right table with one start changed.
    OtherStart,
    /// A right table with one successor changed in a row that a start reaches.
    OtherSuccessor,
    /// A right table with one held bit changed in a row that a start reaches.
    OtherHeldBit,
    /// A right table with one successor or held bit changed in a row that no
    /// start reaches.
    UnreachableChange,
    /// The table of a query that differs in one order or one dependency.
    NearQuery,
    /// The table of a query that is made on its own.
    OtherQuery,
    /// A right table with its bytes damaged.
    Damaged,
    /// A random table of the query's sizes.
    RandomRows,
    /// A random table.
    Random,
}

impl Kind {
    /// All kinds.
    pub const ALL: [Self; 16] = [
        Self::Own,
        Self::Unmerged,
        Self::Renumbered,
        Self::TwinRows,
        Self::Chain,
        Self::UnreachableRows,
        Self::Right,
        Self::OtherStart,
        Self::OtherSuccessor,
        Self::OtherHeldBit,
        Self::UnreachableChange,
        Self::NearQuery,
        Self::OtherQuery,
        Self::Damaged,
        Self::RandomRows,
        Self::Random,
    ];
}

/// A supplied table.
#[derive(Clone, Debug)]
pub struct Supplied {
    /// The table's bytes.
    pub table: Vec<u8>,
    /// What its trial has to give, where the way it was made says so.
    pub known: Option<Result<(), u8>>,
}

/// A random table of a kind, supplied for a query with this table.
pub fn supplied(random: &mut Random, kind: Kind, query: &Query, own: &Table) -> Supplied {
    let accepted = |table: Table| (table.write(), Some(Ok(())));
    let (table, known) = match kind {
        Kind::Own => accepted(own.clone()),
        Kind::Unmerged => accepted(unmerged(query).unwrap_or_else(|| own.clone())),
        Kind::Renumbered => accepted(renumbered(random, own)),
        Kind::TwinRows => accepted(with_twin_rows(random, own)),
        Kind::Chain => accepted(with_a_chain(random, own)),
        Kind::UnreachableRows => accepted(with_unreachable_rows(random, own)),
        Kind::Right => accepted(right(random, own)),
        Kind::OtherStart => changed(random, own, Change::Start, None),
        Kind::OtherSuccessor => {
            let change = Change::Successor { reached: true };
            changed(random, own, change, None)
        }
        Kind::OtherHeldBit => {
            let change = Change::HeldBit { reached: true };
            changed(random, own, change, Some(Err(refusal::ANSWER)))
        }
        Kind::UnreachableChange => {
            let more_rows = with_unreachable_rows(random, own);
            let change = match random.below(2) {
                0 => Change::Successor { reached: false },
                _ => Change::HeldBit { reached: false },
            };
            changed(random, &more_rows, change, Some(Ok(())))
        }
        Kind::NearQuery => {
            let (_, table) = near_query_with_table(random, query);
            (table, None)
        }
        Kind::OtherQuery => {
            let (_, table) = query_with_table(random, Shape::SMALL);
            let same_sizes = table[1..4] == own.write()[1..4];
            let mismatch = (!same_sizes).then_some(Err(refusal::MISMATCH));
            (table, mismatch)
        }
        Kind::Damaged => {
            let right = right(random, own).write();
            (damaged(random, &right), None)
        }
        Kind::RandomRows => {
            let states = random.between((1, 8)) as u8;
            let sizes = [states, own.starts.len() as u8, own.tested, own.sets];
            (table_of_sizes(random, sizes), None)
        }
        Kind::Random => (any_table(random), None),
    };
    Supplied { table, known }
}

/// A random table, supplied for a query with this table or refusal: of any kind, or
/// where the query has none the table of another one, damaged or not.
pub fn supplied_for_any(random: &mut Random, query: &[u8], own: &Result<Table, u8>) -> Vec<u8> {
    match (Query::read(query), own) {
        (Ok(query), Ok(own)) => {
            let kind = Kind::ALL[random.below(Kind::ALL.len())];
            supplied(random, kind, &query, own).table
        }
        _ => {
            let (_, table) = query_with_table(random, Shape::SMALL);
            let damaged = damaged(random, &table);
            [table, damaged][random.below(2)].clone()
        }
    }
}

/// The table with a row for each pair of a produced order and a choice of sets in
/// force, numbered by the walk, where there is room for them.
pub fn unmerged(query: &Query) -> Option<Table> {
    let table = walked(&of_pairs(query));
    (table.states.len() <= MOST_STATES).then_some(table)
}

/// A right table: any of the ways to differ from the query's own, in turn.
fn right(random: &mut Random, own: &Table) -> Table {
    let mut table = own.clone();
    for differing in [
        with_twin_rows,
        with_a_chain,
        with_unreachable_rows,
        renumbered,
    ] {
        if random.one_in(2) {
            table = differing(random, &table);
        }
    }
    table
}

/// A right table with one change, and what is then known of it. Where nothing
/// can be changed so, the table stays right.
fn changed(
    random: &mut Random,
    own: &Table,
    change: Change,
    known: Option<Result<(), u8>>,
) -> (Vec<u8>, Option<Result<(), u8>>) {
    let right = right(random, own);
    match one_change(random, &right, change) {
        Some(changed) => (changed.write(), known),
        None => (right.write(), Some(Ok(()))),
    }
}

/// A table with its states numbered otherwise, at random.
pub fn renumbered(random: &mut Random, table: &Table) -> Table {
    let mut sequence: Vec<usize> = (0..table.states.len()).collect();
    random.shuffle(&mut sequence);
    let mut numbers = vec![0; sequence.len()];
    for (number, &state) in sequence.iter().enumerate() {
        numbers[state] = number;
    }
    let states = sequence.iter().map(|&state| table.states[state].clone());
    let states = states.collect();
    let renumbered = Table {
        states,
        ..table.clone()
    };
    leading(renumbered, |state| numbers[state])
}

/// A table with copies of some rows, as far as there is room. Starts and
/// successors lead to any of the rows that are alike.
fn with_twin_rows(random: &mut Random, table: &Table) -> Table {
    let mut twins: Vec<Vec<usize>> = (0..table.states.len()).map(|state| vec![state]).collect();
    let mut longer = table.clone();
    for _ in 0..rows_to_add(random, table, FEW_ROWS) {
        let state = random.below(table.states.len());
        twins[state].push(longer.states.len());
        longer.states.push(table.states[state].clone());
    }
    leading(longer, |state| {
        let twins = &twins[state];
        twins[random.below(twins.len())]
    })
}

/// A table in which a set that changes nothing in some state leads through a
/// chain of copies of its row, as far as there is room. The chain ends in a copy
/// that the set leads to itself. Without such a state there is none.
fn with_a_chain(random: &mut Random, table: &Table) -> Table {
    let rows = table.states.iter().enumerate();
    let kept = rows.flat_map(|(state, row)| {
        let sets = row.successors.iter().enumerate();
        sets.filter(move |(_, &next)| next == state)
            .map(move |(set, _)| (state, set))
    });
    let kept: Vec<(usize, usize)> = kept.collect();
    let mut longer = table.clone();
    let Some(place) = some_place(random, kept.len()) else {
        return longer;
    };
    let (mut last, set) = kept[place];
    for _ in 0..rows_to_add(random, table, MANY_ROWS) {
        let next = longer.states.len();
        let mut copy = longer.states[last].clone();
        copy.successors[set] = next;
        longer.states[last].successors[set] = next;
        longer.states.push(copy);
        last = next;
    }
    longer
}

/// A table with some rows that no start reaches, as far as there is room. They
/// have any successors and hold any orders.
fn with_unreachable_rows(random: &mut Random, table: &Table) -> Table {
    let mut longer = table.clone();
    let states = table.states.len() + rows_to_add(random, table, FEW_ROWS);
    while longer.states.len() < states {
        let successors = (0..table.sets).map(|_| random.below(states));
        longer.states.push(State {
            successors: successors.collect(),
            held: random.below(1 << table.interesting()) as u16,
        });
    }
    longer
}

/// What one change of a table changes.
#[derive(Clone, Copy, Debug, PartialEq, Eq)]
enum Change {
    /// A start.
    Start,
    /// A successor.
    Successor {
        /// Whether it is in a row that a start reaches.
        reached: bool,
    },
    /// A held bit.
    HeldBit {
        /// Whether it is in a row that a start reaches.
        reached: bool,
    },
}

/// A table with one change that its form allows, or nothing where there is none.
fn one_change(random: &mut Random, table: &Table, change: Change) -> Option<Table> {
    let states = table.states.len();
    let mut changed = table.clone();
    match change {
        Change::Start => {
            let start = random.below(table.starts.len());
            lead_elsewhere(random, &mut changed.starts[start], states)?;
        }
        Change::Successor { reached } => {
            let row = &mut changed.states[some_row(random, table, reached)?];
            let successor = some_place(random, row.successors.len())?;
            lead_elsewhere(random, &mut row.successors[successor], states)?;
        }
        Change::HeldBit { reached } => {
            let row = &mut changed.states[some_row(random, table, reached)?];
            row.held ^= 1 << random.below(table.interesting());
        }
    }
    Some(changed)
}

/// Changes a state's number to another one; nothing where there is no other.
fn lead_elsewhere(random: &mut Random, state: &mut usize, states: usize) -> Option<()> {
    let further = 1 + some_place(random, states - 1)?;
    *state = (*state + further) % states;
    Some(())
}

/// A row that a start reaches, or one that none does, if there is one.
fn some_row(random: &mut Random, table: &Table, reached: bool) -> Option<usize> {
    let reached_rows = reached_rows(table);
    let rows = (0..table.states.len()).filter(|&state| reached_rows[state] == reached);
    let rows: Vec<usize> = rows.collect();
    some_place(random, rows.len()).map(|place| rows[place])
}

/// A place in a list of so many, if there is one.
fn some_place(random: &mut Random, count: usize) -> Option<usize> {
    (count > 0).then(|| random.below(count))
}

/// Of each row, whether some start and run of sets reach it.
fn reached_rows(table: &Table) -> Vec<bool> {
    let mut reached = vec![false; table.states.len()];
    let mut waiting: Vec<&usize> = table.starts.iter().collect();
    while let Some(&state) = waiting.pop() {
        if !reached[state] {
            reached[state] = true;
            waiting.extend(&table.states[state].successors);
        }
    }
    reached
}

/// How many rows to put into a table, at most so many: one or more, and none
/// where there is no room.
fn rows_to_add(random: &mut Random, table: &Table, most: usize) -> usize {
    let most = most.min(MOST_STATES - table.states.len());
    random.between((most.min(1), most))
}

/// A table with every start and successor led to another state.
fn leading(mut table: Table, mut to: impl FnMut(usize) -> usize) -> Table {
    let rows = table.states.iter_mut();
    let successors = rows.flat_map(|state| &mut state.successors);
    for state in table.starts.iter_mut().chain(successors) {
        *state = to(*state);
    }
    table
}

/// A query with one order and an empty set, and two tables for it, in which the
/// set leads from state to state through as many as there may be. The first table
/// is right, and the second one wrong in the last state.
pub fn longest_chain() -> (Query, [Table; 2]) {
    let query = Query {
        columns: 1,
        produced: vec![vec![]],
        tested: vec![],
        sets: 1,
        dependencies: vec![],
    };
    let states = (1..=MOST_STATES).map(|next| State {
        successors: vec![next.min(MOST_STATES - 1)],
        held: 1,
    });
    let right = Table {
        tested: 0,
        sets: 1,
        starts: vec![0],
        states: states.collect(),
    };
    let mut wrong = right.clone();
    wrong.states[MOST_STATES - 1].held = 0;
    (query, [right, wrong])
}
