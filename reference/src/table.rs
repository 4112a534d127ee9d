//! The table's bytes: writing and reading them, checking their form, and looking
//! them up. Checks and lookups know the bytes and nothing of the query.

use crate::refusal;

/// Sizes before the rest of a table.
const SIZES: usize = 4;
/// Bytes of held bits per state.
const HELD_BYTES: usize = 2;
/// The most states that a table has room for.
pub const MOST_STATES: usize = 128;

/// What a table says. It has as many produced orders as starts. It may have more
/// states than there is room for in a table's bytes.
#[derive(Clone, Debug, PartialEq, Eq)]
pub struct Table {
    /// T, the number of tested orders.
    pub tested: u8,
    /// S, the number of sets.
    pub sets: u8,
    /// Per produced order, the number of its start.
    pub starts: Vec<usize>,
    /// The states in number order.
    pub states: Vec<State>,
}

/// What a table says of one state.
#[derive(Clone, Debug, PartialEq, Eq)]
pub struct State {
    /// Per set, the number of the state that taking the set leads to.
    pub successors: Vec<usize>,
    /// Bit i for interesting order i.
    pub held: u16,
}

impl Table {
    /// Reads a table's bytes, or gives the number of the first check that
    /// refuses them: 1, 2, 1, then 11 when a start or successor is no state or a
    /// held bit past P+T is set.
    pub fn read(table: &[u8]) -> Result<Self, u8> {
        let layout = Layout::read(table)?;
        let numbers = |from: usize, count: usize| -> Vec<usize> {
            let numbers = &table[from..][..count];
            numbers.iter().copied().map(usize::from).collect()
        };
        let states = (0..layout.states).map(|state| State {
            successors: numbers(layout.row_at(state), layout.sets),
            held: layout.held(table, state),
        });
        let read = Self {
            tested: layout.tested as u8,
            sets: layout.sets as u8,
            starts: numbers(layout.start_at(0), layout.produced),
            states: states.collect(),
        };
        let starts_and_successors = &table[layout.start_at(0)..layout.held_at(0)];
        let states_exist = starts_and_successors
            .iter()
            .all(|&state| usize::from(state) < layout.states);
        let mut held = read.states.iter().map(|state| u32::from(state.held));
        let bits_exist = held.all(|bits| bits >> layout.interesting() == 0);
        if states_exist && bits_exist {
            Ok(read)
        } else {
            Err(refusal::ROW)
        }
    }

    /// Writes the table's bytes. Nothing is checked, so that refused tables can
    /// be made too; of each number the lowest byte is written.
    pub fn write(&self) -> Vec<u8> {
        let mut bytes = vec![
            self.states.len() as u8,
            self.starts.len() as u8,
            self.tested,
            self.sets,
        ];
        let successors = self.states.iter().flat_map(|state| &state.successors);
        let states = self.starts.iter().chain(successors);
        bytes.extend(states.map(|&state| state as u8));
        let held = self.states.iter().map(|state| state.held);
        bytes.extend(held.flat_map(u16::to_le_bytes));
        bytes
    }

    /// The number of interesting orders, P+T.
    pub fn interesting(&self) -> usize {
        self.starts.len() + usize::from(self.tested)
    }
}

/// Checks a table's form: its length, its sizes, and that every start and
/// successor is a state and no held bit past P+T is set. Refuses with 1, 2 or
/// 11.
pub fn check(table: &[u8]) -> Result<(), u8> {
    Table::read(table).map(|_| ())
}

/// The start state of a produced order. Refuses with 1, 2, 10 or 11.
pub fn enter(table: &[u8], produced: u8) -> Result<u8, u8> {
    let layout = Layout::read(table)?;
    let produced = handle(produced, layout.produced)?;
    layout.state(table[layout.start_at(produced)])
}

/// The successor of a state under a set. Refuses with 1, 2, 10 or 11.
pub fn take(table: &[u8], state: u8, set: u8) -> Result<u8, u8> {
    let layout = Layout::read(table)?;
    let state = handle(state, layout.states)?;
    let set = handle(set, layout.sets)?;
    layout.state(table[layout.row_at(state) + set])
}

/// Whether a state holds an interesting order. Refuses with 1, 2 or 10.
pub fn ask(table: &[u8], state: u8, order: u8) -> Result<bool, u8> {
    let layout = Layout::read(table)?;
    let state = handle(state, layout.states)?;
    let order = handle(order, layout.interesting())?;
    let byte = table[layout.held_at(state) + order / 8];
    Ok(byte >> (order % 8) & 1 == 1)
}

/// A state's held bits as one word, as they are in the table: the low byte plus 256
/// times the high one. Refuses with 1, 2 or 10.
pub fn word(table: &[u8], state: u8) -> Result<u16, u8> {
    let layout = Layout::read(table)?;
    let state = handle(state, layout.states)?;
    Ok(layout.held(table, state))
}

/// A state's successor row, as it is in the table. Refuses with 1, 2 or 10.
pub fn row(table: &[u8], state: u8) -> Result<&[u8], u8> {
    let layout = Layout::read(table)?;
    let state = handle(state, layout.states)?;
    Ok(&table[layout.row_at(state)..][..layout.sets])
}

/// A handle as an index, or 10 when it is not below the count.
fn handle(number: u8, count: usize) -> Result<usize, u8> {
    let number = usize::from(number);
    if number < count {
        Ok(number)
    } else {
        Err(refusal::HANDLE)
    }
}

/// The sizes of a table, and the places they imply.
struct Layout {
    states: usize,
    produced: usize,
    tested: usize,
    sets: usize,
}

impl Layout {
    /// Reads the sizes, with the checks 1, 2, 1.
    fn read(table: &[u8]) -> Result<Self, u8> {
        let Some((&[states, produced, tested, sets], _)) = table.split_first_chunk::<SIZES>()
        else {
            return Err(refusal::LENGTH);
        };
        let within_limits = (1..=MOST_STATES as u8).contains(&states)
            && (1..=8).contains(&produced)
            && tested <= 8
            && sets <= 8;
        if !within_limits {
            return Err(refusal::SIZE);
        }
        let layout = Self {
            states: states.into(),
            produced: produced.into(),
            tested: tested.into(),
            sets: sets.into(),
        };
        if table.len() == layout.held_at(layout.states) {
            Ok(layout)
        } else {
            Err(refusal::LENGTH)
        }
    }

    fn interesting(&self) -> usize {
        self.produced + self.tested
    }

    fn start_at(&self, produced: usize) -> usize {
        SIZES + produced
    }

    fn row_at(&self, state: usize) -> usize {
        self.start_at(self.produced) + state * self.sets
    }

    /// Where a state's held bits begin; for the number of states, where the
    /// table ends.
    fn held_at(&self, state: usize) -> usize {
        self.row_at(self.states) + state * HELD_BYTES
    }

    /// A state's held bits, the low byte first.
    fn held(&self, table: &[u8], state: usize) -> u16 {
        let held = &table[self.held_at(state)..][..HELD_BYTES];
        u16::from_le_bytes([held[0], held[1]])
    }

    /// A state number read from the table, or 11 when there is no such state.
    fn state(&self, number: u8) -> Result<u8, u8> {
        if usize::from(number) < self.states {
            Ok(number)
        } else {
            Err(refusal::ROW)
        }
    }
}
