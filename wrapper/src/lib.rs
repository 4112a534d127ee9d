//! Order tables for a planner in Rust: check a query and read it, build its table in one
//! call or in steps, or put a supplier's on trial, look it up, list it, and show two rows
//! where an order is not held. All of it is done by the proved library; here its numbers
//! become types, so that a set can't be passed as a state.
//!
//! What each function promises, when it refuses and what the buffers hold afterwards is
//! said in `include/order_tables.h`, of the function of the same name with
//! `order_table_` or `order_query_` before it. Here each refusal is an `Err`.
//!
//! ```no_run
//! # fn plan(query: &[u8]) -> Result<bool, order_tables::Refusal> {
//! use order_tables::{build, OrderHandle, SetHandle, Table};
//!
//! let mut output = [0; order_tables::LONGEST_TABLE];
//! let length = build(query, &mut [0; order_tables::SCRATCH_BYTES], &mut output)?;
//! let table = Table::new(&output[..length]);
//! let scan = table.enter(OrderHandle(0))?;
//! let joined = table.take(scan, SetHandle(0))?;
//! table.ask(joined, OrderHandle(1))
//! # }
//! ```

mod query;
pub mod raw;
mod refusal;
mod stepped;

pub use query::{Columns, Dependency, Direction, Entry, Listed, Order, Query, Rule, DESCENDING};
pub use refusal::Refusal;
use refusal::{granted, value};
pub use stepped::{Step, SteppedBuild};

/// Bytes of scratch that a build, in one call or in steps, a listing or a trial of a
/// supplier's table takes.
pub const SCRATCH_BYTES: usize = 16_384;
/// Bytes of the longest query: five sizes, and 32 items of one head and four
/// bytes.
pub const LONGEST_QUERY: usize = 5 + 32 * 5;
/// Bytes of the longest table: four sizes, 8 starts, 128 rows of 8 successors,
/// and 128 times two bytes of held bits.
pub const LONGEST_TABLE: usize = 4 + 8 + 128 * 8 + 128 * 2;
/// Bytes that are enough for every listing.
pub const LISTING_BYTES: usize = 7547;
/// Bytes that are enough for two rows of every query: 12 columns each.
pub const TWO_ROWS_BYTES: usize = 2 * 12;

/// An interesting order: the produced ones count first, then the tested ones.
#[derive(Clone, Copy, Debug, PartialEq, Eq, Hash, PartialOrd, Ord)]
pub struct OrderHandle(pub u8);

/// A set of dependencies.
#[derive(Clone, Copy, Debug, PartialEq, Eq, Hash, PartialOrd, Ord)]
pub struct SetHandle(pub u8);

/// A choice of sets in force: bit i is set i.
#[derive(Clone, Copy, Debug, PartialEq, Eq, Hash, PartialOrd, Ord)]
pub struct SetChoice(pub u8);

/// A state of a table, which is one of its rows. A plan node carries one.
#[derive(Clone, Copy, Debug, PartialEq, Eq, Hash, PartialOrd, Ord)]
pub struct StateNumber(pub u8);

/// A state's held bits as one word: bit i is interesting order i.
#[derive(Clone, Copy, Debug, PartialEq, Eq, Hash, PartialOrd, Ord)]
pub struct HeldWord(pub u16);

impl HeldWord {
    /// Whether an interesting order's bit is 1. From order 16 on there is none, and
    /// the order is not held.
    pub fn holds(self, order: OrderHandle) -> bool {
        let from_its_bit = self.0.checked_shr(order.0.into());
        from_its_bit.is_some_and(|bits| bits & 1 == 1)
    }
}

/// Builds the table of a query into the output's first bytes, and gives its length:
/// `order_table_build`. [`SCRATCH_BYTES`] of scratch and [`LONGEST_TABLE`] of output are
/// always enough. [`SteppedBuild`] does the same in steps.
pub fn build(query: &[u8], scratch: &mut [u8], output: &mut [u8]) -> Result<usize, Refusal> {
    value(raw::table_build(query, scratch, output)).map(usize::from)
}

/// Puts a supplier's table on trial for a query, and accepts it when every answer that a
/// run reaches is right: `order_table_verify`.
pub fn verify(query: &[u8], table: Table, scratch: &mut [u8]) -> Result<(), Refusal> {
    granted(raw::table_verify(query, table.bytes, scratch))
}

/// Two rows that show why an order is not held, each with a value, 0 or 1, for every
/// column of the query.
#[derive(Clone, Copy, Debug, PartialEq, Eq)]
pub struct TwoRows<'a> {
    /// The row that comes first.
    pub first: &'a [u8],
    /// The row behind it. In the order looked for it compares below the first one.
    pub second: &'a [u8],
}

/// Shows why an interesting order is not held of rows in a produced order under a choice
/// of sets in force: two rows that break it, or `None` where it is held:
/// `order_query_counterexample`. They are written into the first bytes of `rows`, of which
/// [`TWO_ROWS_BYTES`] are always enough.
pub fn counterexample<'a>(
    query: &[u8],
    produced: OrderHandle,
    sets: SetChoice,
    order: OrderHandle,
    rows: &'a mut [u8],
) -> Result<Option<TwoRows<'a>>, Refusal> {
    let shown = raw::query_counterexample(query, produced.0, sets.0, order.0, rows);
    let shown = value(shown)? == 1;
    let columns = query[0].into();
    let (first, behind) = rows.split_at(columns);
    let second = &behind[..columns];
    Ok(shown.then_some(TwoRows { first, second }))
}

/// Writes the listing of a query, or the line that says how it is refused, into the
/// text's first bytes, and gives the length of what is written: `order_table_list`.
/// [`LISTING_BYTES`] of text are always enough.
pub fn list(query: &[u8], scratch: &mut [u8], text: &mut [u8]) -> Result<usize, Refusal> {
    value(raw::table_list(query, scratch, text)).map(usize::from)
}

/// A table's bytes. Every lookup checks them as far as it needs to, so any bytes
/// can be looked up.
#[derive(Clone, Copy, Debug, PartialEq, Eq)]
pub struct Table<'a> {
    bytes: &'a [u8],
}

impl<'a> Table<'a> {
    /// The table that some bytes are.
    pub fn new(bytes: &'a [u8]) -> Self {
        Self { bytes }
    }

    /// Checks the whole table's form: `order_table_check`.
    pub fn check(self) -> Result<(), Refusal> {
        granted(raw::table_check(self.bytes))
    }

    /// The state that a produced order starts in: `order_table_enter`.
    pub fn enter(self, produced: OrderHandle) -> Result<StateNumber, Refusal> {
        value(raw::table_enter(self.bytes, produced.0)).map(state)
    }

    /// The state that taking a set leads to, in which the set stays in force:
    /// `order_table_take`.
    pub fn take(self, from: StateNumber, set: SetHandle) -> Result<StateNumber, Refusal> {
        value(raw::table_take(self.bytes, from.0, set.0)).map(state)
    }

    /// Whether a state holds an interesting order: `order_table_ask`.
    pub fn ask(self, state: StateNumber, order: OrderHandle) -> Result<bool, Refusal> {
        value(raw::table_ask(self.bytes, state.0, order.0)).map(|held| held == 1)
    }

    /// A state's held bits as one word, which answers for all interesting orders at
    /// once: `order_table_word`.
    pub fn word(self, state: StateNumber) -> Result<HeldWord, Refusal> {
        value(raw::table_word(self.bytes, state.0)).map(HeldWord)
    }

    /// A state's successors, one byte for each set, as they are in the table:
    /// `order_table_row`.
    pub fn row(self, state: StateNumber) -> Result<&'a [u8], Refusal> {
        let offset = value(raw::table_row(self.bytes, state.0))?;
        let sets = self.bytes[3];
        Ok(&self.bytes[offset.into()..][..sets.into()])
    }
}

/// The state of a granted lookup, whose value is below 128.
fn state(value: u16) -> StateNumber {
    StateNumber(value as u8)
}
