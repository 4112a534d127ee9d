//! What trials and lists of lookups are put to: any implementation, and this one.

use crate::builder::{build_table, table_of};
use crate::counterexample::{Asked, Question};
use crate::query::Query;
use crate::{buffers, listing, stepped, table};

/// An implementation of order tables. Each function gives its value or the
/// refusal's number.
pub trait Implementation {
    /// Builds a query's table into the output's first bytes: the table's length.
    fn build(query: &[u8], scratch: &mut [u8], output: &mut [u8]) -> Result<usize, u8>;
    /// Builds a query's table as [`Self::build`] does, by a build that is begun and then
    /// continued until it is done: the table's length.
    fn build_in_steps(query: &[u8], scratch: &mut [u8], output: &mut [u8]) -> Result<usize, u8>;
    /// Lists a query into the text's first bytes: the length of what is printed.
    fn list(query: &[u8], scratch: &mut [u8], text: &mut [u8]) -> Result<usize, u8>;
    /// Puts a table on trial for a query: nothing when it is accepted.
    fn verify(query: &[u8], table: &[u8], scratch: &mut [u8]) -> Result<(), u8>;
    /// Enters by a produced order: the state.
    fn enter(table: &[u8], produced: u8) -> Result<u8, u8>;
    /// Takes a set in a state: the next state.
    fn take(table: &[u8], state: u8, set: u8) -> Result<u8, u8>;
    /// Asks for an interesting order in a state: whether it is held.
    fn ask(table: &[u8], state: u8, order: u8) -> Result<bool, u8>;
    /// Writes two rows that show why an order is not held into the buffer's first
    /// bytes: whether there are two.
    fn counterexample(query: &[u8], asked: Asked, rows: &mut [u8]) -> Result<bool, u8>;

    /// Enters by a produced order and takes some sets in turn: the last state.
    fn follow(table: &[u8], produced: u8, sets: &[u8]) -> Result<u8, u8> {
        let start = Self::enter(table, produced)?;
        sets.iter()
            .try_fold(start, |state, &set| Self::take(table, state, set))
    }
}

/// This implementation. It constructs in memory of its own.
pub struct Reference;

impl Implementation for Reference {
    fn build(query: &[u8], scratch: &mut [u8], output: &mut [u8]) -> Result<usize, u8> {
        buffers::build(&build_table(query), scratch, output)
    }

    fn build_in_steps(query: &[u8], scratch: &mut [u8], output: &mut [u8]) -> Result<usize, u8> {
        let query = Query::read(query);
        stepped::begin(&query, scratch)?;
        loop {
            if let Some(length) = stepped::continue_build(&query, scratch, output)? {
                return Ok(length);
            }
        }
    }

    fn list(query: &[u8], scratch: &mut [u8], text: &mut [u8]) -> Result<usize, u8> {
        buffers::list(&listing::lines(query), scratch, text)
    }

    fn verify(query: &[u8], table: &[u8], scratch: &mut [u8]) -> Result<(), u8> {
        buffers::verify(&table_of(query), table, scratch)
    }

    fn enter(table: &[u8], produced: u8) -> Result<u8, u8> {
        table::enter(table, produced)
    }

    fn take(table: &[u8], state: u8, set: u8) -> Result<u8, u8> {
        table::take(table, state, set)
    }

    fn ask(table: &[u8], state: u8, order: u8) -> Result<bool, u8> {
        table::ask(table, state, order)
    }

    fn counterexample(query: &[u8], asked: Asked, rows: &mut [u8]) -> Result<bool, u8> {
        buffers::counterexample(&Question::read(query, asked), rows)
    }
}
