//! Building a table from a query's bytes.

use crate::construction::smallest;
use crate::query::Query;
use crate::refusal;
use crate::table::{Table, MOST_STATES};

/// The bytes of a query's table, or the refusal's number. Space never runs
/// short, so 9 never comes.
pub fn build_table(query: &[u8]) -> Result<Vec<u8>, u8> {
    table_of(query).map(|table| table.write())
}

/// What a query's table says, or the refusal's number.
pub fn table_of(query: &[u8]) -> Result<Table, u8> {
    within_limit(smallest(&Query::read(query)?))
}

/// A table, or 8 when it has more rows than there is room for in a table's bytes.
pub fn within_limit(table: Table) -> Result<Table, u8> {
    if table.states.len() <= MOST_STATES {
        Ok(table)
    } else {
        Err(refusal::STATES)
    }
}
