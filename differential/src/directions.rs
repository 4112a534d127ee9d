//! Counting how many of the queries that are compared have descending columns.

use std::fmt;

use reference::query::DESCENDING;
use reference::Query;

use crate::codes;
use crate::tally::Tally;

/// How many queries were compared, by the refusals of their checks 1 to 6: those with a
/// descending column, and those without.
#[derive(Default)]
pub struct Directions {
    descending: Tally,
    ascending: Tally,
}

impl Directions {
    /// Counts a query.
    pub fn count(&mut self, query: &[u8]) {
        let checked = codes::answer(Query::read(query).map(|_| 0));
        match descends(query) {
            true => self.descending.count(checked),
            false => self.ascending.count(checked),
        }
    }

    /// Whether at least half of the queries that are not refused have a descending
    /// column, and at least a tenth have none.
    pub fn are_mixed(&self) -> bool {
        let [descending, ascending] = [&self.descending, &self.ascending].map(|t| t.with(0));
        let read = descending + ascending;
        2 * descending >= read && 10 * ascending >= read
    }

    /// Whether queries with a descending column came with each of these refusals, 0 for
    /// none, more often than so.
    pub fn descending_with(&self, refusals: &[u8], count: usize) -> bool {
        refusals
            .iter()
            .all(|&refusal| self.descending.with(refusal) > count)
    }
}

impl fmt::Display for Directions {
    fn fmt(&self, f: &mut fmt::Formatter<'_>) -> fmt::Result {
        let Self {
            descending,
            ascending,
        } = self;
        write!(
            f,
            "with descending columns {descending}; without {ascending}"
        )
    }
}

/// Whether an order in a query's bytes has a descending column: one of its four bytes
/// is 128 or more, and not 255.
fn descends(query: &[u8]) -> bool {
    let Some(&[_, produced, tested, _, dependencies]) = query.first_chunk() else {
        return false;
    };
    let [produced, tested, dependencies] = [produced, tested, dependencies].map(usize::from);
    let orders = produced + tested;
    let mut fields = query
        .iter()
        .skip(5 + orders + dependencies)
        .take(4 * orders);
    fields.any(|byte| (DESCENDING..255).contains(byte))
}
