//! The plain model of lists of lookups. It knows the query; it sees neither a table
//! nor state numbers.
//!
//! Of queries with few columns it derives orderings, of any length, each time from
//! the start and under all sets taken, and an ask looks for its order among them. Of
//! more columns there are too many orderings; there an ask is answered by the closure
//! test, as in a build. Then the model still checks how a table is made from the
//! words of pairs and looked up, and not the words.

use std::collections::HashSet;

use crate::derivation::{closure, start, Ordering};
use crate::query::{Order, Query};
use crate::refusal;
use crate::settled::InForce;

/// The most columns of a query of which orderings are derived.
const FEW_COLUMNS: u8 = 5;

/// The plain model: a start order, a list of sets and what is known of them.
#[derive(Clone, Debug)]
pub struct Model<'q> {
    query: &'q Query,
    start_order: Option<&'q Order>,
    sets: Vec<u8>,
    known: Known,
}

/// What the model asks of.
#[derive(Clone, Debug)]
enum Known {
    /// All orderings that steps under the sets taken, together, give from the start.
    Orderings(HashSet<Ordering>),
    /// The dependencies of the sets taken.
    Dependencies(InForce),
}

impl<'q> Model<'q> {
    /// The model before any entry: no start order, no sets, no orderings.
    pub fn new(query: &'q Query) -> Self {
        let mut model = Self {
            query,
            start_order: None,
            sets: Vec::new(),
            known: Known::Orderings(HashSet::new()),
        };
        model.know();
        model
    }

    /// An entry by a produced order. Refuses a number of P or more with 10.
    pub fn enter(&mut self, produced: u8) -> Result<(), u8> {
        let order = self.query.produced.get(usize::from(produced));
        self.start_order = Some(order.ok_or(refusal::HANDLE)?);
        self.sets.clear();
        self.know();
        Ok(())
    }

    /// A take of a set. Refuses a number of S or more with 10.
    pub fn take(&mut self, set: u8) -> Result<(), u8> {
        if set >= self.query.sets {
            return Err(refusal::HANDLE);
        }
        // A set that is taken again brings no dependency that is not in force.
        let again = self.sets.contains(&set);
        self.sets.push(set);
        if !again {
            self.know();
        }
        Ok(())
    }

    /// Finds out what there is to know of the start order and the sets taken.
    fn know(&mut self) {
        let in_force = self.query.dependencies_of(&self.sets);
        self.known = if self.query.columns <= FEW_COLUMNS {
            let begun = self.start_order.map(|order| start(order));
            Known::Orderings(closure(begun.unwrap_or_default(), in_force))
        } else {
            Known::Dependencies(InForce::new(self.query.columns, in_force))
        };
    }

    /// An ask for an interesting order. Refuses a number of P+T or more with 10.
    pub fn ask(&self, order: u8) -> Result<bool, u8> {
        let order = self.query.interesting().nth(usize::from(order));
        let order = order.ok_or(refusal::HANDLE)?;
        Ok(match (&self.known, self.start_order) {
            (Known::Orderings(orderings), _) => orderings.contains(order),
            (Known::Dependencies(in_force), Some(start)) => in_force.holds(start, order),
            (Known::Dependencies(_), None) => false,
        })
    }

    /// The order of the last granted entry, if there was one.
    pub fn start_order(&self) -> Option<&Order> {
        self.start_order
    }

    /// The sets taken since the last granted entry, in turn.
    pub fn sets(&self) -> &[u8] {
        &self.sets
    }

    /// The orderings derived since the last granted entry, where the query has few
    /// columns.
    pub fn orderings(&self) -> Option<&HashSet<Ordering>> {
        match &self.known {
            Known::Orderings(orderings) => Some(orderings),
            Known::Dependencies(_) => None,
        }
    }
}
