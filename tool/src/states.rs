//! A table's states, in the names of the query that it is for.

use std::collections::BTreeSet;

use order_tables::{HeldWord, OrderHandle, SetHandle, StateNumber, Table};

use crate::query::Query;
use crate::runs::Runs;

/// Why lookups are granted.
const GRANTED: &str = "a lookup is granted in a table that has the form and the query's sizes";

/// The states of a table that passes the table check and has the sizes of a query.
#[derive(Clone, Copy, Debug)]
pub struct States<'t> {
    /// The query.
    pub query: &'t Query,
    /// The table.
    pub table: Table<'t>,
}

impl<'t> States<'t> {
    /// The state that a produced order starts in.
    pub fn start(self, produced: OrderHandle) -> StateNumber {
        self.table.enter(produced).expect(GRANTED)
    }

    /// The state that a set leads to.
    pub fn after(self, state: StateNumber, set: SetHandle) -> StateNumber {
        self.table.take(state, set).expect(GRANTED)
    }

    /// A state's held bits.
    pub fn word(self, state: StateNumber) -> HeldWord {
        self.table.word(state).expect(GRANTED)
    }

    /// The produced orders, each with its number.
    pub fn produced(self) -> impl Iterator<Item = (OrderHandle, String)> + use<'t> {
        let orders = (0..).map(OrderHandle).zip(&self.query.produced);
        orders.map(move |(handle, order)| (handle, self.query.order_text(order)))
    }

    /// The sets.
    pub fn sets(self) -> impl Iterator<Item = SetHandle> + Clone + use<'t> {
        let sets = (0..).map(SetHandle).zip(&self.query.sets);
        sets.map(|(handle, _)| handle)
    }

    /// The states that a produced order leads to, each with the shortest run.
    pub fn runs(
        self,
        produced: OrderHandle,
    ) -> impl Iterator<Item = (StateNumber, Vec<SetHandle>)> + use<'t> {
        let take = move |state, set| self.after(state, set);
        Runs::new(self.start(produced), self.sets(), take)
    }

    /// All states that a start leads to, in the order of their numbers.
    pub fn reached(self) -> BTreeSet<StateNumber> {
        let runs = self.produced().flat_map(|(handle, _)| self.runs(handle));
        runs.map(|(state, _)| state).collect()
    }

    /// The orders whose bits are 1 in a word.
    pub fn held(self, word: HeldWord) -> Vec<String> {
        let orders = (0..).map(OrderHandle).zip(self.query.interesting());
        let held = orders.filter(|(handle, _)| word.holds(*handle));
        held.map(|(_, order)| self.query.order_text(order))
            .collect()
    }

    /// The names of some sets.
    pub fn set_names(self, sets: &[SetHandle]) -> Vec<String> {
        let names = sets.iter().map(|set| &self.query.sets[usize::from(set.0)]);
        names.cloned().collect()
    }

    /// A run in words: that it is at the start, or what it takes, put together so.
    pub fn run_text(self, run: &[SetHandle], together: impl Fn(&[String]) -> String) -> String {
        let taken = run.chunk_by(SetHandle::eq).map(|same| match same.len() {
            1 => self.set_names(same).concat(),
            times => format!("{} {times} times", self.set_names(&same[..1]).concat()),
        });
        match run {
            [] => "at the start".to_owned(),
            _ => format!("after {}", together(&taken.collect::<Vec<String>>())),
        }
    }
}

/// A state as the listing calls it.
pub fn state_text(state: StateNumber) -> String {
    format!("state {}", state.0)
}
