//! A graph of states, read from what is drawn.

use std::collections::BTreeMap;

use crate::words::number;

/// A graph of states, as it is drawn.
#[derive(Debug, Default, PartialEq, Eq)]
pub struct Graph {
    /// The produced orders.
    pub produced: BTreeMap<usize, String>,
    /// The states that they start in.
    pub starts: BTreeMap<usize, usize>,
    /// The states, each with the orders that it holds.
    pub states: BTreeMap<usize, Vec<String>>,
    /// The arrows from state to state.
    pub arrows: BTreeMap<(usize, usize), Arrow>,
}

/// An arrow from state to state.
#[derive(Debug, Default, PartialEq, Eq)]
pub struct Arrow {
    pub sets: Vec<String>,
    pub gray: bool,
}

impl Graph {
    /// Reads a graph, of which every line must be known.
    pub fn read(text: &str) -> Option<Self> {
        let begin = "digraph states {\n    rankdir=LR\n    node [shape=box]\n";
        let lines = text.strip_prefix(begin)?.strip_suffix("\n}\n")?;
        let mut graph = Self::default();
        for line in lines.split('\n') {
            let (from, said) = line.strip_prefix("    ")?.split_once(' ')?;
            match said.strip_prefix("-> ") {
                Some(to) => graph.read_arrow(from, to)?,
                None => graph.read_box(from, said)?,
            }
        }
        Some(graph)
    }

    /// Reads a produced order or a state, which must be the first of its number.
    fn read_box(&mut self, name: &str, said: &str) -> Option<()> {
        let said = said.strip_suffix("\"]")?;
        if let Some(order) = said.strip_prefix("[shape=plaintext, label=\"produced ") {
            let produced = number(name, "start_")?;
            return is_first(self.produced.insert(produced, order.to_owned()));
        }
        let state = number(name, "state_")?;
        let mut lines = said.strip_prefix("[label=\"")?.split("\\n");
        let named = number(lines.next()?, "state ")?;
        let held = lines.map(str::to_owned).collect();
        (named == state).then_some(())?;
        is_first(self.states.insert(state, held))
    }

    /// Reads an arrow, which must be the first one between these two.
    fn read_arrow(&mut self, from: &str, to: &str) -> Option<()> {
        let Some((to, said)) = to.split_once(' ') else {
            let (produced, start) = (number(from, "start_")?, number(to, "state_")?);
            return is_first(self.starts.insert(produced, start));
        };
        let said = said.strip_prefix("[label=\"")?.strip_suffix(']')?;
        let (sets, gray) = match said.strip_suffix(", color=gray, fontcolor=gray") {
            Some(sets) => (sets, true),
            None => (said, false),
        };
        let sets = sets.strip_suffix('"')?.split(", ").map(str::to_owned);
        let sets = sets.collect();
        let between = (number(from, "state_")?, number(to, "state_")?);
        is_first(self.arrows.insert(between, Arrow { sets, gray }))
    }
}

/// Fails where something was replaced.
fn is_first<V>(replaced: Option<V>) -> Option<()> {
    replaced.is_none().then_some(())
}
