//! A table as a graph for Graphviz.

use std::collections::BTreeMap;

use order_tables::{SetHandle, StateNumber};

use crate::states::{state_text, States};

/// How an arrow looks that leads back to its state.
const GRAY: &str = ", color=gray, fontcolor=gray";

/// The states of a query's table as a graph in the language of Graphviz: a box for each
/// state with the orders that it holds, an arrow into the state that each produced order
/// starts in, and an arrow for the sets that lead from one state to another, or, in gray,
/// back to the same. Names need no quoting, as they have letters, digits, `_` and `.`
/// alone.
pub fn draw(states: States) -> String {
    let mut lines = vec!["rankdir=LR".to_owned(), "node [shape=box]".to_owned()];
    for (produced, order) in states.produced() {
        let label = format!("produced {order}");
        lines.push(format!(
            "{} [shape=plaintext, label=\"{label}\"]",
            start_node(produced.0)
        ));
    }
    for state in states.reached() {
        let held = states.held(states.word(state));
        let label = [vec![state_text(state)], held].concat().join("\\n");
        lines.push(format!("{} [label=\"{label}\"]", state_node(state)));
    }
    for (produced, _) in states.produced() {
        let start = state_node(states.start(produced));
        lines.push(format!("{} -> {start}", start_node(produced.0)));
    }
    for state in states.reached() {
        lines.extend(arrows(states, state));
    }
    let lines = lines.iter().map(|line| format!("    {line}\n"));
    format!("digraph states {{\n{}}}\n", lines.collect::<String>())
}

/// The node of a produced order.
fn start_node(produced: u8) -> String {
    format!("start_{produced}")
}

/// The node of a state.
fn state_node(state: StateNumber) -> String {
    format!("state_{}", state.0)
}

/// The arrows from a state, one for each state that sets lead to, with the names of these
/// sets.
fn arrows(states: States, state: StateNumber) -> Vec<String> {
    let mut leading: BTreeMap<StateNumber, Vec<SetHandle>> = BTreeMap::new();
    for set in states.sets() {
        let next = states.after(state, set);
        leading.entry(next).or_default().push(set);
    }
    let arrows = leading.iter().map(|(&next, sets)| {
        let label = states.set_names(sets).join(", ");
        let look = if next == state { GRAY } else { "" };
        let [from, to] = [state, next].map(state_node);
        format!("{from} -> {to} [label=\"{label}\"{look}]")
    });
    arrows.collect()
}
