//! A table in words.

use order_tables::{HeldWord, SetHandle, StateNumber};

use crate::sizes::{sizes_text, states_text};
use crate::states::{state_text, States};
use crate::words::joined;

/// A query's table in words: from each produced order the states that it leads to, each
/// with the shortest run of sets and the orders that it holds; what each set adds to the
/// held orders of each state; and the orders that are never held.
pub fn explain(states: States) -> String {
    let mut lines = vec![sizes(states)];
    for (produced, order) in states.produced() {
        lines.push(format!("\nEntered by {order}:"));
        lines.extend(states.runs(produced).map(|(state, run)| {
            // In a table that is built, the same sets lead to one state in any sequence.
            let run = states.run_text(&run, |sets| joined(sets, "and"));
            let held = joined(&states.held(states.word(state)), "and");
            format!("  {}, {run}, holds {held}.", state_text(state))
        }));
    }
    lines.push(String::new());
    if states.query.sets.is_empty() {
        lines.push("There are no sets.".to_owned());
    } else {
        for state in states.reached() {
            lines.push(format!("In {}:", state_text(state)));
            lines.extend(additions(states, state));
        }
    }
    lines.push(format!("\n{}", never_held(states)));
    lines.iter().flat_map(|line| [line, "\n"]).collect()
}

/// How many states, orders and sets there are.
fn sizes(states: States) -> String {
    let reached = states_text(states.reached().len());
    let [_, produced, tested, sets, _] = states.query.sizes();
    let sizes = sizes_text([produced, tested, sets]);
    format!("The table has {reached} for {sizes}.")
}

/// What each set adds to the orders that a state holds. The sets that change nothing come
/// last, together.
fn additions(states: States, state: StateNumber) -> Vec<String> {
    let (idle, leading): (Vec<SetHandle>, Vec<SetHandle>) = states
        .sets()
        .partition(|&set| states.after(state, set) == state);
    let leading = leading.into_iter();
    let mut lines: Vec<String> = leading.map(|set| addition(states, state, set)).collect();
    if !idle.is_empty() {
        let change = if idle.len() == 1 { "changes" } else { "change" };
        let idle = joined(&states.set_names(&idle), "and");
        lines.push(format!("  {idle} {change} nothing."));
    }
    lines
}

/// What a set adds to the orders that a state holds, and where it leads.
fn addition(states: States, state: StateNumber, set: SetHandle) -> String {
    let next = states.after(state, set);
    let [before, after] = [state, next].map(|state| states.word(state).0);
    let added = match &states.held(HeldWord(after & !before))[..] {
        [] => "no order".to_owned(),
        added => joined(added, "and"),
    };
    let set = states.set_names(&[set]).concat();
    format!("  {set} adds {added} and leads to {}.", state_text(next))
}

/// The orders that no state holds.
fn never_held(states: States) -> String {
    let words = states.reached().into_iter().map(|state| states.word(state));
    let somewhere = words.fold(0, |held, word| held | word.0);
    match &states.held(HeldWord(!somewhere))[..] {
        [] => "Every order is held after some run.".to_owned(),
        [never] => format!("{never} is never held."),
        never => format!("{} are never held.", joined(never, "and")),
    }
}
