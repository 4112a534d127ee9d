//! Lists of lookups, answered by a table and answered by the plain model.

use crate::implementation::Implementation;
use crate::model::Model;
use crate::query::Query;

/// One lookup: its kind and the handle given. The state comes from the lookups
/// before it.
#[derive(Clone, Copy, Debug, PartialEq, Eq)]
pub enum Lookup {
    /// An entry by a produced order.
    Enter(u8),
    /// A take of a set.
    Take(u8),
    /// An ask for an interesting order.
    Ask(u8),
}

/// What of a lookup's result is compared.
#[derive(Clone, Copy, Debug, PartialEq, Eq)]
pub enum Answer {
    /// A granted entry or take.
    Granted,
    /// A granted ask, with whether the order is held.
    Held(bool),
    /// A refusal's number.
    Refused(u8),
}

/// The answers of an implementation's lookups in a table to a list of lookups. A
/// granted entry or take hands its state to the lookups after it; all others
/// leave the state as it was.
///
/// # Panics
///
/// When a take or an ask comes before the first granted entry: there is no
/// state then that could be given to it.
pub fn table_answers<I: Implementation>(table: &[u8], lookups: &[Lookup]) -> Vec<Answer> {
    let mut carried: Option<u8> = None;
    lookups
        .iter()
        .map(|&lookup| {
            let state = || carried.expect("a take or an ask comes after a granted entry");
            let moved = match lookup {
                Lookup::Enter(produced) => I::enter(table, produced),
                Lookup::Take(set) => I::take(table, state(), set),
                Lookup::Ask(order) => return held_answer(I::ask(table, state(), order)),
            };
            carried = moved.ok().or(carried);
            move_answer(moved)
        })
        .collect()
}

/// The plain model's answers to a list of lookups.
pub fn model_answers(query: &Query, lookups: &[Lookup]) -> Vec<Answer> {
    let mut model = Model::new(query);
    lookups
        .iter()
        .map(|&lookup| match lookup {
            Lookup::Enter(produced) => move_answer(model.enter(produced)),
            Lookup::Take(set) => move_answer(model.take(set)),
            Lookup::Ask(order) => held_answer(model.ask(order)),
        })
        .collect()
}

fn move_answer<T>(result: Result<T, u8>) -> Answer {
    match result {
        Ok(_) => Answer::Granted,
        Err(refusal) => Answer::Refused(refusal),
    }
}

fn held_answer(result: Result<bool, u8>) -> Answer {
    match result {
        Ok(held) => Answer::Held(held),
        Err(refusal) => Answer::Refused(refusal),
    }
}
