//! A supplier's table on trial, and which of its answers is wrong.

use order_tables::{HeldWord, OrderHandle, Refusal, SetHandle, StateNumber, Table, SCRATCH_BYTES};

use crate::failure::Failure;
use crate::load::Loaded;
use crate::query::Query;
use crate::refusals::{of_table, refused};
use crate::runs::Runs;
use crate::sizes::sizes_text;
use crate::states::States;
use crate::words::counted;

/// Puts a supplier's table, from a file, on trial for a query. A refusal of the query
/// speaks of the query's file, any other of the table's.
pub fn verify(query: &Loaded, file: &str, supplied: &[u8]) -> Result<(), Failure> {
    let own = query.table()?;
    let table = Table::new(supplied);
    let verified = order_tables::verify(&query.bytes, table, &mut [0; SCRATCH_BYTES]);
    verified.map_err(|refusal| {
        let what = match refusal {
            Refusal::Row => stray(&query.query, table),
            Refusal::Mismatch => mismatch(query, table),
            Refusal::Answer => wrong_answer(query.states(&own), query.states(supplied)),
            _ => of_table(refusal, supplied),
        };
        refused(file, refusal, &what)
    })
}

/// The numbers from 0 on up to the first that a lookup refuses with 10.
fn handles<V>(lookup: impl Fn(u8) -> Result<V, Refusal>) -> std::ops::Range<u8> {
    let refused = (0..=u8::MAX).find(|&handle| lookup(handle).err() == Some(Refusal::Handle));
    0..refused.unwrap_or(u8::MAX)
}

/// The produced orders, interesting orders and sets of a table, by their handles.
fn sizes(table: Table) -> [std::ops::Range<u8>; 3] {
    let first = StateNumber(0);
    [
        handles(|produced| table.enter(OrderHandle(produced))),
        handles(|order| table.ask(first, OrderHandle(order))),
        handles(|set| table.take(first, SetHandle(set))),
    ]
}

/// The first start, successor or held bit that the table check refuses with 11.
fn stray(query: &Query, table: Table) -> String {
    let [produced, interesting, sets] = sizes(table);
    let is_stray = |answer: Result<StateNumber, Refusal>| answer == Err(Refusal::Row);
    for produced in produced {
        if is_stray(table.enter(OrderHandle(produced))) {
            let order = query.produced.get(usize::from(produced));
            let order = order.map(|order| query.order_text(order));
            let order = order.unwrap_or_else(|| format!("produced order {produced}"));
            return format!("{order} starts in no state");
        }
    }
    let states = handles(|state| table.word(StateNumber(state)));
    for state in states.clone() {
        for set in sets.clone() {
            if is_stray(table.take(StateNumber(state), SetHandle(set))) {
                let name = query.sets.get(usize::from(set)).cloned();
                let name = name.unwrap_or_else(|| format!("set {set}"));
                return format!("in state {state} {name} leads to no state");
            }
        }
    }
    let orders = counted(
        interesting.len(),
        ["interesting order", "interesting orders"],
    );
    let has_bit_past = |state: &u8| {
        let word = table.word(StateNumber(*state));
        let past = word.map(|HeldWord(bits)| bits.checked_shr(interesting.end.into()));
        past.is_ok_and(|past| past.is_some_and(|past| past != 0))
    };
    let state = states.clone().find(has_bit_past);
    let state = state.expect("a table that is refused with 11 has a stray start, successor or bit");
    format!("state {state} has a held bit past the {orders}")
}

/// The sizes of a table and those of the query.
fn mismatch(query: &Loaded, table: Table) -> String {
    let [produced, interesting, sets] = sizes(table).map(|handles| handles.len());
    let supplied = [produced, interesting - produced, sets];
    let [_, produced, tested, sets, _] = query.query.sizes();
    let [supplied, asked] = [supplied, [produced, tested, sets]].map(sizes_text);
    format!("it has {supplied}, and {} has {asked}", query.file)
}

/// The shortest run after which two tables answer otherwise, ours and the supplier's, and
/// the orders of which they do; of equally short runs the one of smaller set numbers, and
/// then the one from the first produced order.
fn wrong_answer(own: States, supplied: States) -> String {
    let first_wrong = |(produced, order)| {
        let starts = [own, supplied].map(|states| states.start(produced));
        let take = |[ours, theirs]: [StateNumber; 2], set| {
            [own.after(ours, set), supplied.after(theirs, set)]
        };
        let words = |[ours, theirs]: [StateNumber; 2]| [own.word(ours), supplied.word(theirs)];
        let runs = Runs::new(starts, own.sets(), take);
        let mut answers = runs.map(|(pair, run)| (run, words(pair)));
        let wrong = answers.find(|(_, [ours, theirs])| ours != theirs);
        wrong.map(|(run, words)| (run, order, words))
    };
    let wrong = own.produced().filter_map(first_wrong);
    let shortest = wrong.min_by_key(|(run, ..)| (run.len(), run.clone()));
    let (run, order, words) =
        shortest.expect("a table that is refused with 13 gives a wrong answer");
    let run = own.run_text(&run, |sets| sets.join(", then "));
    let wrong = wrong_orders(own.query, words);
    format!("entered by {order}, {run}, it says {wrong}")
}

/// The orders of which two words, ours and the supplier's, say otherwise.
fn wrong_orders(query: &Query, words: [HeldWord; 2]) -> String {
    let orders = (0..).map(OrderHandle).zip(query.interesting());
    let wrong = orders.filter_map(|(handle, order)| {
        let order = query.order_text(order);
        match words.map(|word| word.holds(handle)) {
            [false, true] => Some(format!("that {order} is held, which it is not")),
            [true, false] => Some(format!("that {order} is not held, which it is")),
            _ => None,
        }
    });
    wrong.collect::<Vec<String>>().join(", and ")
}
