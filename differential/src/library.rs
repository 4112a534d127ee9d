//! The proved library as an implementation that trials and lists of lookups are
//! put to.

use order_tables::{OrderHandle, Refusal, SetChoice, SetHandle, StateNumber, Table};
use order_tables::{Step, SteppedBuild};
use reference::counterexample::Asked;
use reference::Implementation;

/// The proved library, called through the wrapper.
pub struct Library;

impl Implementation for Library {
    fn build(query: &[u8], scratch: &mut [u8], output: &mut [u8]) -> Result<usize, u8> {
        order_tables::build(query, scratch, output).map_err(Refusal::number)
    }

    fn build_in_steps(query: &[u8], scratch: &mut [u8], output: &mut [u8]) -> Result<usize, u8> {
        let mut stepped = SteppedBuild::begin(query, scratch).map_err(Refusal::number)?;
        loop {
            match stepped.step(output).map_err(Refusal::number)? {
                Step::Settled(unfinished) => stepped = unfinished,
                Step::Done(length) => return Ok(length),
            }
        }
    }

    fn list(query: &[u8], scratch: &mut [u8], text: &mut [u8]) -> Result<usize, u8> {
        order_tables::list(query, scratch, text).map_err(Refusal::number)
    }

    fn verify(query: &[u8], table: &[u8], scratch: &mut [u8]) -> Result<(), u8> {
        order_tables::verify(query, Table::new(table), scratch).map_err(Refusal::number)
    }

    fn enter(table: &[u8], produced: u8) -> Result<u8, u8> {
        number(Table::new(table).enter(OrderHandle(produced)))
    }

    fn take(table: &[u8], state: u8, set: u8) -> Result<u8, u8> {
        number(Table::new(table).take(StateNumber(state), SetHandle(set)))
    }

    fn ask(table: &[u8], state: u8, order: u8) -> Result<bool, u8> {
        let held = Table::new(table).ask(StateNumber(state), OrderHandle(order));
        held.map_err(Refusal::number)
    }

    fn counterexample(query: &[u8], asked: Asked, rows: &mut [u8]) -> Result<bool, u8> {
        let [produced, order] = [asked.produced, asked.order].map(OrderHandle);
        let sets = SetChoice(asked.sets);
        let two_rows = order_tables::counterexample(query, produced, sets, order, rows);
        two_rows
            .map(|two_rows| two_rows.is_some())
            .map_err(Refusal::number)
    }
}

/// The numbers of a state and of a refusal.
fn number(state: Result<StateNumber, Refusal>) -> Result<u8, u8> {
    state.map(|state| state.0).map_err(Refusal::number)
}
