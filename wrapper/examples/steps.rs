//! A planner whose report gains an order while it runs. A whole build is too long for one
//! control cycle, so the new table is built in steps, one behind each cycle. Until the last
//! step the planner goes on by the old table, in the same buffer. The old query is that of
//! examples/first.txt: columns time, axis, code; set 0, the filter, brings time -> axis and
//! set 1, the join, brings axis = code. The new one has (time, code) besides.

use order_tables::{build, OrderHandle, Refusal, SetHandle, StateNumber, Step, SteppedBuild};
use order_tables::{Table, LONGEST_TABLE, SCRATCH_BYTES};

const OLD_QUERY: &[u8] = include_bytes!("../../examples/first.query");
#[rustfmt::skip]
const NEW_QUERY: &[u8] = &[
    3, 2, 3, 2, 2,         // sizes N, P, T, S, D
    1, 2, 2, 1, 2, 16, 65, // heads of the seven items
    0, 255, 255, 255,      // order 0, produced: (time)
    1, 0,   255, 255,      // order 1, produced: (axis, time)
    0, 1,   255, 255,      // order 2, tested: (time, axis)
    2, 255, 255, 255,      // order 3, tested: (code)
    0, 2,   255, 255,      // order 4, tested: (time, code)
    0, 1,   255, 255,      // set 0: time -> axis
    1, 2,   255, 255,      // set 1: axis = code
];

/// Says whether rows in a state need a sort by an order. By one that the table does not
/// have yet they do.
fn sort(table: Table, state: StateNumber, order: OrderHandle) -> Result<&'static str, Refusal> {
    match table.ask(state, order) {
        Ok(true) => Ok("no sort"),
        Ok(false) | Err(Refusal::Handle) => Ok("a sort"),
        Err(refusal) => Err(refusal),
    }
}

/// A control cycle, in which the planner has the table in use: a scan in (time) is
/// filtered and joined.
fn print_plan(table: Table) -> Result<(), Refusal> {
    let scan = table.enter(OrderHandle(0))?;
    let filtered = table.take(scan, SetHandle(0))?;
    let joined = table.take(filtered, SetHandle(1))?;
    let [axis, code] = [2, 4].map(|order| sort(table, joined, OrderHandle(order)));
    println!("(time, axis) needs {}, (time, code) needs {}", axis?, code?);
    Ok(())
}

fn main() -> Result<(), Refusal> {
    let mut scratch = [0; SCRATCH_BYTES];
    let mut table = [0; LONGEST_TABLE];
    let old = build(OLD_QUERY, &mut scratch, &mut table)?;
    let mut stepped = SteppedBuild::begin(NEW_QUERY, &mut scratch)?;
    let length = loop {
        print!(
            "{} of {} pairs settled: ",
            stepped.settled(),
            stepped.pairs()
        );
        print_plan(Table::new(&table[..old]))?;
        match stepped.step(&mut table) {
            Ok(Step::Settled(unfinished)) => stepped = unfinished,
            Ok(Step::Done(length)) => {
                print!("new table of {length} bytes: ");
                break length;
            }
            Err(refusal) => {
                println!("refused with {}, and the old table stays", refusal.number());
                break old;
            }
        }
    };
    print_plan(Table::new(&table[..length]))
}
