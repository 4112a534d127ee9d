//! A planner's use of order tables: build the table of a query once, then carry
//! one state per plan node. Sets stay in force, so they may be taken in any order. One
//! word says all that a state holds; an ask is for one order.
//! The query is that of examples/first.query: columns a, b, c; orders (a) and (b,a)
//! can be produced, (a,b) and (c) are only looked for; set 0 brings a -> b and set 1
//! brings b = c.

use order_tables::{build, OrderHandle, Refusal, SetHandle, StateNumber, Table};

const QUERY: &[u8] = include_bytes!("../../examples/first.query");
const ORDERS: [&str; 4] = ["(a)", "(b,a)", "(a,b)", "(c)"];

/// Says which interesting orders a state holds: one word has them all.
fn print_held(what: &str, table: Table, state: StateNumber) -> Result<(), Refusal> {
    let word = table.word(state)?;
    print!("{what}: state {} holds", state.0);
    for (order, name) in (0..).zip(ORDERS) {
        if word.holds(OrderHandle(order)) {
            print!(" {name}");
        }
    }
    println!();
    Ok(())
}

fn main() -> Result<(), Refusal> {
    let mut output = [0; order_tables::LONGEST_TABLE];
    let length = build(QUERY, &mut [0; order_tables::SCRATCH_BYTES], &mut output)?;
    let table = Table::new(&output[..length]);
    let check = table.check().map_or_else(Refusal::number, |()| 0);
    println!("table of {length} bytes, check {check}");

    let scan = table.enter(OrderHandle(0))?;
    print_held("scan in (a)", table, scan)?;
    let selected = table.take(scan, SetHandle(0))?;
    print_held("after set 0", table, selected)?;
    let sort = match table.ask(selected, OrderHandle(2))? {
        true => "no sort",
        false => "a sort",
    };
    println!("a merge join by (a,b) needs {sort}");
    let joined = table.take(selected, SetHandle(1))?;
    print_held("after set 1", table, joined)?;
    let joined_first = table.take(scan, SetHandle(1))?;
    let selected_then = table.take(joined_first, SetHandle(0))?;
    print_held("set 1, then set 0", table, selected_then)?;
    let sorted = table.enter(OrderHandle(1))?;
    print_held("sort by (b,a)", table, sorted)?;
    print_held("after set 1", table, table.take(sorted, SetHandle(1))?)?;

    let row = table.row(scan)?;
    println!("successors of state {}: {} {}", scan.0, row[0], row[1]);
    if let Err(refusal) = table.take(scan, SetHandle(2)) {
        println!("set 2 refused with {}", refusal.number());
    }
    Ok(())
}
