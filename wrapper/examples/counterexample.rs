//! A planner author's question: why is a sort needed? Two rows show it: they are in
//! the order that the scan delivers, and not in the one looked for. The query is that
//! of examples/first.query: columns a, b, c; orders (a) and (b,a) can be produced,
//! (a,b) and (c) are only looked for; set 0 brings a -> b and set 1 brings b = c.

use order_tables::{counterexample, OrderHandle, SetChoice, TWO_ROWS_BYTES};

const QUERY: &[u8] = include_bytes!("../../examples/first.query");

/// Prints a row, each value behind the name of its column.
fn print_row(row: &[u8]) {
    for (column, value) in ('a'..).zip(row) {
        print!("  {column} {value}");
    }
    println!();
}

/// Says whether a scan in (a) is in (a,b) under a choice of sets. Where it is not, two
/// rows show it.
fn print_why(what: &str, sets: SetChoice) {
    let mut rows = [0; TWO_ROWS_BYTES];
    match counterexample(QUERY, OrderHandle(0), sets, OrderHandle(2), &mut rows) {
        Err(refusal) => println!("{what}: refused with {}", refusal.number()),
        Ok(None) => println!("{what}: none, (a,b) needs no sort"),
        Ok(Some(two_rows)) => {
            println!("{what}: (a,b) needs a sort, as two rows show");
            print_row(two_rows.first);
            print_row(two_rows.second);
        }
    }
}

fn main() {
    print_why("scan in (a)", SetChoice(0));
    print_why("after set 0", SetChoice(1 << 0));
    print_why("after set 1", SetChoice(1 << 1));
    print_why("after sets 0 and 1", SetChoice(1 << 0 | 1 << 1));
    print_why("after set 2", SetChoice(1 << 2));
}
