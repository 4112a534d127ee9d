//! A report that lists the newest rows first: columns of an order may be descending. The
//! query is that of examples/newest.txt: columns time and axis; order (time desc) can be
//! produced, the others are only looked for; set 0 brings time -> axis. Each order is read
//! back from the query and printed, with whether rows in (time desc) need a sort for it.

use order_tables::{counterexample, Direction, Order, OrderHandle, Query, Refusal};
use order_tables::{SetChoice, TWO_ROWS_BYTES};

const QUERY: &[u8] = include_bytes!("../../examples/newest.query");
const COLUMNS: [&str; 2] = ["time", "axis"];

/// An order in names.
fn order_text(order: Order) -> String {
    let entries = order.iter().map(|entry| {
        let direction = match entry.direction {
            Direction::Ascending => "",
            Direction::Descending => " desc",
        };
        format!("{}{direction}", COLUMNS[usize::from(entry.column)])
    });
    format!("({})", entries.collect::<Vec<String>>().join(", "))
}

/// Prints each order of the query, and whether rows in order 0 need a sort for it under a
/// choice of sets.
fn print_sorts(what: &str, sets: SetChoice) -> Result<(), Refusal> {
    println!("{what}:");
    let query = Query::new(QUERY)?;
    let orders = query.produced().chain(query.tested());
    for (handle, order) in (0..).map(OrderHandle).zip(orders) {
        let mut rows = [0; TWO_ROWS_BYTES];
        let sort = match counterexample(QUERY, OrderHandle(0), sets, handle, &mut rows)? {
            Some(_) => "a sort",
            None => "no sort",
        };
        println!("  {}: {sort}", order_text(order));
    }
    Ok(())
}

fn main() -> Result<(), Refusal> {
    print_sorts("scan in (time desc)", SetChoice(0))?;
    print_sorts("after set 0", SetChoice(1 << 0))
}
