//! A planner that gets its tables from a supplier: it uses one only when its trial
//! for the query accepts it. The query and the tables are files of examples/:
//! columns a, b, c; orders (a) and (b,a) can be produced, (a,b) and (c) are only
//! looked for; set 0 brings a -> b and set 1 brings b = c.

use order_tables::{verify, OrderHandle, Refusal, SetHandle, Table, SCRATCH_BYTES};

const QUERY: &[u8] = include_bytes!("../../examples/first.query");
const TABLES: [(&str, &[u8]); 4] = [
    ("first", include_bytes!("../../examples/first.table")),
    (
        "renumbered",
        include_bytes!("../../examples/renumbered.table"),
    ),
    ("unmerged", include_bytes!("../../examples/unmerged.table")),
    ("damaged", include_bytes!("../../examples/damaged.table")),
];

/// Uses a table that was accepted: says whether a scan in (a) is in the order
/// (a,b) after set 0.
fn print_use(table: Table) -> Result<(), Refusal> {
    let scan = table.enter(OrderHandle(0))?;
    let selected = table.take(scan, SetHandle(0))?;
    let held = match table.ask(selected, OrderHandle(2))? {
        true => "held",
        false => "not held",
    };
    println!("after set 0 state {}, (a,b) {held}", selected.0);
    Ok(())
}

fn main() -> Result<(), Refusal> {
    let mut scratch = [0; SCRATCH_BYTES];
    for (name, bytes) in TABLES {
        let table = Table::new(bytes);
        match verify(QUERY, table, &mut scratch) {
            Ok(()) => {
                print!("{name}: accepted, ");
                print_use(table)?;
            }
            Err(refusal) => println!("{name}: refused with {}", refusal.number()),
        }
    }
    Ok(())
}
