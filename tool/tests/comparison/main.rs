//! What the tool says of tables, compared with the second implementation: a query's
//! table in words and as a graph, a supplier's table on trial, and two rows for an order
//! that is not held. What has to be said is made from the second implementation alone.

mod answers;
mod counterexample;
mod graph;
mod refused;
mod tables;
mod verify;
mod words;

use std::ffi::OsString;

use order_tables_tool::command::run;
use order_tables_tool::failure::Failure;
use reference::random::Random;
use reference::samples::{self, Shape};
use reference::Query;

/// The words of the refusals, by their numbers.
const WORDS: [&str; 15] = [
    "accepted",
    "length",
    "size",
    "item",
    "column",
    "repeat",
    "twin",
    "orderings",
    "states",
    "space",
    "handle",
    "row",
    "mismatch",
    "answer",
    "count",
];

/// What standard input is called.
const STANDARD_INPUT: &str = "standard input";

/// What the tool prints for these arguments and this on standard input.
fn tool(arguments: &[&str], mut input: &[u8]) -> Result<String, Failure> {
    let arguments: Vec<OsString> = arguments.iter().map(OsString::from).collect();
    let printed = run(&arguments, &mut input)?;
    Ok(String::from_utf8(printed).expect("text is printed"))
}

/// Whether a query in bytes would be read as text.
fn is_taken_for_text(query: &[u8]) -> bool {
    matches!(query.first(), Some(32..=126))
}

/// A random query with a table, of chains or not.
fn query_with_table(random: &mut Random, shape: Shape) -> Query {
    let (query, _) = match random.below(2) {
        0 => samples::query_with_table(random, shape),
        _ => samples::chains_with_table(random, shape),
    };
    query
}
