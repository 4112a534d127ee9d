//! Looks for the slowest build of the proved library, for 60 seconds or as many
//! as the first argument says, and times what it found beside the second
//! implementation.

use std::env;
use std::time::Duration;

use benchmarks::report::{self, number};
use benchmarks::timing::Builds;
use benchmarks::worst::Slowest;
use reference::builder::table_of;
use reference::construction::of_pairs;
use reference::random::Random;
use reference::Query;

/// How often the builds of the slowest queries are timed.
const TURNS: usize = 20;

fn main() {
    let seconds = env::args().nth(1).map_or(60, |seconds| {
        seconds
            .parse()
            .expect("the argument is a number of seconds")
    });
    let slowest = Slowest::find(&mut Random::new(1), Duration::from_secs(seconds));
    report::setting();
    println!(
        "{} builds in {seconds} s, and of each outcome the slowest:",
        slowest.tried
    );
    println!();
    let rows: Vec<[String; 6]> = slowest
        .of_each_outcome()
        .map(|slow| row(&slow.query))
        .collect();
    report::table(
        [
            "Outcome",
            "Pairs",
            "Rows",
            "Proved, µs",
            "Second, µs",
            "Ratio",
        ],
        &rows,
    );
    for slow in slowest.of_each_outcome() {
        println!("    {}", report::bytes(&slow.query.write()));
    }
}

fn row(query: &Query) -> [String; 6] {
    let bytes = query.write();
    let [proved, second] = Builds::new().both_times(TURNS, &bytes);
    let [outcome, rows] = match table_of(&bytes) {
        Ok(table) => ["table".to_owned(), table.states.len().to_string()],
        Err(refusal) => [format!("refused {refusal}"), "none".to_owned()],
    };
    [
        outcome,
        of_pairs(query).states.len().to_string(),
        rows,
        number(proved / 1000.0),
        number(second / 1000.0),
        number(proved / second),
    ]
}
