//! Looks for the slowest last call of a stepped build by the proved library, for 60
//! seconds or as many as the first argument says, from seed 1 or the one that the second
//! argument says. It counts instructions, so Valgrind has to be installed.

use std::env;
use std::time::Duration;

use benchmarks::instructions::{made_calls, of_queries};
use benchmarks::report::{self, instructions, outcome, share};
use benchmarks::worst_merge::{Slow, SlowestMerges};
use reference::random::Random;

fn main() {
    if made_calls() {
        return;
    }
    let [seconds, seed] = [(1, 60), (2, 1)].map(|(place, otherwise)| {
        let number = env::args().nth(place);
        number.map_or(otherwise, |number| {
            number.parse().expect("the arguments are numbers")
        })
    });
    if let Err(error) = search(Duration::from_secs(seconds), &mut Random::new(seed)) {
        println!("Nothing is counted: {error}.");
    }
}

fn search(time: Duration, random: &mut Random) -> Result<(), String> {
    let slowest = SlowestMerges::find(random, time)?;
    println!(
        "{} merges in {} s, and of each outcome the slowest:",
        slowest.counted,
        time.as_secs()
    );
    println!();
    let rows: Result<Vec<_>, _> = slowest.of_each_outcome().map(row).collect();
    report::table(["Outcome", "Pairs", "Last call", "Of the build, %"], &rows?);
    for slow in slowest.of_each_outcome() {
        println!("    {:?}, {:?}", slow.sizes, slow.pattern);
    }
    Ok(())
}

fn row(slow: &Slow) -> Result<[String; 4], String> {
    let query = slow.sizes.long_checks().write();
    let build = of_queries(&[&query])?[0].build;
    Ok([
        outcome(slow.merged),
        slow.sizes.pairs().to_string(),
        instructions(slow.instructions),
        share(slow.instructions, build),
    ])
}
