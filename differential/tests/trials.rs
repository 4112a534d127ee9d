//! Every file of the folder trials/, put to the proved library; and the listing
//! program prints what the second implementation lists, with the words that the
//! library hands back as its held numbers.

use differential::programs::built;
use differential::Library;
use order_tables::{HeldWord, StateNumber, Table, LONGEST_TABLE, SCRATCH_BYTES};
use reference::{program, trials, Implementation};

/// The held numbers of a listing's states.
fn held_numbers(listing: &str) -> Vec<HeldWord> {
    let states = listing.lines().filter(|line| line.starts_with("state "));
    let numbers = states.filter_map(|line| line.rsplit(' ').next()?.parse().ok());
    numbers.map(HeldWord).collect()
}

/// The words of the table's states that the library builds of a query; none when
/// the query is refused.
fn words(query: &[u8]) -> Vec<HeldWord> {
    let mut output = [0; LONGEST_TABLE];
    let length = Library::build(query, &mut [0; SCRATCH_BYTES], &mut output);
    let table = Table::new(&output[..length.unwrap_or(0)]);
    let words = (0..=255).map_while(|state| table.word(StateNumber(state)).ok());
    words.collect()
}

#[test]
fn every_trial() {
    let program = built("order_listing");
    let trials = trials::all();
    let mut words_compared = 0;
    for trial in &trials {
        assert_eq!(trial.check::<Library>(), Ok(()), "trial {}", trial.name);
        let listing = program::printed(&program, &trial.query);
        assert!(trial.agrees_with(&listing), "{} {listing}", trial.name);
        let second = reference::listing(&trial.query);
        assert_eq!(listing, second, "trial {}", trial.name);
        let words = words(&trial.query);
        assert_eq!(words, held_numbers(&listing), "trial {}", trial.name);
        words_compared += words.len();
    }
    println!("{} trials, {words_compared} words", trials.len());
    assert!(words_compared > 200);
}
