//! The listing program, run as one.

use std::path::Path;

use reference::{program, trials};

/// What the program prints for a query on standard input.
fn printed(query: &[u8]) -> String {
    program::printed(Path::new(env!("CARGO_BIN_EXE_reference_listing")), query)
}

#[test]
fn prints_the_example() {
    let example = trials::example();
    assert_eq!(printed(&example.query), example.listing());
}

#[test]
fn prints_a_refusal() {
    let refused = trials::named("eight_sets");
    assert_eq!(printed(&refused.query), refused.listing());
    assert_eq!(printed(&[]), "refused 1\n");
}
