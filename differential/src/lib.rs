//! Compares the functions of the proved library with the second
//! implementation, on inputs that repeat.
//!
//! [`proved`] has the library's functions as they are, and [`codes`] says which
//! numbers they have to return for the second implementation's answers.
//! [`library`] puts trials and lists of lookups to the library, [`mod@replay`]
//! makes the bytes of a replay, [`lent`] lends bytes between guard bytes,
//! [`programs`] finds the proved programs, and [`tally`] and [`directions`] count. The
//! tests of this package do the comparing.
//!
//! Each test compares with fixed seeds. With the environment variable
//! `ORDER_TABLES_ROUNDS` the tests of building in one call or in steps, of listing, of
//! verifying and of asking for two rows go so many [`rounds`], each with seeds of its own.

#![forbid(unsafe_code)]

use std::env;

pub mod codes;
pub mod directions;
pub mod lent;
pub mod library;
pub mod programs;
pub mod replay;
pub mod tally;

pub use library::Library;
pub use order_tables::raw as proved;

/// Lengths of scratch around what a build takes: some too short, then some long
/// enough.
pub const SCRATCH_LENGTHS: [usize; 6] = [0, 1, 16_383, 16_384, 16_385, 20_000];

/// How many rounds to go: as many as `ORDER_TABLES_ROUNDS` says, or one.
///
/// # Panics
///
/// When it says no number.
pub fn rounds() -> u64 {
    let rounds = env::var("ORDER_TABLES_ROUNDS").unwrap_or("1".to_owned());
    rounds.parse().expect("ORDER_TABLES_ROUNDS is a number")
}
