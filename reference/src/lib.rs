//! A second implementation of order tables for the log store's planner.
//!
//! It follows documents 01 and 02 in the plainest way that still runs quickly, so
//! that another implementation can be compared with it: orderings are lists of
//! entries kept in hash sets, columns are kept in sets, and nothing is shared with
//! any other implementation.
//!
//! The way from a query to an answer is: [`query`] reads the description, [`settled`]
//! says which orders are held under some dependencies, [`construction`] asks it of
//! every pair of a produced order and a choice of sets, [`merging`] leaves the fewest
//! rows, [`table`] writes them down and looks them up. [`builder`] and
//! [`mod@listing`] join these, [`verification`] puts a supplier's table on trial,
//! [`counterexample`] finds two rows that show why an order is not held, and
//! [`buffers`] puts what they give into lent buffers. [`stepped`] builds by calls that
//! settle one pair each, with what it has so far in the lent scratch. [`derivation`] has
//! the derivation's steps themselves, for few columns. [`model`] answers lookups by them
//! and without a table, and [`rows`] says what the answers mean for rows.
//!
//! For comparisons, [`implementation`] says what an implementation does,
//! [`mod@trials`] reads the folder trials/ and puts its trials to one, and
//! [`mod@lookups`] does so with lists of lookups. [`random`] and [`samples`] make
//! repeatable random inputs; [`program`] runs a program.

#![forbid(unsafe_code)]

pub mod buffers;
pub mod builder;
pub mod construction;
pub mod counterexample;
pub mod derivation;
pub mod implementation;
pub mod listing;
pub mod lookups;
pub mod merging;
pub mod model;
pub mod program;
pub mod query;
pub mod random;
pub mod refusal;
pub mod rows;
pub mod samples;
pub mod settled;
pub mod stepped;
pub mod table;
pub mod trials;
pub mod verification;

pub use implementation::{Implementation, Reference};
pub use listing::listing;
pub use query::{Dependency, Entry, Query, Rule};
