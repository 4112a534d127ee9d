//! The command-line tool `order_tables`, for people who write queries and review tables:
//! a query as text, its table in words and as a picture, a supplier's table on trial, and
//! two rows for an order that is not held.
//!
//! Nothing is decided here. Every table and trial and any two rows come from the proved
//! library, by way of [`order_tables`]; where a refusal is told in words, which size, item
//! or answer is refused is found by asking the library again.
//!
//! [`command`] reads the command line and [`help`] has what is said of it. [`load`] reads
//! a query, as [`mod@text`] or as bytes, into a `query` with names. `explain`, `draw`,
//! `verify` and `counterexample` do what the commands of these names do, over `states`
//! and `runs`. `refusals` and [`failure`] say why something is not done, with `sizes`,
//! `items` and their `names`, and `near` what a misspelt name may mean.

#![forbid(unsafe_code)]

pub mod command;
mod counterexample;
mod draw;
mod explain;
pub mod failure;
pub mod help;
mod items;
pub mod load;
mod names;
mod near;
mod query;
mod refusals;
mod runs;
mod sizes;
mod states;
pub mod text;
mod verify;
mod words;
