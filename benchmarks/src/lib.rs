//! Times the proved library beside other ways to the same answers, and counts the
//! instructions of its calls.
//!
//! [`by_hand`] has the lookups in hand-written C, [`reduction`] asks without a
//! table. [`timing`] measures times and [`instructions`] counts. [`worst`] looks for
//! queries that are slow to build, and [`worst_merge`] for [`held_words`] that are slow
//! to merge; [`large_queries`] has some that are slow by their making. [`report`] prints. The programs are `benchmarks`, `slowest_build` and
//! `slowest_merge`.

pub mod by_hand;
pub mod held_words;
pub mod instructions;
pub mod large_queries;
pub mod reduction;
pub mod report;
pub mod timing;
pub mod worst;
pub mod worst_merge;
