//! Builds in steps.

use crate::raw;
use crate::refusal::{granted, value, Refusal};

/// A build that is begun and not done, for a planner that has no time for a whole build
/// at once. Each [step](Self::step) but the last settles one pair of a produced order and
/// a choice of sets in force. There is a step for each of the [pairs](Self::pairs) and one
/// more, which merges them and writes the table.
///
/// Query and scratch are borrowed until the build is over, so that nobody can write to
/// either between the steps, and the table is the one that [`build`](crate::build) writes. A
/// step takes the build and hands it back only where it goes on, so that no step follows the
/// last one. A build that is dropped is given up, and the next one that begins in its scratch
/// starts afresh.
///
/// The output may be the buffer of the table in use. Until the last step it keeps its
/// bytes, and lookups go on by the old table.
///
/// ```no_run
/// # fn plan_by(_: order_tables::Table) {}
/// # fn replace(query: &[u8], output: &mut [u8], old: usize) -> Result<usize, order_tables::Refusal> {
/// use order_tables::{Step, SteppedBuild, Table};
///
/// let mut scratch = [0; order_tables::SCRATCH_BYTES];
/// let mut build = SteppedBuild::begin(query, &mut scratch)?;
/// let length = loop {
///     // A control cycle, in which the planner has the old table.
///     plan_by(Table::new(&output[..old]));
///     println!("{} of {} pairs are settled", build.settled(), build.pairs());
///     match build.step(output)? {
///         Step::Settled(unfinished) => build = unfinished,
///         Step::Done(length) => break length,
///     }
/// };
/// plan_by(Table::new(&output[..length]));
/// # Ok(length)
/// # }
/// ```
///
/// The borrow keeps others from the scratch:
///
/// ```compile_fail,E0506
/// # fn changed(query: &[u8], output: &mut [u8]) -> Result<(), order_tables::Refusal> {
/// let mut scratch = [0; order_tables::SCRATCH_BYTES];
/// let build = order_tables::SteppedBuild::begin(query, &mut scratch)?;
/// scratch[2] = 1;
/// build.step(output)?;
/// # Ok(())
/// # }
/// ```
///
/// A build is not stepped twice by mistake, whatever came of the first step:
///
/// ```compile_fail,E0382
/// # fn again(query: &[u8], output: &mut [u8]) -> Result<(), order_tables::Refusal> {
/// let mut scratch = [0; order_tables::SCRATCH_BYTES];
/// let build = order_tables::SteppedBuild::begin(query, &mut scratch)?;
/// build.step(output)?;
/// build.step(output)?;
/// # Ok(())
/// # }
/// ```
#[derive(Debug)]
#[must_use = "the build goes on by its steps"]
pub struct SteppedBuild<'a> {
    query: &'a [u8],
    scratch: &'a mut [u8],
}

/// What a step did.
#[derive(Debug)]
#[must_use = "where a pair was settled, the build goes on"]
pub enum Step<'a> {
    /// One pair was settled; the build goes on.
    Settled(SteppedBuild<'a>),
    /// The build is done: the output's first bytes are the table, and this is its length.
    Done(usize),
}

impl<'a> SteppedBuild<'a> {
    /// Begins a build of a query in the scratch, of which
    /// [`SCRATCH_BYTES`](crate::SCRATCH_BYTES) are always enough: `order_table_begin`. Over
    /// an unfinished build, of this query or another, it starts afresh.
    pub fn begin(query: &'a [u8], scratch: &'a mut [u8]) -> Result<Self, Refusal> {
        granted(raw::table_begin(query, scratch)).map(|()| Self { query, scratch })
    }

    /// Settles the next pair or, when all are settled, merges them and writes the table into
    /// the output's first bytes, of which [`LONGEST_TABLE`](crate::LONGEST_TABLE) are always
    /// enough: `order_table_continue`.
    ///
    /// Only the last step looks at the output, and only it is refused, with
    /// [`Refusal::States`] or [`Refusal::Space`]. Then the output keeps its bytes, and
    /// the build is over.
    pub fn step(self, output: &mut [u8]) -> Result<Step<'a>, Refusal> {
        match value(raw::table_continue(self.query, self.scratch, output))? {
            0 => Ok(Step::Settled(self)),
            length => Ok(Step::Done(length.into())),
        }
    }

    /// How many pairs are settled.
    pub fn settled(&self) -> usize {
        let count = u16::from_le_bytes([self.scratch[0], self.scratch[1]]);
        usize::from(count - 1)
    }

    /// How many pairs there are to settle: P × 2^S.
    pub fn pairs(&self) -> usize {
        let (produced, sets) = (self.query[1], self.query[3]);
        usize::from(produced) << sets
    }
}
