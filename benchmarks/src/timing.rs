//! Measuring times.

use std::hint::black_box;
use std::time::Instant;

use order_tables::{raw as proved, LONGEST_TABLE, SCRATCH_BYTES};
use reference::{Implementation, Reference};

/// Nanoseconds per call of several ways to do the same work, each of which makes
/// so many calls at once. The ways take turns, and the least time of each
/// counts.
pub fn take_turns<const WAYS: usize>(
    turns: usize,
    calls: usize,
    mut ways: [&mut dyn FnMut(); WAYS],
) -> [f64; WAYS] {
    let mut least = [f64::INFINITY; WAYS];
    for _ in 0..turns {
        for (way, least) in ways.iter_mut().zip(&mut least) {
            let begin = Instant::now();
            way();
            let nanoseconds = begin.elapsed().as_nanos() as f64;
            *least = least.min(nanoseconds / calls as f64);
        }
    }
    least
}

/// Buffers of the proved library's and the second implementation's builds.
pub struct Builds {
    scratch: Vec<u8>,
    output: Vec<u8>,
}

impl Builds {
    /// Buffers with room for every build.
    #[expect(clippy::new_without_default, reason = "there is no plainer value")]
    pub fn new() -> Self {
        Self {
            scratch: vec![0; SCRATCH_BYTES],
            output: vec![0; LONGEST_TABLE],
        }
    }

    /// Builds with the proved library: the refusal, or the table's length.
    pub fn proved(&mut self, query: &[u8]) -> u32 {
        proved::table_build(black_box(query), &mut self.scratch, &mut self.output)
    }

    /// The table that was built last, of which this is the length.
    pub fn table(&self, length: u32) -> &[u8] {
        &self.output[..length as usize]
    }

    /// Nanoseconds of a build by the proved library.
    pub fn proved_time(&mut self, turns: usize, query: &[u8]) -> f64 {
        let mut build = || {
            black_box(self.proved(query));
        };
        take_turns(turns, 1, [&mut build])[0]
    }

    /// Nanoseconds of a trial of a table for a query by the proved library, of one
    /// by the second implementation, and of a build by the proved library, in
    /// turns.
    ///
    /// # Panics
    ///
    /// When the table is refused.
    pub fn trial_times(&mut self, turns: usize, query: &[u8], table: &[u8]) -> [f64; 3] {
        let mut proved_scratch = vec![0; SCRATCH_BYTES];
        let mut proved = || {
            let (query, table) = (black_box(query), black_box(table));
            let verified = proved::table_verify(query, table, &mut proved_scratch);
            assert_eq!(black_box(verified), 0);
        };
        let mut second_scratch = vec![0; SCRATCH_BYTES];
        let mut second = || {
            let (query, table) = (black_box(query), black_box(table));
            let verified = Reference::verify(query, table, &mut second_scratch);
            assert_eq!(black_box(verified), Ok(()));
        };
        let mut build = || {
            black_box(self.proved(query));
        };
        take_turns(turns, 1, [&mut proved, &mut second, &mut build])
    }

    /// Nanoseconds of a build by the proved library and of one by the second
    /// implementation, in turns.
    pub fn both_times(&mut self, turns: usize, query: &[u8]) -> [f64; 2] {
        let mut proved_buffers = Self::new();
        let mut proved = || {
            black_box(proved_buffers.proved(query));
        };
        let mut second = || {
            let built = Reference::build(black_box(query), &mut self.scratch, &mut self.output);
            let _ = black_box(built);
        };
        take_turns(turns, 1, [&mut proved, &mut second])
    }
}
