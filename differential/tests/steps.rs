//! Stepped builds: the proved library and the second implementation answer every call of
//! a beginning and of a continuing alike, and leave the same bytes in the lent buffers,
//! whatever these hold. With query and scratch untouched between the calls, both end as
//! one build of the proved library does. Otherwise, with other held words, other counts or
//! another query between the calls, they merge the same words. Refusal 7 never comes.

use differential::directions::Directions;
use differential::lent::Lent;
use differential::tally::Tally;
use differential::{codes, proved, rounds, SCRATCH_LENGTHS};
use order_tables::{LONGEST_TABLE, SCRATCH_BYTES};
use reference::query::order;
use reference::random::Random;
use reference::refusal::{COUNT, ORDERINGS, SPACE, STATES};
use reference::samples::{
    self, any_bytes, chain_of_equals, longest_table, near_the_most_rows, own_column_per_set,
    Changed, Shape,
};
use reference::{stepped, trials, Query};

/// The length of a table, where there is none.
const SOME_TABLE: usize = 22;

/// A query that is lent.
struct Given {
    bytes: Vec<u8>,
    read: Result<Query, u8>,
}

impl Given {
    fn new(bytes: Vec<u8>) -> Self {
        let read = Query::read(&bytes);
        Self { bytes, read }
    }

    /// How many pairs it has; some where it is refused.
    fn pairs(&self) -> usize {
        self.read.as_ref().map_or(8, Query::pairs)
    }
}

impl From<Query> for Given {
    fn from(query: Query) -> Self {
        Self::new(query.write())
    }
}

/// A buffer that is lent to the proved library, and what has to be in it.
struct Buffer {
    lent: Lent,
    expected: Vec<u8>,
}

impl Buffer {
    fn new(random: &mut Random, bytes: &[u8]) -> Self {
        Self {
            lent: Lent::new(random, bytes),
            expected: bytes.to_vec(),
        }
    }

    fn filled(random: &mut Random, length: usize) -> Self {
        let lent = Lent::filled(random, length);
        let expected = lent.bytes().to_vec();
        Self { lent, expected }
    }

    /// Changes the bytes between two calls.
    fn change(&mut self, change: impl FnOnce(&mut [u8])) {
        change(&mut self.expected);
        self.lent.bytes_mut().copy_from_slice(&self.expected);
    }

    /// Sets the count, as far as there is room for it.
    fn set_count(&mut self, count: u16) {
        self.change(|scratch| {
            for (byte, of_count) in scratch.iter_mut().zip(count.to_le_bytes()) {
                *byte = of_count;
            }
        });
    }

    fn is_as_expected(&self) -> bool {
        self.lent.is_now(&self.expected)
    }
}

/// A comparison of stepped builds, and what was compared so far.
struct Comparison {
    random: Random,
    directions: Directions,
    beginnings: Tally,
    calls: Tally,
    settled: usize,
    done: usize,
}

impl Comparison {
    fn new(seed: u64) -> Self {
        Self {
            random: Random::new(seed),
            directions: Directions::default(),
            beginnings: Tally::default(),
            calls: Tally::default(),
            settled: 0,
            done: 0,
        }
    }

    /// A scratch of one of the lengths that are long enough.
    fn scratch(&mut self) -> Buffer {
        let (_, long) = SCRATCH_LENGTHS.split_at(3);
        let length = long[self.random.below(long.len())];
        Buffer::filled(&mut self.random, length)
    }

    /// An output of any length around that of a table.
    fn output(&mut self, table: usize) -> Buffer {
        let length = rooms(table)[self.random.below(5)];
        Buffer::filled(&mut self.random, length)
    }

    /// Compares the beginning of a build, and gives the outcome.
    fn begin(&mut self, query: &Given, scratch: &mut Buffer) -> Result<(), u8> {
        let lent = Lent::new(&mut self.random, &query.bytes);
        let expected = stepped::begin(&query.read, &mut scratch.expected);
        let code = proved::table_begin(lent.bytes(), scratch.lent.bytes_mut());
        let case = || format!("query {:?}", query.bytes);
        assert_eq!(code, codes::answer(expected.map(|()| 0)), "{}", case());
        assert!(lent.is_unchanged(), "written to the query: {}", case());
        assert!(scratch.is_as_expected(), "other scratch: {}", case());
        self.beginnings.count(code);
        self.directions.count(&query.bytes);
        expected
    }

    /// Compares a continuing call, and gives the outcome.
    fn call(
        &mut self,
        query: &Given,
        scratch: &mut Buffer,
        output: &mut Buffer,
    ) -> Result<Option<usize>, u8> {
        let lent = Lent::new(&mut self.random, &query.bytes);
        let count: Vec<u8> = scratch.expected.iter().take(2).copied().collect();
        let expected =
            stepped::continue_build(&query.read, &mut scratch.expected, &mut output.expected);
        let code = proved::table_continue(
            lent.bytes(),
            scratch.lent.bytes_mut(),
            output.lent.bytes_mut(),
        );
        let case = || format!("count {count:?}, query {:?}", query.bytes);
        let value = expected.map(|done| done.map_or(0, |length| length as u32));
        assert_eq!(code, codes::answer(value), "{}", case());
        assert!(lent.is_unchanged(), "written to the query: {}", case());
        assert!(scratch.is_as_expected(), "other scratch: {}", case());
        assert!(output.is_as_expected(), "other output: {}", case());
        self.calls.count(code);
        self.settled += usize::from(expected == Ok(None));
        self.done += usize::from(matches!(expected, Ok(Some(_))));
        expected
    }

    /// Settles so many pairs of a build, each in a call with another output.
    fn settle(&mut self, query: &Given, scratch: &mut Buffer, pairs: usize) {
        for _ in 0..pairs {
            let mut output = self.output(SOME_TABLE);
            assert_eq!(self.call(query, scratch, &mut output), Ok(None));
        }
    }

    /// Compares the call that comes next with an output of each length around that of the
    /// table that comes of it, if one does. Gives the outcome in the longest.
    fn call_in_each_room(&mut self, query: &Given, scratch: &Buffer) -> Result<Option<usize>, u8> {
        let outcomes = rooms(due(query, scratch)).map(|room| {
            let mut scratch = Buffer::new(&mut self.random, &scratch.expected);
            let mut output = Buffer::filled(&mut self.random, room);
            self.call(query, &mut scratch, &mut output)
        });
        outcomes[4]
    }

    /// Compares a whole stepped build, and its end with one build of the proved library.
    fn compare_whole(&mut self, query: &Given) {
        let mut scratch = self.scratch();
        let before = scratch.expected.clone();
        if self.begin(query, &mut scratch).is_ok() {
            self.settle(query, &mut scratch, query.pairs());
        }
        for room in rooms(due(query, &scratch)) {
            let mut last = Buffer::new(&mut self.random, &scratch.expected);
            let mut output = Buffer::filled(&mut self.random, room);
            let (mut built_scratch, mut built) = (before.clone(), output.expected.clone());
            let code = proved::table_build(&query.bytes, &mut built_scratch, &mut built);
            let ended = self.call(query, &mut last, &mut output);
            let ended = ended.map(|length| length.unwrap_or(0) as u32);
            assert_eq!(code, codes::answer(ended), "{:?}", query.bytes);
            assert!(built == output.expected, "{:?}", query.bytes);
            assert!(built_scratch == last.expected, "{:?}", query.bytes);
        }
    }

    /// Says what was compared.
    fn report(&self, what: &str) {
        let [beginnings, calls] = [&self.beginnings, &self.calls];
        println!("{what}: {} beginnings: {beginnings}", beginnings.all());
        println!("    {} continuing calls: {calls}", calls.all());
        let Self { settled, done, .. } = self;
        println!("    {settled} pairs settled, {done} tables written");
        println!("    queries {}", self.directions);
        assert_eq!(beginnings.with(ORDERINGS) + calls.with(ORDERINGS), 0);
    }
}

/// Lengths of an output around that of a table: two that are too short, then three that
/// are long enough.
fn rooms(table: usize) -> [usize; 5] {
    [0, table - 1, table, table + 1, LONGEST_TABLE + 9]
}

/// The length of the table that the next call writes, if it does, and of some other one if
/// not.
fn due(query: &Given, scratch: &Buffer) -> usize {
    let mut scratch = scratch.expected.clone();
    let next = stepped::continue_build(&query.read, &mut scratch, &mut [0; LONGEST_TABLE]);
    next.ok().flatten().unwrap_or(SOME_TABLE)
}

#[test]
fn queries_of_every_kind_built_in_steps() {
    for round in 0..rounds() {
        let mut comparison = Comparison::new(1000 * round + 1);
        for _ in 0..4000 {
            let query = samples::any_query(&mut comparison.random);
            comparison.compare_whole(&Given::new(query));
        }
        comparison.report("queries of every kind, built in steps");
        assert!(comparison.settled > 100_000 && comparison.done > 5000);
        let given = [0, 1, 2, 3, 4, 5, 6];
        assert!(given.iter().all(|&n| comparison.beginnings.with(n) > 5));
        assert!(given.iter().all(|&n| comparison.calls.with(n) > 5 * 5));
        assert!([STATES, SPACE]
            .iter()
            .all(|&n| comparison.calls.with(n) > 100));
        assert!(comparison.directions.are_mixed());
    }
}

#[test]
fn trials_and_queries_at_the_limits_built_in_steps() {
    let mut comparison = Comparison::new(2);
    for trial in trials::all() {
        comparison.compare_whole(&Given::new(trial.query));
    }
    for (joined, unsorted) in [(true, false), (false, false), (true, true), (false, true)] {
        comparison.compare_whole(&near_the_most_rows(joined, unsorted).into());
    }
    for sets in [0, 7, 8] {
        comparison.compare_whole(&own_column_per_set(sets).into());
        comparison.compare_whole(&chain_of_equals(sets.max(1)).into());
    }
    comparison.compare_whole(&longest_table().into());
    for _ in 0..3 {
        let largest = samples::query(&mut comparison.random, Shape::LARGEST);
        comparison.compare_whole(&largest.into());
    }
    comparison.report("trials and queries at the limits, built in steps");
    assert!(comparison.settled > 4 * 2048 && comparison.done > 150);
    assert!([STATES, SPACE]
        .iter()
        .all(|&n| comparison.calls.with(n) > 10));
}

/// How often each kind of count was met.
#[derive(Debug, Default)]
struct Counts {
    none: usize,
    of_a_pair: usize,
    last: usize,
    one_too_many: usize,
    most: usize,
    other: usize,
}

impl Counts {
    fn count(&mut self, count: u16, pairs: usize) {
        let met = match usize::from(count) {
            0 => &mut self.none,
            count if count <= pairs => &mut self.of_a_pair,
            count if count == pairs + 1 => &mut self.last,
            count if count == pairs + 2 => &mut self.one_too_many,
            65_535 => &mut self.most,
            _ => &mut self.other,
        };
        *met += 1;
    }

    fn least(&self) -> usize {
        let Self {
            none,
            of_a_pair,
            last,
            one_too_many,
            most,
            other,
        } = *self;
        [none, of_a_pair, last, one_too_many, most, other]
            .into_iter()
            .fold(usize::MAX, usize::min)
    }
}

/// Every length of scratch, with every kind of count in bytes of any kind, and in the last
/// call with every kind of output: so each two refusals come together.
#[test]
fn counts_and_lengths_of_every_kind_in_any_bytes() {
    for round in 0..rounds() {
        let mut comparison = Comparison::new(1000 * round + 3);
        let (mut counts, mut short) = (Counts::default(), 0);
        for _ in 0..1000 {
            let query = Given::new(samples::any_query(&mut comparison.random));
            for length in SCRATCH_LENGTHS {
                let mut scratch = Buffer::filled(&mut comparison.random, length);
                let _ = comparison.begin(&query, &mut scratch);
            }
            for count in samples::counts(&mut comparison.random, query.pairs()) {
                let random = &mut comparison.random;
                let any_length = SCRATCH_LENGTHS[random.below(SCRATCH_LENGTHS.len())];
                let length = [any_length, SCRATCH_BYTES][random.below(2)];
                let bytes = any_bytes(random, length);
                let mut scratch = Buffer::new(random, &bytes);
                scratch.set_count(count);
                let _ = comparison.call_in_each_room(&query, &scratch);
                match query.read.is_ok() && length >= SCRATCH_BYTES {
                    true => counts.count(count, query.pairs()),
                    false => short += usize::from(length < SCRATCH_BYTES),
                }
            }
        }
        comparison.report("counts and lengths of every kind, in any bytes");
        println!("    {short} short scratches, {counts:?}");
        assert!(counts.least() > 200 && short > 500);
        let given = [0, 1, 2, 3, 4, 5, 6, SPACE];
        assert!(given.iter().all(|&n| comparison.beginnings.with(n) > 10));
        assert!(given.iter().all(|&n| comparison.calls.with(n) > 50));
        assert!([STATES, COUNT]
            .iter()
            .all(|&n| comparison.calls.with(n) > 100));
    }
}

#[test]
fn held_words_changed_between_the_calls() {
    for round in 0..rounds() {
        let mut comparison = Comparison::new(1000 * round + 4);
        let mut ended = [[0; 2]; Changed::ALL.len()];
        for _ in 0..400 {
            let query = samples::any_read_query(&mut comparison.random);
            let given = Given::from(query.clone());
            let pairs = query.pairs();
            let mut built = comparison.scratch();
            comparison.begin(&given, &mut built).expect("not refused");
            let early = comparison.random.between((0, pairs));
            comparison.settle(&given, &mut built, early);
            for (change, ended) in Changed::ALL.into_iter().zip(&mut ended) {
                let mut scratch = Buffer::new(&mut comparison.random, &built.expected);
                let random = &mut comparison.random;
                scratch.change(|scratch| change.change(random, &query, scratch));
                // Words of pairs that are not settled yet are written over.
                let late = match comparison.random.below(3) {
                    0 => pairs - early,
                    _ => 0,
                };
                comparison.settle(&given, &mut scratch, late);
                scratch.set_count(pairs as u16 + 1);
                if comparison.random.one_in(2) {
                    let behind = 2 + 2 * pairs;
                    let any = any_bytes(&mut comparison.random, SCRATCH_BYTES - behind);
                    scratch.change(|scratch| scratch[behind..SCRATCH_BYTES].copy_from_slice(&any));
                }
                let outcome = comparison.call_in_each_room(&given, &scratch);
                assert!(matches!(outcome, Ok(Some(_)) | Err(STATES)), "{outcome:?}");
                ended[usize::from(outcome.is_ok())] += 1;
            }
        }
        comparison.report("held words changed between the calls");
        println!("    refused with 8 and merged, by the change:");
        for (change, [refused, merged]) in Changed::ALL.iter().zip(ended) {
            println!("    {change:?}: {refused} and {merged}");
            assert!(merged > 200, "{change:?}");
        }
        assert!(comparison.calls.with(STATES) > 100 && comparison.directions.are_mixed());
    }
}

/// A query of two produced orders, seven sets and nine orders in all, and held words for its
/// pairs: those of the first order are the choices, so that it has 128 rows.
fn words_of_128_rows() -> (Query, Vec<u16>) {
    let query = Query {
        columns: 8,
        produced: vec![order(&[0]), order(&[1])],
        tested: (1..8).map(|column| order(&[column, 0])).collect(),
        sets: 7,
        dependencies: vec![],
    };
    let words = (0..128).chain([127; 128]);
    (query, words.collect())
}

#[test]
fn changed_words_of_128_rows_and_of_one_more() {
    let mut comparison = Comparison::new(5);
    let (query, words) = words_of_128_rows();
    let given = Given::from(query);
    let mut call = |words: &[u16]| {
        let mut scratch = comparison.scratch();
        comparison.begin(&given, &mut scratch).expect("not refused");
        scratch.change(|scratch| {
            let words = words.iter().flat_map(|word| word.to_le_bytes());
            for (byte, of_word) in scratch[2..].iter_mut().zip(words) {
                *byte = of_word;
            }
        });
        scratch.set_count(257);
        comparison.call_in_each_room(&given, &scratch)
    };
    let length = 4 + 2 + 128 * 7 + 128 * 2;
    assert_eq!(call(&words), Ok(Some(length)));
    for choice in 0..128 {
        // The second order's start is told from all others, unless by bits past the orders.
        let mut words = words.clone();
        words[128 + choice] |= 1 << 8;
        assert_eq!(call(&words), Err(STATES), "{choice}");
        words[128 + choice] ^= 1 << 8 | 1 << 9;
        assert_eq!(call(&words), Ok(Some(length)), "{choice}");
    }
    comparison.report("changed words of 128 rows and of one more");
}

#[test]
fn another_query_in_between() {
    for round in 0..rounds() {
        let mut comparison = Comparison::new(1000 * round + 6);
        let (mut by_the_other, mut merged_by_the_other) = (0, 0);
        for _ in 0..1000 {
            let query = Given::from(samples::any_read_query(&mut comparison.random));
            let other = match comparison.random.below(4) {
                0 => Given::new(samples::any_query(&mut comparison.random)),
                _ => Given::from(samples::any_read_query(&mut comparison.random)),
            };
            let mut scratch = comparison.scratch();
            comparison.begin(&query, &mut scratch).expect("not refused");
            for _ in 0..40 {
                let is_other = comparison.random.one_in(2);
                let lent = if is_other { &other } else { &query };
                let mut output = comparison.output(due(lent, &scratch));
                match comparison.call(lent, &mut scratch, &mut output) {
                    Ok(None) => by_the_other += usize::from(is_other),
                    Ok(Some(_)) => merged_by_the_other += usize::from(is_other),
                    Err(STATES | SPACE) => {}
                    Err(_) => continue,
                }
                // A new build, or close to the last call of the one or the other.
                let no_build = scratch.expected.starts_with(&[0, 0]);
                if no_build && comparison.random.one_in(2) {
                    comparison.begin(&query, &mut scratch).expect("not refused");
                } else if no_build || comparison.random.one_in(16) {
                    let pairs = [&query, &other][comparison.random.below(2)].pairs();
                    let count = pairs + comparison.random.below(3);
                    scratch.set_count(count as u16);
                }
            }
        }
        comparison.report("another query in between");
        println!("    {by_the_other} pairs settled and {merged_by_the_other} tables written by it");
        assert!(by_the_other > 5000 && merged_by_the_other > 500);
        let given = [0, 1, 2, 3, 4, 5, 6, STATES, SPACE, COUNT];
        assert!(given.iter().all(|&n| comparison.calls.with(n) > 10));
        assert!(comparison.directions.are_mixed());
    }
}

#[test]
fn beginning_over_an_unfinished_build() {
    for round in 0..rounds() {
        let mut comparison = Comparison::new(1000 * round + 7);
        for _ in 0..200 {
            let [query, other] =
                [(); 2].map(|()| samples::any_read_query(&mut comparison.random).into());
            let mut scratch = comparison.scratch();
            for unfinished in [&query, &other] {
                comparison
                    .begin(unfinished, &mut scratch)
                    .expect("not refused");
                let pairs = comparison.random.between((0, unfinished.pairs().min(100)));
                comparison.settle(unfinished, &mut scratch, pairs);
                comparison.begin(&query, &mut scratch).expect("not refused");
                let fresh = [&[1, 0][..], &[0; SCRATCH_BYTES - 2]].concat();
                assert!(scratch.lent.bytes()[..SCRATCH_BYTES] == fresh);
                if query.pairs() <= 100 {
                    comparison.settle(&query, &mut scratch, query.pairs());
                    let last = comparison.call_in_each_room(&query, &scratch);
                    assert!(matches!(last, Ok(Some(_)) | Err(STATES)), "{last:?}");
                }
            }
        }
        comparison.report("beginning over an unfinished build");
        assert!(comparison.beginnings.with(0) == 800 && comparison.done > 500);
        assert!(comparison.directions.are_mixed());
    }
}
