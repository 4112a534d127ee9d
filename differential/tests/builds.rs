//! Building and listing: the proved library and the second implementation give
//! the same tables, the same listings and the same refusals, and leave the lent
//! buffers as document 01 says. The built tables are the smallest. Lists of lookups
//! on them are answered as the plain model answers them, and the words of their
//! states have its answers as bits. Refusal 7 never comes.

use differential::directions::Directions;
use differential::lent::Lent;
use differential::replay::{lookup_bytes, replayed_answers};
use differential::tally::Tally;
use differential::{codes, proved, rounds, Library, SCRATCH_LENGTHS};
use order_tables::{LISTING_BYTES, LONGEST_TABLE, SCRATCH_BYTES};
use reference::builder::build_table;
use reference::construction::of_pairs;
use reference::lookups::{model_answers, table_answers, Answer};
use reference::merging::merged;
use reference::query::ColumnSet;
use reference::random::Random;
use reference::refusal::{ORDERINGS, STATES};
use reference::samples::{
    self, chain_of_equals, constants, joined_starts, longest_table, most_orders,
    near_the_most_rows, own_column_per_set, turned, Shape,
};
use reference::table::Table;
use reference::verification::two_alike;
use reference::{buffers, listing, trials, Dependency, Implementation, Query, Rule};

/// The length of a table, for queries that have none.
const SOME_TABLE: usize = 22;

/// Pairs of lengths of scratch and of output or text, for what takes so many
/// bytes and the most that anything takes.
type Lengths = fn(&mut Random, usize, usize) -> Vec<(usize, usize)>;

/// Each length of scratch with outputs that are too short, just long enough, and
/// longer.
fn all_lengths(_: &mut Random, length: usize, longest: usize) -> Vec<(usize, usize)> {
    let outputs = [0, length - 1, length, length + 9, longest];
    SCRATCH_LENGTHS
        .iter()
        .flat_map(|&scratch| outputs.map(|output| (scratch, output)))
        .collect()
}

/// Lengths that are just enough, and two other pairs.
fn some_lengths(random: &mut Random, length: usize, longest: usize) -> Vec<(usize, usize)> {
    let mut lengths = all_lengths(random, length, longest);
    random.shuffle(&mut lengths);
    lengths.truncate(2);
    lengths.push((SCRATCH_BYTES, length));
    lengths
}

/// A comparison of builds and listings, and what was compared so far.
struct Comparison {
    random: Random,
    directions: Directions,
    queries: Tally,
    builds: Tally,
    listings: Tally,
}

impl Comparison {
    fn new(seed: u64) -> Self {
        Self {
            random: Random::new(seed),
            directions: Directions::default(),
            queries: Tally::default(),
            builds: Tally::default(),
            listings: Tally::default(),
        }
    }

    /// Compares builds and listings of a query.
    fn compare(&mut self, query: &[u8], lengths: Lengths) {
        self.compare_builds(query, lengths);
        self.compare_lists(query, lengths);
    }

    /// Compares builds and listings of a query, and of one with columns turned round that
    /// has the same table.
    fn compare_either_way(&mut self, query: &Query) {
        let mut rules = query.dependencies.iter().map(|dependency| &dependency.rule);
        let columns = match rules.any(|rule| matches!(rule, Rule::Equal(..))) {
            true => ColumnSet::MAX,
            false => 0b0101_0101_0101,
        };
        let turned = turned(query, columns);
        assert_eq!(rows(&turned), rows(query), "{turned:?}");
        for query in [query, &turned] {
            self.compare(&query.write(), some_lengths);
        }
    }

    /// Compares builds of a query.
    fn compare_builds(&mut self, query: &[u8], lengths: Lengths) {
        self.directions.count(query);
        let table = build_table(query);
        let length = table.as_ref().map_or(SOME_TABLE, Vec::len);
        let known = |scratch: &mut [u8], output: &mut [u8]| buffers::build(&table, scratch, output);
        for (scratch, output) in lengths(&mut self.random, length, LONGEST_TABLE) {
            let case = format!("build with {scratch} and {output} bytes of query {query:?}");
            let code = self.compare_call(&case, query, scratch, output, known, proved::table_build);
            self.builds.count(code);
        }
        self.queries.count(codes::answer(table.map(|_| 0)));
    }

    /// Compares listings of a query.
    fn compare_lists(&mut self, query: &[u8], lengths: Lengths) {
        self.directions.count(query);
        let lines = listing::lines(query);
        let length = listing::printed(&lines).len();
        let known = |scratch: &mut [u8], text: &mut [u8]| buffers::list(&lines, scratch, text);
        for (scratch, text) in lengths(&mut self.random, length, LISTING_BYTES) {
            let case = format!("listing with {scratch} and {text} bytes of query {query:?}");
            let code = self.compare_call(&case, query, scratch, text, known, proved::table_list);
            self.listings.count(code);
        }
    }

    /// Calls a function of the proved library in buffers of these lengths, and
    /// compares its number and all bytes with what is known.
    fn compare_call(
        &mut self,
        case: &str,
        query: &[u8],
        scratch: usize,
        output: usize,
        known: impl Fn(&mut [u8], &mut [u8]) -> Result<usize, u8>,
        call: fn(&[u8], &mut [u8], &mut [u8]) -> u32,
    ) -> u32 {
        let query = Lent::new(&mut self.random, query);
        let mut scratch = Lent::filled(&mut self.random, scratch);
        let mut output = Lent::filled(&mut self.random, output);
        let mut expected_scratch = scratch.bytes().to_vec();
        let mut expected_output = output.bytes().to_vec();
        let expected = known(&mut expected_scratch, &mut expected_output);
        let expected = codes::answer(expected.map(|length| length as u32));

        let code = call(query.bytes(), scratch.bytes_mut(), output.bytes_mut());
        assert_eq!(code, expected, "{case}");
        assert!(query.is_unchanged(), "written to the query: {case}");
        assert!(output.is_now(&expected_output), "other bytes: {case}");
        assert!(scratch.is_now(&expected_scratch), "other scratch: {case}");
        code
    }

    /// Says what was compared.
    fn report(&self, what: &str) {
        let compared: Vec<String> = [
            ("queries", &self.queries),
            ("builds", &self.builds),
            ("listings", &self.listings),
        ]
        .iter()
        .filter(|(_, tally)| tally.all() > 0)
        .map(|(kind, tally)| format!("{} {kind}: {tally}", tally.all()))
        .collect();
        println!("{what}: {}", compared.join("; "));
        println!("    queries {}", self.directions);
    }
}

#[test]
fn queries_of_every_kind_built() {
    for round in 0..rounds() {
        let mut comparison = Comparison::new(1000 * round + 1);
        for _ in 0..20_000 {
            let query = samples::any_query(&mut comparison.random);
            comparison.compare_builds(&query, some_lengths);
        }
        comparison.report("queries of every kind, built");
        assert!(comparison.queries.with(0) > 8000);
        // A query that checks 1 to 6 refuse is refused in each of its three builds.
        let given = [1, 2, 3, 4, 5, 6, STATES];
        assert!(given.iter().all(|&n| comparison.queries.with(n) > 80));
        assert!(given.iter().all(|&n| comparison.builds.with(n) > 2 * 80));
        assert!([0, 9].iter().all(|&n| comparison.builds.with(n) > 3 * 80));
        assert_eq!(comparison.builds.with(ORDERINGS), 0);
        assert!(comparison.directions.are_mixed());
        assert!(comparison
            .directions
            .descending_with(&[1, 2, 3, 4, 5, 6], 20));
    }
}

#[test]
fn queries_of_every_kind_listed() {
    for round in 0..rounds() {
        let mut comparison = Comparison::new(1000 * round + 2);
        for _ in 0..20_000 {
            let query = samples::any_query(&mut comparison.random);
            comparison.compare_lists(&query, some_lengths);
        }
        comparison.report("queries of every kind, listed");
        assert!(comparison.listings.with(0) > 20_000);
        assert!(comparison.listings.with(9) > 10_000);
        assert!(comparison.directions.are_mixed());
        assert!(comparison
            .directions
            .descending_with(&[1, 2, 3, 4, 5, 6], 20));
    }
}

#[test]
fn every_byte_of_the_example_changed() {
    let mut comparison = Comparison::new(3);
    let bytes = (0..32).chain([64, 65, 66, 79, 80, 127, 128, 129, 130, 131, 254, 255]);
    for query in [trials::example(), trials::named("both_directions")] {
        for query in samples::each_byte_changed(&query.query, bytes.clone()) {
            comparison.compare(&query, some_lengths);
        }
    }
    comparison.report("the example and one with both directions, with a byte changed");
    assert!((0..=6).all(|refusal| comparison.queries.with(refusal) > 0));
    assert!(comparison
        .directions
        .descending_with(&[0, 1, 2, 3, 4, 5, 6], 0));
}

#[test]
fn short_scratch_and_short_output_together() {
    let mut comparison = Comparison::new(9);
    for trial in trials::all() {
        comparison.compare(&trial.query, all_lengths);
    }
    for _ in 0..500 {
        let query = samples::any_query(&mut comparison.random);
        comparison.compare(&query, all_lengths);
    }
    comparison.report("short scratch and short output together");
    assert!([0, 1, 2, 3, 4, 5, 6, STATES]
        .iter()
        .all(|&refusal| comparison.queries.with(refusal) > 0));
}

#[test]
fn sizes_at_and_past_their_limits() {
    let mut comparison = Comparison::new(4);
    for sizes in samples::choices(samples::QUERY_EDGES) {
        let query = samples::query_of_sizes(&mut comparison.random, sizes);
        comparison.compare(&query, some_lengths);
    }
    for _ in 0..40 {
        let query = samples::query(&mut comparison.random, Shape::LARGEST).write();
        comparison.compare(&query, some_lengths);
        let damaged = samples::damaged(&mut comparison.random, &query);
        comparison.compare(&damaged, some_lengths);
        let query = samples::query_of_chains(&mut comparison.random, Shape::LARGEST);
        comparison.compare(&query.write(), some_lengths);
    }
    comparison.report("sizes at and past their limits");
    assert!([0, 2, STATES]
        .iter()
        .all(|&refusal| comparison.queries.with(refusal) > 25));
    assert!(comparison.queries.with(1) > 0);
}

/// The rows of the table that the proved library builds of a query, or the refusal.
fn rows(query: &Query) -> Result<u8, u8> {
    let mut output = [0; LONGEST_TABLE];
    let built = Library::build(&query.write(), &mut [0; SCRATCH_BYTES], &mut output);
    built.map(|_| output[0])
}

#[test]
fn rows_up_to_128_and_past_them() {
    let mut comparison = Comparison::new(5);
    for (joined, unsorted, expected) in [
        (true, false, Ok(127)),
        (false, false, Ok(128)),
        (true, true, Ok(128)),
        (false, true, Err(STATES)),
    ] {
        let query = near_the_most_rows(joined, unsorted);
        assert_eq!(rows(&query), expected, "{query:?}");
        comparison.compare_either_way(&query);
    }
    for sets in 0..=8 {
        let mut query = own_column_per_set(sets);
        comparison.compare_either_way(&query);
        // The same pairs, none of which is told from another.
        query.tested.clear();
        assert_eq!(rows(&query), Ok(1), "{query:?}");
        comparison.compare_either_way(&query);
        query.dependencies.clear();
        comparison.compare_either_way(&query);
        // One start more.
        query.produced.push(vec![]);
        assert_eq!(rows(&query), Ok(2), "{query:?}");
        comparison.compare_either_way(&query);
        comparison.compare_either_way(&joined_starts(sets));
    }
    for sets in 1..=8 {
        comparison.compare_either_way(&chain_of_equals(sets));
    }
    // The most orders, without and with the most sets and rows.
    for (query, expected) in [(most_orders(), 16), (longest_table(), 128)] {
        assert_eq!(rows(&query), Ok(expected), "{query:?}");
        comparison.compare_either_way(&query);
    }
    comparison.report("rows up to 128 and past them");
    assert_eq!(comparison.queries.with(STATES), 2 * 3);
    assert!(comparison.directions.are_mixed());
}

#[test]
fn orderings_are_never_refused() {
    for round in 0..rounds() {
        let mut comparison = Comparison::new(1000 * round + 6);
        for columns in 1..=12 {
            let query = constants(columns);
            assert_eq!(rows(&query), Ok(2), "{query:?}");
            comparison.compare(&query.write(), some_lengths);
        }
        for _ in 0..400 {
            // Seven constants or more, and any other dependencies.
            let shape = Shape {
                columns: (12, 12),
                dependencies: (8, 16),
                sets: (1, 6),
                ..Shape::FULL
            };
            let mut query = samples::query_of_chains(&mut comparison.random, shape);
            let constants = 7 + comparison.random.below(6) as u8;
            for (column, dependency) in (0..constants).zip(&mut query.dependencies) {
                *dependency = Dependency::fix(dependency.set, &[], column);
            }
            comparison.compare(&query.write(), some_lengths);
        }
        comparison.report("seven constants or more");
        assert!(comparison.queries.with(0) > 350 && comparison.directions.are_mixed());
        for tally in [
            &comparison.queries,
            &comparison.builds,
            &comparison.listings,
        ] {
            assert_eq!(tally.with(ORDERINGS), 0);
        }
    }
}

#[test]
fn settled_columns_of_many_columns_and_sets() {
    for round in 0..rounds() {
        let mut comparison = Comparison::new(1000 * round + 12);
        for _ in 0..2000 {
            let shape = [Shape::FULL, Shape::FEW_SETS, Shape::ONE_START];
            let shape = shape[comparison.random.below(3)];
            let query = samples::query_of_chains(&mut comparison.random, shape);
            comparison.compare_builds(&query.write(), some_lengths);
        }
        comparison.report("settled columns of many columns and sets");
        assert!(comparison.queries.with(0) > 1500 && comparison.directions.are_mixed());
    }
}

#[test]
fn built_tables_are_the_smallest() {
    for round in 0..rounds() {
        let mut random = Random::new(1000 * round + 10);
        let mut directions = Directions::default();
        let (mut tables, mut smaller) = (0, 0);
        for _ in 0..10_000 {
            let query = samples::any_query(&mut random);
            let mut output = [0; LONGEST_TABLE];
            let built = Library::build(&query, &mut [0; SCRATCH_BYTES], &mut output);
            let Ok(length) = built else {
                continue;
            };
            directions.count(&query);
            let table = Table::read(&output[..length]).expect("a built table has the form");
            assert_eq!(merged(&table), table, "{query:?}");
            assert_eq!(two_alike(&table), None, "{query:?}");
            let query = Query::read(&query).expect("the query has a table");
            let pairs = of_pairs(&query).states.len();
            tables += 1;
            smaller += usize::from(table.states.len() < pairs);
        }
        println!("{tables} built tables are the smallest, {smaller} have fewer rows than pairs");
        println!("    queries {directions}");
        assert!(tables > 4000 && smaller > 500 && directions.are_mixed());
    }
}

#[test]
fn lists_of_lookups_on_built_tables() {
    for round in 0..rounds() {
        let mut random = Random::new(1000 * round + 7);
        let mut directions = Directions::default();
        let mut answers = [0; 4];
        for (shape, count) in [
            (Shape::SMALL, 2000),
            (Shape::CHAINS, 2000),
            (Shape::MIDDLE, 300),
            (Shape::FULL, 500),
        ] {
            for _ in 0..count {
                let (query, table) = match random.below(2) {
                    0 => samples::query_with_table(&mut random, shape),
                    _ => samples::chains_with_table(&mut random, shape),
                };
                directions.count(&query.write());
                let lookups = samples::lookups(&mut random, &query, 40);
                let expected = model_answers(&query, &lookups);
                let table = Lent::new(&mut random, &table);
                assert_eq!(proved::table_check(table.bytes()), 0, "table of {query:?}");
                let given = table_answers::<Library>(table.bytes(), &lookups);
                assert_eq!(given, expected, "{lookups:?} on the table of {query:?}");
                assert!(table.is_unchanged(), "written to the table of {query:?}");

                let mut replayed = Lent::new(&mut random, &lookup_bytes(&lookups));
                let mut output = [0; LONGEST_TABLE];
                let length = proved::table_replay(
                    &query.write(),
                    &mut [0; SCRATCH_BYTES],
                    &mut output,
                    replayed.bytes_mut(),
                );
                assert_eq!(&output[..length as usize], table.bytes(), "{query:?}");
                let given = replayed_answers(&lookups, replayed.bytes());
                assert_eq!(given, expected, "{lookups:?} replayed on {query:?}");
                assert!(replayed.is_guarded(), "past the lookups of {query:?}");
                for answer in given {
                    answers[kind(answer)] += 1;
                }
            }
        }
        let [moves, held, not_held, refused] = answers;
        println!(
            "lists of lookups on 4800 built tables: {moves} entries and takes, \
             {held} held, {not_held} not held, {refused} refused"
        );
        println!("    queries {directions}");
        assert!(answers.iter().all(|&count| count > 5000) && directions.are_mixed());
    }
}

#[test]
fn the_same_sets_in_any_order_and_however_often() {
    for round in 0..rounds() {
        let mut random = Random::new(1000 * round + 11);
        let mut directions = Directions::default();
        let (mut sequences, mut held, mut not_held) = (0, 0, 0);
        for (shape, count) in [
            (Shape::CHAINS, 2000),
            (Shape::MIDDLE, 200),
            (Shape::FULL, 200),
        ] {
            for _ in 0..count {
                let (query, _) = samples::chains_with_table(&mut random, shape);
                directions.count(&query.write());
                let mut output = [0; LONGEST_TABLE];
                let length = Library::build(&query.write(), &mut [0; SCRATCH_BYTES], &mut output);
                let table = &output[..length.expect("the query has a table")];
                let produced = random.below(query.produced.len()) as u8;
                let sets: Vec<u8> = (0..query.sets).filter(|_| !random.one_in(4)).collect();
                let row = Library::follow(table, produced, &sets);
                let answers = model_answers(&query, &samples::asks_after(&query, produced, &sets));
                let answers = &answers[1 + sets.len()..];
                let word = row.map(|state| proved::table_word(table, state));
                assert_eq!(
                    word,
                    Ok(bits(answers)),
                    "{sets:?} on the table of {query:?}"
                );
                held += answers.iter().filter(|&&a| a == Answer::Held(true)).count();
                not_held += answers
                    .iter()
                    .filter(|&&a| a == Answer::Held(false))
                    .count();
                for _ in 0..4 {
                    let rearranged = samples::rearranged(&mut random, &sets);
                    let case = format!("{sets:?} {rearranged:?} on the table of {query:?}");
                    let lookups = samples::asks_after(&query, produced, &rearranged);
                    let given = table_answers::<Library>(table, &lookups);
                    assert!(given.ends_with(answers), "{case}");
                    let other = Library::follow(table, produced, &rearranged);
                    assert_eq!(other, row, "{case}");
                    sequences += usize::from(rearranged != sets);
                }
            }
        }
        println!(
            "the same sets in {sequences} other sequences: {held} orders held, {not_held} not held"
        );
        println!("    queries {directions}");
        assert!(sequences > 3000 && held > 2000 && not_held > 2000 && directions.are_mixed());
    }
}

#[test]
fn a_refused_replay_keeps_the_lookups() {
    let mut random = Random::new(8);
    for (query, refusal) in [
        (own_column_per_set(8).write(), 8),
        (near_the_most_rows(false, true).write(), 8),
        (vec![1, 1, 0, 0], 1),
    ] {
        let bytes = samples::any_bytes(&mut random, 41);
        let mut lookups = Lent::new(&mut random, &bytes);
        let mut scratch = [7; SCRATCH_BYTES];
        let mut output = [7; LONGEST_TABLE];
        let code = proved::table_replay(&query, &mut scratch, &mut output, lookups.bytes_mut());
        assert_eq!(code, refusal << 16);
        assert!(lookups.is_unchanged() && output == [7; LONGEST_TABLE]);
    }
}

/// The answers to asks as one number, bit i for answer i.
fn bits(answers: &[Answer]) -> u32 {
    let bits = answers.iter().map(|&a| u32::from(a == Answer::Held(true)));
    bits.rev().fold(0, |number, bit| number << 1 | bit)
}

fn kind(answer: Answer) -> usize {
    match answer {
        Answer::Granted => 0,
        Answer::Held(true) => 1,
        Answer::Held(false) => 2,
        Answer::Refused(_) => 3,
    }
}
