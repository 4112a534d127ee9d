//! A supplier's table on trial: the proved library and the second implementation
//! accept the same tables, refuse the others with the same numbers, and leave the
//! lent buffers as document 01 says. What is known of a table from the way it was
//! made is what comes out. Accepted tables answer lists of lookups as the plain
//! model does, have at least as many rows as the query's own, and merge into it.

use differential::directions::Directions;
use differential::lent::Lent;
use differential::tally::Tally;
use differential::{codes, proved, rounds, Library, SCRATCH_LENGTHS};
use reference::builder::table_of;
use reference::lookups::{model_answers, table_answers, Answer};
use reference::merging::merged;
use reference::query::{order, Order, DESCENDING};
use reference::random::Random;
use reference::refusal::ORDERINGS;
use reference::samples::{self, Kind, Shape, Supplied};
use reference::table::Table;
use reference::{buffers, trials, Query};

/// A comparison of trials, and what was compared so far.
struct Comparison {
    random: Random,
    directions: Directions,
    verified: Tally,
    by_kind: [Tally; Kind::ALL.len()],
    answers: usize,
}

impl Comparison {
    fn new(seed: u64) -> Self {
        Self {
            random: Random::new(seed),
            directions: Directions::default(),
            verified: Tally::default(),
            by_kind: Default::default(),
            answers: 0,
        }
    }

    /// Compares the trial of a table in a scratch of this length, for a query
    /// whose own table, or refusal 1 to 8, is known. Gives the outcome.
    fn compare(
        &mut self,
        query: &[u8],
        own: &Result<Table, u8>,
        table: &[u8],
        scratch: usize,
    ) -> Result<(), u8> {
        let case = format!("{scratch} bytes of scratch, table {table:?}, query {query:?}");
        let query = Lent::new(&mut self.random, query);
        let table = Lent::new(&mut self.random, table);
        let mut scratch = Lent::filled(&mut self.random, scratch);
        let mut expected_scratch = scratch.bytes().to_vec();
        let expected = buffers::verify(own, table.bytes(), &mut expected_scratch);

        let code = proved::table_verify(query.bytes(), table.bytes(), scratch.bytes_mut());
        assert_eq!(code, codes::answer(expected.map(|()| 0)), "{case}");
        assert!(query.is_unchanged(), "written to the query: {case}");
        assert!(table.is_unchanged(), "written to the table: {case}");
        assert!(scratch.is_now(&expected_scratch), "other scratch: {case}");
        self.verified.count(code);
        self.directions.count(query.bytes());
        expected
    }

    /// Compares the trial of a table in a scratch that is long enough, whose
    /// outcome is given, and at times in one that is too short.
    fn compare_in_some(
        &mut self,
        query: &[u8],
        own: &Result<Table, u8>,
        table: &[u8],
    ) -> Result<(), u8> {
        let (short, long) = SCRATCH_LENGTHS.split_at(3);
        if self.random.one_in(4) {
            let scratch = short[self.random.below(short.len())];
            let refused = self.compare(query, own, table, scratch);
            assert!(refused.is_err());
        }
        let scratch = long[self.random.below(long.len())];
        self.compare(query, own, table, scratch)
    }

    /// Compares the trial of one table of each kind for a query with this table.
    /// What is known of it must come out. When it is accepted, it must have at least
    /// as many rows, merge into the query's own table, and answer lookups as the plain
    /// model does.
    fn compare_kinds(&mut self, query: &Query, own: &Table) {
        let (bytes, not_refused) = (query.write(), Ok(own.clone()));
        let lookups = samples::lookups(&mut self.random, query, 60);
        let expected = model_answers(query, &lookups);
        for kind in Kind::ALL {
            let Supplied { table, known } = samples::supplied(&mut self.random, kind, query, own);
            let verified = self.compare_in_some(&bytes, &not_refused, &table);
            let as_known = known.is_none_or(|known| known == verified);
            assert!(as_known, "{kind:?} {verified:?} {table:?} {query:?}");
            self.by_kind[kind as usize].count(codes::answer(verified.map(|()| 0)));
            if verified.is_ok() {
                let accepted = Table::read(&table).expect("an accepted table has the form");
                assert!(
                    accepted.states.len() >= own.states.len(),
                    "{table:?} {query:?}"
                );
                assert_eq!(merged(&accepted), *own, "{table:?} {query:?}");
                let given = table_answers::<Library>(&table, &lookups);
                assert_eq!(given, expected, "{lookups:?} {table:?} {query:?}");
                let asks = given
                    .iter()
                    .filter(|given| matches!(given, Answer::Held(_)));
                self.answers += asks.count();
            }
        }
    }

    /// Says what was compared.
    fn report(&self, what: &str) {
        println!("{what}: {} trials: {}", self.verified.all(), self.verified);
        println!("    for queries {}", self.directions);
    }
}

#[test]
fn tables_of_every_kind_for_small_and_middle_queries() {
    for round in 0..rounds() {
        let mut comparison = Comparison::new(1000 * round + 1);
        for (shape, count) in [
            (Shape::SMALL, 600),
            (Shape::CHAINS, 600),
            (Shape::MIDDLE, 200),
        ] {
            for _ in 0..count {
                let random = &mut comparison.random;
                let (query, own) = match random.below(2) {
                    0 => samples::query_with_table(random, shape),
                    _ => samples::chains_with_table(random, shape),
                };
                let own = Table::read(&own).expect("a built table has the form");
                comparison.compare_kinds(&query, &own);
            }
        }
        comparison.report("tables of every kind for small and middle queries");
        for (kind, tally) in Kind::ALL.iter().zip(&comparison.by_kind) {
            println!("    {kind:?}: {tally}");
        }
        println!("    {} answers of accepted tables", comparison.answers);
        assert!(comparison.verified.all() > 20_000);
        assert!(comparison.answers > 100_000);
        // A changed start or successor may lead to a state that behaves alike.
        for kind in [Kind::OtherStart, Kind::OtherSuccessor, Kind::NearQuery] {
            let tally = &comparison.by_kind[kind as usize];
            assert!(tally.with(0) > 50 && tally.with(13) > 300, "{kind:?}");
        }
        let damaged = &comparison.by_kind[Kind::Damaged as usize];
        assert!([0, 1, 2, 11, 13]
            .iter()
            .all(|&refusal| damaged.with(refusal) > 30));
        assert!(comparison.verified.with(12) > 1000 && comparison.directions.are_mixed());
    }
}

#[test]
fn tables_of_every_kind_for_large_queries() {
    for round in 0..rounds() {
        let mut comparison = Comparison::new(1000 * round + 2);
        let mut queries = 0;
        while queries < 200 {
            let random = &mut comparison.random;
            let query = match random.below(4) {
                0 => samples::query(random, Shape::FEW_SETS),
                1 => samples::query_of_chains(random, Shape::FEW_SETS),
                2 => samples::query_of_chains(random, Shape::ONE_START),
                _ => samples::query_of_many_rows(random),
            };
            if let Ok(own) = table_of(&query.write()) {
                comparison.compare_kinds(&query, &own);
                queries += 1;
            }
        }
        comparison.report("tables of every kind for large queries");
        assert!(comparison.verified.with(0) > 1000);
        assert!(comparison.verified.with(13) > 400 && comparison.directions.are_mixed());
    }
}

#[test]
fn queries_of_every_kind() {
    for round in 0..rounds() {
        let mut comparison = Comparison::new(1000 * round + 3);
        for _ in 0..4000 {
            let random = &mut comparison.random;
            let query = samples::any_query(random);
            let own = table_of(&query);
            let table = samples::supplied_for_any(random, &query, &own);
            let _ = comparison.compare_in_some(&query, &own, &table);
        }
        comparison.report("queries of every kind");
        assert!([0, 1, 2, 3, 4, 5, 6, 8, 9, 11, 12, 13]
            .iter()
            .all(|&refusal| comparison.verified.with(refusal) > 10));
        assert_eq!(comparison.verified.with(ORDERINGS), 0);
        assert!(comparison.directions.are_mixed());
        assert!(comparison.directions.descending_with(&[1, 3, 4, 5, 6], 10));
    }
}

#[test]
fn every_length_of_scratch() {
    let mut comparison = Comparison::new(4);
    let trials = trials::all();
    let mut tables: Vec<&Vec<u8>> = trials
        .iter()
        .flat_map(|trial| [&trial.supplied, &trial.table])
        .collect();
    tables.sort();
    tables.dedup();
    for trial in &trials {
        let own = table_of(&trial.query);
        for table in &tables {
            for scratch in SCRATCH_LENGTHS {
                let _ = comparison.compare(&trial.query, &own, table, scratch);
            }
        }
    }
    comparison.report("every length of scratch");
    assert!([0, 1, 2, 4, 5, 8, 9, 12, 13]
        .iter()
        .all(|&refusal| comparison.verified.with(refusal) > 10));
}

#[test]
fn every_byte_of_the_example_changed() {
    let mut comparison = Comparison::new(5);
    let example = trials::example();
    let own = table_of(&example.query);
    let renumbered = trials::named("supplied_renumbered").supplied;
    for table in [&example.table, &renumbered] {
        for table in samples::each_byte_changed(table, 0..=255) {
            let _ = comparison.compare_in_some(&example.query, &own, &table);
        }
    }
    comparison.report("the example's table with a byte changed");
    assert!([0, 1, 2, 9, 11, 12, 13]
        .iter()
        .all(|&refusal| comparison.verified.with(refusal) > 0));

    let mut comparison = Comparison::new(6);
    let both_directions = trials::named("both_directions");
    for trial in [&example, &both_directions] {
        let bytes = (0..=80).chain(126..=144).chain([254, 255]);
        for query in samples::each_byte_changed(&trial.query, bytes) {
            let own = table_of(&query);
            let _ = comparison.compare_in_some(&query, &own, &trial.table);
        }
    }
    comparison.report("the queries of the example and of both directions with a byte changed");
    assert!((0..=6)
        .chain([9, 12, 13])
        .all(|refusal| comparison.verified.with(refusal) > 0));
    assert!(comparison
        .directions
        .descending_with(&[0, 1, 2, 3, 4, 5, 6], 0));
}

#[test]
fn table_sizes_at_and_past_their_limits() {
    let mut comparison = Comparison::new(7);
    for sizes in samples::choices(samples::TABLE_EDGES) {
        // A query of these P, T and S where they are within their limits.
        let [_, produced, tested, sets] = sizes;
        let query = Query {
            columns: 12,
            produced: orders(0, produced.clamp(1, 8)),
            tested: orders(8, tested.min(8)),
            sets: sets.min(8),
            dependencies: vec![],
        };
        let (query, own) = (query.write(), table_of(&query.write()));
        let _ = comparison.compare_in_some(&query, &own, &sizes);
        for _ in 0..4 {
            let table = samples::table_of_sizes(&mut comparison.random, sizes);
            for table in samples::of_nearly_this_length(&table) {
                let _ = comparison.compare_in_some(&query, &own, &table);
            }
        }
    }
    comparison.report("table sizes at and past their limits");
    assert!([1, 2, 9, 11, 13]
        .iter()
        .all(|&refusal| comparison.verified.with(refusal) > 10));
}

/// So many different orders of two columns, not among those before the first. In every
/// second one the second column descends.
fn orders(first: u8, count: u8) -> Vec<Order> {
    (first..first + count)
        .map(|number| {
            let second = (number + 1 + number / 12) % 12;
            order(&[number % 12, second + number % 2 * DESCENDING])
        })
        .collect()
}

#[test]
fn random_bytes_as_tables() {
    let mut comparison = Comparison::new(8);
    let query = trials::example().query;
    let own = table_of(&query);
    for table in samples::assorted_bytes(&mut comparison.random) {
        let _ = comparison.compare_in_some(&query, &own, &table);
    }
    comparison.report("random bytes as tables");
}

#[test]
fn wrong_after_127_sets() {
    let mut comparison = Comparison::new(9);
    let (query, [right, wrong]) = samples::longest_chain();
    let (query, own) = (query.write(), table_of(&query.write()));
    for (table, expected) in [(right, Ok(())), (wrong, Err(13))] {
        // The states are met upwards, downwards, and in random sequences.
        let mut downwards = table.clone();
        downwards.states.reverse();
        let states = downwards.states.iter_mut();
        for state in states.flat_map(|state| &mut state.successors) {
            *state = 127 - *state;
        }
        downwards.starts = vec![127];
        let mut tables = vec![table.clone(), downwards];
        tables.extend((0..20).map(|_| samples::renumbered(&mut comparison.random, &table)));
        for table in tables {
            let verified = comparison.compare_in_some(&query, &own, &table.write());
            assert_eq!(verified, expected, "{table:?}");
        }
    }
    comparison.report("tables that one set leads through");
}
