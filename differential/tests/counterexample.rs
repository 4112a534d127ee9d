//! Two rows that show why an order is not held: the proved library gives them exactly
//! where the second implementation finds two, refuses with the same numbers, and leaves
//! the buffers as document 02 says. Whichever rows it gives stand in the produced order,
//! obey the sets in force and do not stand in the order looked for. There are none
//! exactly where the tables that the library builds say held.

use differential::directions::Directions;
use differential::lent::Lent;
use differential::tally::Tally;
use differential::{codes, proved, rounds, Library};
use order_tables::{LONGEST_TABLE, SCRATCH_BYTES, TWO_ROWS_BYTES};
use reference::counterexample::{check, Asked, Question, FEW_COLUMNS};
use reference::lookups::{model_answers, table_answers, Answer};
use reference::random::Random;
use reference::refusal::{HANDLE, SPACE, STATES};
use reference::samples::{self, all_asked, rooms, Shape};
use reference::{trials, Implementation, Query};

/// A comparison of what is asked for two rows, and what was compared so far.
struct Comparison {
    random: Random,
    directions: Directions,
    answers: Tally,
    /// Of the answers that are not refused, those with two rows and those without.
    shown: usize,
    none: usize,
    /// Of these, those of few columns, where all pairs of rows are tried.
    searched: usize,
    /// Of the refusals with 10, those for the produced order alone, for the choice of
    /// sets alone, and for the order looked for alone.
    by_handle: [usize; 3],
}

impl Comparison {
    fn new(seed: u64) -> Self {
        Self {
            random: Random::new(seed),
            directions: Directions::default(),
            answers: Tally::default(),
            shown: 0,
            none: 0,
            searched: 0,
            by_handle: [0; 3],
        }
    }

    /// Compares what is asked of a query, in a buffer of this length, and gives the
    /// answer.
    fn compare(&mut self, query: &[u8], asked: Asked, room: usize) -> Result<bool, u8> {
        let case = format!("{asked:?} in {room} bytes, query {query:?}");
        let query = Lent::new(&mut self.random, query);
        let mut rows = Lent::filled(&mut self.random, room);
        let code = proved::query_counterexample(
            query.bytes(),
            asked.produced,
            asked.sets,
            asked.order,
            rows.bytes_mut(),
        );
        let answer = codes::two_rows(code).unwrap_or_else(|| panic!("{code} given: {case}"));
        let (before, after) = (rows.bytes_before(), rows.bytes());
        let checked = check(query.bytes(), asked, answer, before, after);
        assert_eq!(checked, Ok(()), "{answer:?} {after:?}: {case}");
        assert!(rows.is_guarded(), "written past the buffer: {case}");
        assert!(query.is_unchanged(), "written to the query: {case}");
        if let Ok(shown) = answer {
            let question = Question::read(query.bytes(), asked);
            let held = question.map(|question| question.is_held());
            assert_eq!(held, Ok(!shown), "{case}");
        }
        self.answers.count(code);
        self.directions.count(query.bytes());
        self.count(query.bytes(), asked, answer);
        answer
    }

    /// Compares what is asked of a query in a buffer that is long enough, and at times
    /// in one that is too short.
    fn compare_in_some(&mut self, query: &[u8], asked: Asked) -> Result<bool, u8> {
        let rooms = rooms(query);
        let (short, long) = rooms.split_at(4);
        if self.random.one_in(4) {
            let room = short[self.random.below(4)];
            let refused = self.compare(query, asked, room);
            assert!(refused.is_err(), "{asked:?} in {room} bytes");
        }
        let room = long[self.random.below(4)];
        self.compare(query, asked, room)
    }

    /// Counts the ways in which an answer came.
    fn count(&mut self, query: &[u8], asked: Asked, answer: Result<bool, u8>) {
        match answer {
            Ok(shown) => {
                self.shown += usize::from(shown);
                self.none += usize::from(!shown);
                self.searched += usize::from(query[0] <= FEW_COLUMNS);
            }
            Err(HANDLE) => {
                let [produced, tested, sets] = [1, 2, 3].map(|place| usize::from(query[place]));
                let refused = [
                    usize::from(asked.produced) >= produced,
                    usize::from(asked.sets) >> sets != 0,
                    usize::from(asked.order) >= produced + tested,
                ];
                if refused.iter().filter(|&&refused| refused).count() == 1 {
                    for (count, refused) in self.by_handle.iter_mut().zip(refused) {
                        *count += usize::from(refused);
                    }
                }
            }
            Err(_) => {}
        }
    }

    /// Whether each of these refusals came more often than so.
    fn has(&self, refusals: &[u8], count: usize) -> bool {
        refusals
            .iter()
            .all(|&refusal| self.answers.with(refusal) > count)
    }

    /// Whether two rows, none, and 10 for each handle alone came more often than so.
    fn has_all_ways(&self, count: usize) -> bool {
        let ways = [self.shown, self.none].into_iter().chain(self.by_handle);
        ways.into_iter().all(|way| way > count)
    }

    /// Says what was compared.
    fn report(&self, what: &str) {
        let Self {
            answers,
            shown,
            none,
            searched,
            by_handle: [produced, sets, order],
            ..
        } = self;
        println!(
            "{what}: {} asked: {answers}; {shown} two rows, {none} none, {searched} of both by \
             trying all rows",
            answers.all()
        );
        println!("    of queries {}", self.directions);
        if self.answers.with(HANDLE) > 0 {
            println!(
                "    refused with 10 for one alone: {produced} produced orders, {sets} choices \
                 of sets, {order} orders looked for"
            );
        }
    }
}

#[test]
fn queries_of_every_kind() {
    for round in 0..rounds() {
        let mut comparison = Comparison::new(1000 * round + 1);
        for _ in 0..6000 {
            let query = samples::any_query(&mut comparison.random);
            for _ in 0..3 {
                let asked = samples::asked(&mut comparison.random, &query);
                let room = rooms(&query)[comparison.random.below(8)];
                let _ = comparison.compare(&query, asked, room);
            }
        }
        comparison.report("queries of every kind");
        assert_eq!(comparison.answers.all(), 18_000);
        assert!(comparison.has(&[1, 2, 3, 4, 5, 6, HANDLE, SPACE], 30));
        assert!(comparison.has_all_ways(100) && comparison.searched > 1000);
        assert_eq!(comparison.answers.with(STATES), 0);
        assert!(comparison.directions.are_mixed());
        assert!(comparison
            .directions
            .descending_with(&[1, 2, 3, 4, 5, 6], 10));
    }
}

#[test]
fn all_that_is_asked_of_small_queries() {
    for round in 0..rounds() {
        let mut comparison = Comparison::new(1000 * round + 2);
        for (shape, count) in [
            (Shape::SMALL, 150),
            (Shape::CHAINS, 200),
            (Shape::MIDDLE, 5),
        ] {
            for _ in 0..count {
                let random = &mut comparison.random;
                let query = match random.below(4) {
                    0 => samples::query(random, shape),
                    _ => samples::query_of_chains(random, shape),
                };
                let bytes = query.write();
                for asked in all_asked(&query) {
                    let answer = comparison.compare_in_some(&bytes, asked);
                    assert!(answer.is_ok(), "{asked:?} {query:?}");
                }
            }
        }
        comparison.report("all that is asked of small queries");
        assert!(comparison.shown > 5000 && comparison.none > 5000);
        assert_eq!(comparison.searched, comparison.shown + comparison.none);
        assert!(comparison.has(&[SPACE], 3000) && comparison.directions.are_mixed());
    }
}

#[test]
fn large_queries() {
    for round in 0..rounds() {
        let mut comparison = Comparison::new(1000 * round + 3);
        for _ in 0..1000 {
            let random = &mut comparison.random;
            let query = match random.below(5) {
                0 => samples::query(random, Shape::FULL),
                1 => samples::query_of_chains(random, Shape::FULL),
                2 => samples::query(random, Shape::LARGEST),
                3 => samples::query_of_chains(random, Shape::LARGEST),
                _ => samples::query_of_many_rows(random),
            };
            let query = query.write();
            for _ in 0..10 {
                let asked = samples::asked(&mut comparison.random, &query);
                let _ = comparison.compare_in_some(&query, asked);
            }
        }
        comparison.report("large queries");
        assert!(comparison.answers.all() > 10_000);
        assert!(comparison.has_all_ways(100));
        assert!(comparison.shown > 3000 && comparison.none > 1000);
        assert!(comparison.directions.are_mixed());
    }
}

#[test]
fn every_byte_of_the_example_changed() {
    let mut comparison = Comparison::new(4);
    let bytes = (0..32).chain([64, 65, 66, 79, 80, 127, 128, 129, 130, 131, 254, 255]);
    for trial in [trials::example(), trials::named("both_directions")] {
        for query in samples::each_byte_changed(&trial.query, bytes.clone()) {
            for asked in [[0, 0, 2], [1, 1, 3], [1, 3, 3], [0, 4, 2]] {
                let _ = comparison.compare_in_some(&query, asked.into());
            }
        }
    }
    comparison.report("the example and one with both directions, with a byte changed");
    assert!(comparison.has(&[1, 2, 3, 4, 5, 6, HANDLE, SPACE], 0));
    assert!(comparison
        .directions
        .descending_with(&[0, 1, 2, 3, 4, 5, 6], 0));
    assert!(comparison.shown > 50 && comparison.none > 50);
}

/// A query of these sizes where they are within their limits, and else bytes of the
/// total that they imply.
fn query_of_sizes(random: &mut Random, sizes: [u8; 5]) -> Vec<u8> {
    let [columns, produced, tested, sets, dependencies] =
        sizes.map(|size| (usize::from(size), usize::from(size)));
    let shape = Shape {
        columns,
        produced,
        tested,
        sets,
        dependencies,
        ..Shape::FULL
    };
    match sizes {
        [1..=12, 1..=8, ..=8, ..=8, ..=16] => samples::query_of_chains(random, shape).write(),
        _ => samples::query_of_sizes(random, sizes),
    }
}

#[test]
fn query_sizes_at_and_past_their_limits() {
    let mut comparison = Comparison::new(5);
    for sizes in samples::choices(samples::QUERY_EDGES) {
        let query = query_of_sizes(&mut comparison.random, sizes);
        for query in samples::of_nearly_this_length(&query) {
            for _ in 0..4 {
                let asked = samples::asked(&mut comparison.random, &query);
                let _ = comparison.compare_in_some(&query, asked);
            }
        }
    }
    comparison.report("query sizes at and past their limits");
    assert!(comparison.has(&[1, 2, HANDLE, SPACE], 20));
    assert!(comparison.shown > 20 && comparison.none > 20);
}

#[test]
fn random_bytes_as_queries() {
    let mut comparison = Comparison::new(6);
    for query in samples::assorted_bytes(&mut comparison.random) {
        let asked = samples::asked(&mut comparison.random, &query);
        let room = rooms(&query)[comparison.random.below(8)];
        let _ = comparison.compare(&query, asked, room);
    }
    comparison.report("random bytes as queries");
    assert!(comparison.has(&[1, 2], 500));
}

#[test]
fn every_length_of_the_buffer() {
    let mut comparison = Comparison::new(7);
    for trial in trials::all() {
        let most = 2 * trial.query[0].min(12);
        let rooms = (0..=usize::from(most) + 2).chain([64, 255, 256, 257, 65_536]);
        for room in rooms {
            for _ in 0..3 {
                let asked = samples::asked(&mut comparison.random, &trial.query);
                let _ = comparison.compare(&trial.query, asked, room);
            }
        }
    }
    comparison.report("every length of the buffer");
    assert!(comparison.has(&[1, 2, 4, 5], 10) && comparison.has(&[HANDLE, SPACE], 300));
    assert!(comparison.has_all_ways(80));
}

#[test]
fn every_byte_as_a_handle() {
    let mut comparison = Comparison::new(8);
    for sets in 0..=8 {
        let of_sets = samples::own_column_per_set(sets).write();
        let mut most_orders = samples::most_orders();
        most_orders.sets = sets.max(4);
        for query in [of_sets, most_orders.write()] {
            for byte in 0..=255 {
                let alone = [[byte, 0, 0], [0, byte, 0], [0, byte, 1], [0, 1, byte]];
                for asked in alone.into_iter().chain([[byte; 3]]) {
                    let _ = comparison.compare_in_some(&query, asked.into());
                }
            }
        }
    }
    comparison.report("every byte as a handle");
    assert!(comparison.has_all_ways(1000));
}

#[test]
fn none_exactly_where_a_table_says_held() {
    for round in 0..rounds() {
        let mut random = Random::new(1000 * round + 9);
        let mut directions = Directions::default();
        let mut held_and_not = [0; 2];
        let (mut tables, mut without) = (0, 0);
        for _ in 0..5000 {
            let bytes = samples::any_query(&mut random);
            let mut output = [0; LONGEST_TABLE];
            let built = Library::build(&bytes, &mut [0; SCRATCH_BYTES], &mut output);
            let table = match built {
                Ok(length) => Some(&output[..length]),
                Err(STATES) => None,
                Err(_) => continue,
            };
            directions.count(&bytes);
            let query = Query::read(&bytes).expect("only its rows are refused");
            let choice = random.below(1 << query.sets);
            let chosen = query.chosen(choice);
            let run = samples::rearranged(&mut random, &chosen);
            for produced in 0..query.produced.len() as u8 {
                // The answers of the table, after the sets of the choice in any sequence;
                // without a table, those that the plain model gives.
                let lookups = samples::asks_after(&query, produced, &run);
                let answers = match table {
                    Some(table) => table_answers::<Library>(table, &lookups),
                    None => model_answers(&query, &lookups),
                };
                for (order, answer) in (0..).zip(&answers[1 + run.len()..]) {
                    let asked = Asked::from([produced, choice as u8, order]);
                    let mut rows = [7; TWO_ROWS_BYTES];
                    let shown = Library::counterexample(&bytes, asked, &mut rows);
                    let shown = shown.expect("nothing is refused");
                    assert_eq!(*answer, Answer::Held(!shown), "{asked:?} {query:?}");
                    held_and_not[usize::from(shown)] += 1;
                }
            }
            tables += usize::from(table.is_some());
            without += usize::from(table.is_none());
        }
        let [held, not_held] = held_and_not;
        println!(
            "asks of {tables} tables and of {without} queries without one: {held} held and \
             none, {not_held} not held and two rows"
        );
        println!("    queries {directions}");
        assert!(directions.are_mixed());
        assert!(tables > 3000 && without > 50);
        assert!(held > 10_000 && not_held > 10_000);
    }
}
