//! Reading queries: the proved library and the second implementation refuse the
//! same bytes with the same numbers, and read the same from the others.

use std::ops::RangeInclusive;

use differential::directions::Directions;
use differential::lent::Lent;
use differential::tally::Tally;
use differential::{codes, proved};
use reference::random::Random;
use reference::samples::{self, Shape};
use reference::{refusal, trials, Query};

/// Numbers of items that each comparison reads: all that a query may have, and one past
/// the most orders and the most dependencies.
const ITEMS: RangeInclusive<u8> = 0..=16;

/// A comparison of queries, and what was compared so far.
struct Comparison {
    random: Random,
    directions: Directions,
    checks: Tally,
    orders: Tally,
    dependencies: Tally,
}

impl Comparison {
    fn new(seed: u64) -> Self {
        Self {
            random: Random::new(seed),
            directions: Directions::default(),
            checks: Tally::default(),
            orders: Tally::default(),
            dependencies: Tally::default(),
        }
    }

    /// Compares the check of a query, each item that it may have, and any one.
    fn compare(&mut self, query: &[u8]) {
        let any = self.random.below(256) as u8;
        self.compare_items(query, ITEMS.chain([any]));
    }

    /// Compares the check of a query, and orders and dependencies of these numbers.
    fn compare_items(&mut self, query: &[u8], items: impl Iterator<Item = u8>) {
        let lent = Lent::new(&mut self.random, query);
        let read = Query::read(query);
        let check = proved::query_check(lent.bytes());
        let expected = codes::answer(read.as_ref().map(|_| 0).map_err(|&refusal| refusal));
        assert_eq!(check, expected, "check of query {query:?}");
        self.checks.count(check);
        self.directions.count(query);
        for i in items {
            let order = proved::query_order(lent.bytes(), i);
            assert_eq!(order, order_of(&read, i), "order {i} of query {query:?}");
            self.orders.count_item(order);
            let dependency = proved::query_dependency(lent.bytes(), i);
            let expected = dependency_of(&read, i);
            assert_eq!(dependency, expected, "dependency {i} of query {query:?}");
            self.dependencies.count_item(dependency);
        }
        assert!(lent.is_unchanged(), "written to query {query:?}");
    }

    /// Says what was compared.
    fn report(&self, what: &str) {
        println!("{what}: {}", self.checks);
        println!("    {}", self.directions);
        println!("    orders: {}", self.orders);
        println!("    dependencies: {}", self.dependencies);
    }
}

/// The number of interesting order i of bytes that the second implementation has read.
fn order_of(read: &Result<Query, u8>, i: u8) -> u64 {
    item_of(read, |query| {
        let order = query.interesting().nth(i.into());
        order.map(|order| codes::order(order))
    })
}

/// The number of dependency i.
fn dependency_of(read: &Result<Query, u8>, i: u8) -> u64 {
    item_of(read, |query| {
        let dependency = query.dependencies.get(usize::from(i));
        dependency.map(codes::dependency)
    })
}

/// The number of an item: the query's refusal, 10 where it is not there, or its value.
fn item_of(read: &Result<Query, u8>, value: impl Fn(&Query) -> Option<u64>) -> u64 {
    let read = read.as_ref().map_err(|&refusal| refusal);
    codes::item(read.and_then(|query| value(query).ok_or(refusal::HANDLE)))
}

#[test]
fn queries_that_are_read() {
    let mut comparison = Comparison::new(1);
    comparison.compare(&trials::example().query);
    for _ in 0..4000 {
        for shape in [Shape::SMALL, Shape::FULL] {
            let query = samples::query(&mut comparison.random, shape);
            comparison.compare(&query.write());
        }
    }
    comparison.report("queries that are read");
    assert_eq!(comparison.checks.with(0), 8001);
    assert!(comparison.directions.are_mixed());
}

#[test]
fn damaged_queries() {
    let mut comparison = Comparison::new(2);
    for _ in 0..3000 {
        for shape in [Shape::SMALL, Shape::FULL] {
            let query = samples::query(&mut comparison.random, shape).write();
            for _ in 0..4 {
                let damaged = samples::damaged(&mut comparison.random, &query);
                comparison.compare(&damaged);
            }
        }
    }
    comparison.report("damaged queries");
    assert!((0..=5).all(|refusal| comparison.checks.with(refusal) > 500));
    assert!(comparison.directions.are_mixed());
    assert!(comparison
        .directions
        .descending_with(&[0, 1, 2, 3, 4, 5], 300));
}

#[test]
fn queries_with_equal_orders() {
    let mut comparison = Comparison::new(3);
    for _ in 0..2000 {
        let query = samples::with_equal_orders(&mut comparison.random);
        comparison.compare(&query.write());
    }
    comparison.report("queries with equal orders");
    assert!(comparison.checks.with(6) > 1500);
    assert!(comparison.directions.descending_with(&[6], 1000));
}

#[test]
fn queries_with_orders_that_differ_in_one_direction() {
    let mut comparison = Comparison::new(9);
    for _ in 0..2000 {
        let query = samples::with_turned_orders(&mut comparison.random);
        comparison.compare(&query.write());
    }
    comparison.report("queries with orders that differ in one direction");
    assert!(comparison.directions.descending_with(&[0], 1000));
}

#[test]
fn every_byte_of_the_example_changed() {
    let mut comparison = Comparison::new(4);
    for trial in [trials::example(), trials::named("both_directions")] {
        for query in samples::each_byte_changed(&trial.query, 0..=255) {
            comparison.compare(&query);
        }
    }
    comparison.report("the example query and one with both directions, with a byte changed");
    assert!((0..=6).all(|refusal| comparison.checks.with(refusal) > 0));
    assert!(comparison
        .directions
        .descending_with(&[0, 1, 2, 3, 4, 5, 6], 0));
}

#[test]
fn query_sizes_at_and_past_their_limits() {
    let mut comparison = Comparison::new(5);
    for sizes in samples::choices(samples::QUERY_EDGES) {
        let query = samples::query_of_sizes(&mut comparison.random, sizes);
        for query in samples::of_nearly_this_length(&query) {
            comparison.compare(&query);
        }
        comparison.compare(&sizes);
    }
    comparison.report("query sizes at and past their limits");
    assert!((1..=2).all(|refusal| comparison.checks.with(refusal) > 50));
}

#[test]
fn queries_with_random_items() {
    let mut comparison = Comparison::new(6);
    for _ in 0..10_000 {
        let query = samples::nearly_query(&mut comparison.random);
        comparison.compare(&query);
    }
    comparison.report("queries with random items");
    assert!([0, 3, 4, 5]
        .iter()
        .all(|&refusal| comparison.checks.with(refusal) > 500));
    assert!(comparison.directions.descending_with(&[0, 3, 4, 5], 300));
}

#[test]
fn random_bytes_as_queries() {
    let mut comparison = Comparison::new(7);
    for query in samples::assorted_bytes(&mut comparison.random) {
        comparison.compare(&query);
    }
    comparison.report("random bytes as queries");
}

#[test]
fn items_of_every_number() {
    let mut comparison = Comparison::new(8);
    let random = &mut comparison.random;
    let mut queries = samples::assorted_bytes(random);
    for _ in 0..300 {
        queries.push(samples::query(random, Shape::FULL).write());
        queries.push(samples::any_query(random));
        queries.push(samples::with_equal_orders(random).write());
    }
    for query in queries {
        comparison.compare_items(&query, 0..=255);
    }
    comparison.report("items of every number");
    for items in [&comparison.orders, &comparison.dependencies] {
        let refused = (1..=6).chain([refusal::HANDLE]);
        assert!(refused.chain([0]).all(|refusal| items.with(refusal) > 1000));
    }
}
