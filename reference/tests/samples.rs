//! What the random queries are like: at least half of those that are read have
//! descending columns, many have none, and both kinds hold orders.

use reference::construction::of_pairs;
use reference::random::Random;
use reference::samples::{self, Shape};
use reference::Query;

/// Of some queries, how many are read, how many of these have a descending column, and
/// how many orders these and the others hold, but for the produced ones at their starts.
#[derive(Debug, Default)]
struct Counted {
    read: usize,
    descending: usize,
    held_by: [usize; 2],
}

impl Counted {
    fn count(&mut self, query: &Query) {
        self.read += 1;
        self.descending += usize::from(query.descends());
        let pairs = of_pairs(query);
        let held = pairs
            .states
            .iter()
            .map(|pair| pair.held.count_ones() as usize);
        let held = held.sum::<usize>() - pairs.states.len();
        self.held_by[usize::from(query.descends())] += held;
    }

    /// Checks that at least half descend and a tenth do not, and that both kinds hold
    /// at least so many orders for each query.
    fn check(&self, what: &str, held: usize) {
        let Self {
            read,
            descending,
            held_by: [ascending_hold, descending_hold],
        } = self;
        let ascending = read - descending;
        assert!(*read > 500, "{what}: {self:?}");
        assert!(
            2 * descending >= *read && 10 * ascending >= *read,
            "{what}: {self:?}"
        );
        let enough = *ascending_hold > held * ascending && *descending_hold > held * descending;
        assert!(enough, "{what}: {self:?}");
    }
}

#[test]
fn half_of_the_random_queries_have_descending_columns() {
    let mut random = Random::new(1);
    for (name, shape) in [
        ("small", Shape::SMALL),
        ("chains", Shape::CHAINS),
        ("middle", Shape::MIDDLE),
        ("few sets", Shape::FEW_SETS),
    ] {
        let (mut any, mut of_chains) = (Counted::default(), Counted::default());
        for _ in 0..1000 {
            any.count(&samples::query(&mut random, shape));
            of_chains.count(&samples::query_of_chains(&mut random, shape));
        }
        any.check(name, 0);
        of_chains.check(name, 1);
    }
    let mut of_many_rows = Counted::default();
    for _ in 0..600 {
        of_many_rows.count(&samples::query_of_many_rows(&mut random));
    }
    of_many_rows.check("many rows", 50);
}

#[test]
fn half_of_any_queries_that_are_read_have_descending_columns() {
    let mut random = Random::new(2);
    let mut any = Counted::default();
    for _ in 0..2000 {
        if let Ok(query) = Query::read(&samples::any_query(&mut random)) {
            any.count(&query);
        }
    }
    any.check("any", 1);
}
