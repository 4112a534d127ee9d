//! The closure test gives what the derivation gives, and the columns that it goes by
//! are those that columns settle.

use std::collections::{BTreeSet, HashSet};

use reference::derivation::{closure, start, steps, Ordering};
use reference::query::{columns_of, order, DESCENDING};
use reference::random::Random;
use reference::samples::{self, all_orderings, Shape};
use reference::settled::InForce;
use reference::{trials, Dependency, Entry, Query, Rule};

/// Few enough columns for all orderings of many queries.
const FOUR_COLUMNS: Shape = Shape {
    columns: (1, 4),
    ..Shape::CHAINS
};
/// More columns than orderings are derived of elsewhere.
const SIX_COLUMNS: Shape = Shape {
    columns: (6, 6),
    produced: (1, 1),
    sets: (1, 1),
    ..Shape::CHAINS
};

/// Each produced order of a query with the dependencies of each choice of its sets.
fn pairs(query: &Query) -> impl Iterator<Item = (&Ordering, Vec<Dependency>)> {
    let choices = 0..1usize << query.sets;
    choices.flat_map(move |choice| {
        let sets = query.chosen(choice);
        let dependencies: Vec<Dependency> = query.dependencies_of(&sets).cloned().collect();
        let produced = query.produced.iter();
        produced.map(move |order| (order, dependencies.clone()))
    })
}

/// What the derivation gives from an order, when no entry is ever taken out but the
/// last.
fn without_taking_out(order: &[Entry], dependencies: &[Dependency]) -> HashSet<Ordering> {
    let mut reached = start(order);
    let mut waiting: Vec<Ordering> = reached.iter().cloned().collect();
    while let Some(ordering) = waiting.pop() {
        for result in steps(&ordering, dependencies) {
            let shorter = result.len() < ordering.len() && !ordering.starts_with(&result);
            if !shorter && reached.insert(result.clone()) {
                waiting.push(result);
            }
        }
    }
    reached
}

/// What the closure test is compared with, and what was compared so far.
#[derive(Debug, Default)]
struct Compared {
    /// Orderings that are derived, and ones that are not.
    derived: usize,
    others: usize,
    /// Of the derived ones, those that differ in directions alone from the produced
    /// order, and of the others, those that do.
    derived_turned: usize,
    others_turned: usize,
    /// Interesting orders that come by taking out alone.
    gained: usize,
}

impl Compared {
    /// Compares the closure test with the derivation on all orderings, from a produced
    /// order under some dependencies.
    fn compare(
        &mut self,
        query: &Query,
        all: &[Ordering],
        produced: &Ordering,
        dependencies: &[Dependency],
    ) {
        let derived = closure(start(produced), dependencies);
        let in_force = InForce::new(query.columns, dependencies);
        for ordering in all {
            let is_derived = derived.contains(ordering);
            assert_eq!(
                in_force.holds(produced, ordering),
                is_derived,
                "{ordering:?} from {produced:?} under {dependencies:?}"
            );
            let is_turned = ordering != produced && columns_of(ordering) == columns_of(produced);
            match is_derived {
                true => self.derived_turned += usize::from(is_turned),
                false => self.others_turned += usize::from(is_turned),
            }
        }
        self.derived += derived.len();
        self.others += all.len() - derived.len();

        // Taking out only adds, and it does add.
        let fewer = without_taking_out(produced, dependencies);
        assert!(fewer.is_subset(&derived));
        let interesting = query.interesting();
        self.gained += interesting
            .filter(|&order| derived.contains(order) && !fewer.contains(order))
            .count();
    }
}

#[test]
fn the_closure_test_holds_exactly_the_derived_orderings() {
    let mut random = Random::new(11);
    let mut compared = Compared::default();
    for (shape, count) in [
        (FOUR_COLUMNS, 4000),
        (Shape::SMALL, 300),
        (Shape::CHAINS, 400),
        (SIX_COLUMNS, 8),
    ] {
        for _ in 0..count {
            let query = match random.below(4) {
                0 => samples::query(&mut random, shape),
                _ => samples::query_of_chains(&mut random, shape),
            };
            let all = all_orderings(query.columns);
            for (produced, dependencies) in pairs(&query) {
                compared.compare(&query, &all, produced, &dependencies);
            }
        }
    }
    let Compared {
        derived,
        others,
        derived_turned,
        others_turned,
        gained,
    } = compared;
    let enough = derived > 500_000 && others > 1_000_000 && gained > 500;
    assert!(enough, "{compared:?}");
    assert!(
        derived_turned > 10_000 && others_turned > 10_000,
        "{compared:?}"
    );
}

#[test]
fn settled_columns_are_the_least_set_that_is_closed() {
    let mut random = Random::new(14);
    let mut by_way_of_others = 0;
    for _ in 0..3000 {
        let query = samples::query_of_chains(&mut random, Shape::FULL);
        let in_force = InForce::new(query.columns, &query.dependencies);
        let columns = samples::some_columns(&mut random, query.columns, (0, 3));
        let settled = in_force.settled_by(&columns);

        // Each column in turn, until a whole pass over the rules adds none.
        let mut expected: BTreeSet<u8> = columns.iter().copied().collect();
        let mut passes = 0;
        loop {
            let before = expected.len();
            for dependency in &query.dependencies {
                match &dependency.rule {
                    Rule::Fix { left, right } if left.iter().all(|c| expected.contains(c)) => {
                        expected.insert(*right);
                    }
                    Rule::Equal(one, other) if expected.contains(one) => {
                        expected.insert(*other);
                    }
                    Rule::Equal(one, other) if expected.contains(other) => {
                        expected.insert(*one);
                    }
                    _ => {}
                }
            }
            if expected.len() == before {
                break;
            }
            passes += 1;
        }
        assert_eq!(settled, expected, "{columns:?} {query:?}");
        by_way_of_others += usize::from(passes > 1);
    }
    assert!(
        by_way_of_others > 200,
        "only {by_way_of_others} in two passes"
    );
}

#[test]
fn a_class_is_what_equals_join_and_fixes_do_not_count() {
    let in_force = InForce::new(
        7,
        &[
            Dependency::equal(0, 4, 1),
            Dependency::fix(0, &[1], 2),
            Dependency::equal(0, 6, 5),
            Dependency::fix(0, &[2], 1),
            Dependency::equal(0, 1, 6),
            Dependency::fix(0, &[], 0),
        ],
    );
    for column in [1, 4, 5, 6] {
        assert_eq!(in_force.class(column), BTreeSet::from([1, 4, 5, 6]));
    }
    for column in [0, 2, 3] {
        assert_eq!(in_force.class(column), BTreeSet::from([column]));
    }
    assert_eq!(in_force.settled_by(&[]), BTreeSet::from([0]));
    assert_eq!(in_force.settled_by(&[3]), BTreeSet::from([0, 3]));
    assert_eq!(
        in_force.settled_by(&[2]),
        BTreeSet::from([0, 1, 2, 4, 5, 6])
    );
}

/// Whether a tested order of a trial is held from its first produced order under all
/// its sets.
fn held(name: &str, tested: usize) -> bool {
    let query = Query::read(&trials::named(name).query).expect("the trial's query is read");
    let in_force = InForce::new(query.columns, &query.dependencies);
    in_force.holds(&query.produced[0], &query.tested[tested])
}

#[test]
fn the_test_goes_through_both_orders() {
    assert!(held("time_axis_code", 0));
    assert!(held("settled_chain", 0));
    assert!(held("settled_chain_in_two_sets", 0));
    assert!(held("equal_column_goes", 0) && held("equal_column_goes", 1));
    assert!(!held("equal_column_goes", 2) && !held("equal_column_goes", 3));
    assert!(!held("pair_of_fixes", 0));

    let (a, b, c, d) = (0, 1, 2, 3);
    let in_force = InForce::new(4, &[Dependency::fix(0, &[a, b], c)]);
    let holds = |produced: &[u8], tested: &[u8]| in_force.holds(&order(produced), &order(tested));
    assert!(holds(&[a, b, c, d], &[a, b, d]));
    assert!(holds(&[a, b, d], &[a, b, d, c]));
    assert!(!holds(&[a, c, b, d], &[a, b, d]));
    // Nothing is left of the produced order.
    assert!(!holds(&[a, b, c], &[a, b, d]));
    assert!(!holds(&[], &[a]));
    // All that is left of it is settled.
    assert!(holds(&[a, b, c], &[a, b]));
    assert!(holds(&[a, b, c, d], &[]));
}

#[test]
fn directions_are_those_of_the_entries_that_are_met() {
    let (a, b, c, d) = (0, 1, 2, 3);
    let [a_desc, b_desc, c_desc, d_desc] = [a, b, c, d].map(|column| column + DESCENDING);
    let rules = [Dependency::fix(0, &[a], c), Dependency::equal(0, b, d)];
    let in_force = InForce::new(4, &rules);
    let holds = |produced: &[u8], tested: &[u8]| in_force.holds(&order(produced), &order(tested));
    assert!(holds(&[a_desc], &[a_desc]) && !holds(&[a_desc], &[a]) && !holds(&[a], &[a_desc]));
    // A settled column goes in and out in either direction.
    for c_either in [c, c_desc] {
        assert!(holds(&[a_desc, b], &[a_desc, c_either, b]));
        assert!(holds(&[a, c_either, b_desc], &[a, b_desc]));
        assert!(holds(&[a, c_either], &[a, c_desc]) && holds(&[a, c_either], &[a, c]));
        assert!(!holds(&[a, c_either, b_desc], &[a, b]));
        assert!(!holds(&[a, b], &[a_desc, c_either]));
    }
    // An equal column comes in the other one's direction, and behind it in either.
    assert!(holds(&[b_desc], &[d_desc]) && !holds(&[b_desc], &[d]));
    assert!(holds(&[b], &[b, d_desc]) && holds(&[b], &[d, b_desc]));
    assert!(!holds(&[b], &[d_desc, b]));
}
