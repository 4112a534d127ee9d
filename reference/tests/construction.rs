//! What pairs of a produced order and a choice of sets hold, how many rows they
//! share, and what is refused for it.

use std::collections::HashSet;

use reference::builder::{build_table, table_of};
use reference::construction::{of_pairs, smallest};
use reference::derivation::{closure, start};
use reference::query::{column_set, order, ColumnSet};
use reference::random::Random;
use reference::refusal::{ORDERINGS, STATES};
use reference::samples::{
    self, chain_of_equals, constants, joined_starts, longest_table, most_orders,
    near_the_most_rows, own_column_per_set, Shape,
};
use reference::settled::InForce;
use reference::{listing, table, trials, Dependency, Query};

/// Random small queries.
fn queries(seed: u64, count: usize) -> impl Iterator<Item = Query> {
    let mut random = Random::new(seed);
    let any = move || match random.below(2) {
        0 => samples::query(&mut random, Shape::SMALL),
        _ => samples::query_of_chains(&mut random, Shape::CHAINS),
    };
    std::iter::repeat_with(any).take(count)
}

#[test]
fn a_pair_holds_what_its_sets_together_give_from_its_produced_order() {
    let (mut held, mut not_held) = (0, 0);
    for query in queries(1, 1000) {
        let pairs = of_pairs(&query);
        let choices = 1 << query.sets;
        assert_eq!(pairs.states.len(), query.produced.len() * choices);
        for (number, pair) in pairs.states.iter().enumerate() {
            let (produced, choice) = (number / choices, number % choices);
            let sets = query.chosen(choice);
            let in_force = query.dependencies_of(&sets);
            let orderings = closure(start(&query.produced[produced]), in_force);
            for (bit, order) in query.interesting().enumerate() {
                let derived = orderings.contains(order);
                assert_eq!(pair.held >> bit & 1 == 1, derived, "{order:?} {query:?}");
                held += usize::from(derived);
                not_held += usize::from(!derived);
            }
        }
    }
    assert!(held > 10_000 && not_held > 10_000, "{held} {not_held}");
}

#[test]
fn every_produced_order_has_its_own_start_with_no_set_in_force() {
    for query in queries(2, 500) {
        let pairs = of_pairs(&query);
        assert_eq!(pairs.starts.len(), query.produced.len());
        let different: HashSet<&usize> = pairs.starts.iter().collect();
        assert_eq!(different.len(), query.produced.len());
        for (produced, &start) in query.produced.iter().zip(&pairs.starts) {
            let held = pairs.states[start].held;
            for (bit, order) in query.interesting().enumerate() {
                let is_prefix = produced.starts_with(order);
                assert_eq!(held >> bit & 1 == 1, is_prefix, "{order:?} {query:?}");
            }
        }
    }
}

#[test]
fn a_set_in_force_taken_again_changes_no_pair_and_another_does() {
    for query in queries(3, 500) {
        let pairs = of_pairs(&query);
        let choices = 1 << query.sets;
        for (number, pair) in pairs.states.iter().enumerate() {
            for (set, &next) in pair.successors.iter().enumerate() {
                let in_force = (number % choices) >> set & 1 == 1;
                let taken = if in_force {
                    number
                } else {
                    number + (1 << set)
                };
                assert_eq!(next, taken, "{query:?}");
            }
        }
    }
}

#[test]
fn columns_turned_round_together_with_those_that_equal_them_keep_the_table() {
    let mut ascending = 0;
    for query in queries(8, 1000) {
        let table = build_table(&query.write());
        let all = samples::turned(&query, ColumnSet::MAX);
        assert_eq!(build_table(&all.write()), table, "{query:?}");
        // The columns of one class under all sets. Under fewer sets they are several.
        let in_force = InForce::new(query.columns, &query.dependencies);
        let class: Vec<u8> = in_force.class(0).into_iter().collect();
        let one_class = samples::turned(&query, column_set(&class));
        assert_eq!(build_table(&one_class.write()), table, "{query:?}");
        ascending += usize::from(!query.descends());
    }
    assert!(
        ascending > 200,
        "only {ascending} queries have no descending column"
    );
}

/// How many pairs and rows a query has, and its refusal.
fn counted(query: &Query) -> (usize, usize, Option<u8>) {
    let refusal = build_table(&query.write()).err();
    let [pairs, rows] = [of_pairs(query), smallest(query)].map(|table| table.states.len());
    (pairs, rows, refusal)
}

#[test]
fn rows_are_refused_past_128_exactly() {
    let near = |joined, unsorted| counted(&near_the_most_rows(joined, unsorted));
    assert_eq!(near(true, false), (128, 127, None));
    assert_eq!(near(false, false), (128, 128, None));
    assert_eq!(near(true, true), (256, 128, None));
    assert_eq!(near(false, true), (256, 129, Some(STATES)));
    for sets in 0..=8 {
        let refusal = (sets == 8).then_some(STATES);
        let rows = 1 << sets;
        assert_eq!(counted(&own_column_per_set(sets)), (rows, rows, refusal));
        if sets > 0 {
            assert_eq!(counted(&chain_of_equals(sets)), (rows, rows, refusal));
        }
    }
}

#[test]
fn pairs_may_be_many_where_rows_are_few() {
    for sets in 1..=8 {
        assert_eq!(counted(&joined_starts(sets)), (2 << sets, 3, None));
        let empty = Query {
            columns: 1,
            produced: vec![vec![], order(&[0])],
            tested: vec![],
            sets,
            dependencies: vec![],
        };
        assert_eq!(counted(&empty), (2 << sets, 2, None));
    }
    assert_eq!(counted(&most_orders()), (128, 16, None));
    assert_eq!(counted(&longest_table()), (2048, 128, None));
}

#[test]
fn the_longest_table_and_its_listing_have_room() {
    let query = longest_table().write();
    let table = build_table(&query).expect("not refused");
    assert_eq!(table.len(), 4 + 8 + 128 * 8 + 128 * 2);
    assert_eq!(table[..4], [128, 8, 8, 8]);
    let listing = listing(&query);
    // Room for the count of states, 8 starts whose two numbers have three digits, and
    // 128 states.
    let room = "states 128\n".len()
        + 8 * "start 128 128\n".len()
        + 128 * "state 127 next 127 127 127 127 127 127 127 127 held 65535\n".len();
    assert_eq!(room, 7547);
    assert!(listing.len() > 5000 && listing.len() <= room);
}

#[test]
fn any_number_of_constants_gives_two_rows() {
    for columns in 1..=12 {
        assert_eq!(counted(&constants(columns)), (2, 2, None));
    }
}

#[test]
fn orderings_are_never_refused() {
    let mut random = Random::new(4);
    let mut outcomes = [0; 12];
    let mut count = |query: &Query| {
        let refusal = table_of(&query.write()).err();
        assert_ne!(refusal, Some(ORDERINGS), "{query:?}");
        outcomes[usize::from(refusal.unwrap_or(0))] += 1;
    };
    for _ in 0..2000 {
        count(&samples::query(&mut random, Shape::FULL));
        count(&samples::query_of_chains(&mut random, Shape::FULL));
    }
    for _ in 0..100 {
        count(&samples::query(&mut random, Shape::LARGEST));
        // Seven constants or more, and any other dependencies.
        let mut query = samples::query_of_chains(&mut random, Shape::LARGEST);
        let constants = 7 + random.below(6) as u8;
        for (column, dependency) in (0..constants).zip(&mut query.dependencies) {
            *dependency = Dependency::fix(dependency.set, &[], column);
        }
        count(&query);
    }
    let enough = outcomes[0] > 3000 && outcomes[usize::from(STATES)] > 100;
    assert!(enough, "{outcomes:?}");
    assert_eq!(outcomes.iter().sum::<usize>(), outcomes[0] + outcomes[8]);
    for trial in trials::all() {
        assert_ne!(table_of(&trial.query).err(), Some(ORDERINGS));
    }
}

#[test]
fn with_only_the_empty_order_there_is_one_row() {
    let query = Query {
        columns: 2,
        produced: vec![vec![]],
        tested: vec![],
        sets: 1,
        dependencies: vec![Dependency::fix(0, &[], 1)],
    };
    let expected = "states 1\nstart 0 0\nstate 0 next 0 held 1\n";
    assert_eq!(listing(&query.write()), expected);
}

#[test]
fn a_set_taken_again_and_an_empty_set_lead_to_the_same_row() {
    let mut empty_sets = 0;
    for query in queries(6, 1000) {
        let table = table_of(&query.write()).expect("not refused");
        for set in 0..query.sets {
            let next = |state: usize| table.states[state].successors[usize::from(set)];
            let is_empty = query.dependencies_of(&[set]).next().is_none();
            empty_sets += usize::from(is_empty);
            for state in 0..table.states.len() {
                assert_eq!(next(next(state)), next(state), "{query:?}");
                assert!(!is_empty || next(state) == state, "{query:?}");
            }
        }
    }
    assert!(empty_sets > 300, "only {empty_sets} empty sets");
}

#[test]
fn table_and_listing_say_the_same() {
    for query in queries(7, 500) {
        let bytes = query.write();
        let table = build_table(&bytes).expect("not refused");
        assert_eq!(table::check(&table), Ok(()));
        let mut lines = vec![format!("states {}", table[0])];
        for produced in 0..query.produced.len() as u8 {
            let state = table::enter(&table, produced).expect("granted");
            lines.push(format!("start {produced} {state}"));
        }
        for state in 0..table[0] {
            let mut words = vec!["state".to_string(), state.to_string(), "next".to_string()];
            let row = table::row(&table, state).expect("granted");
            words.extend(row.iter().map(u8::to_string));
            let held = (0..table[1] + table[2])
                .filter(|&order| table::ask(&table, state, order) == Ok(true))
                .fold(0, |bits, order| bits | 1 << order);
            words.extend(["held".to_string(), u16::to_string(&held)]);
            lines.push(words.join(" "));
        }
        let expected = lines.join("\n") + "\n";
        assert_eq!(listing(&bytes), expected);
    }
}
