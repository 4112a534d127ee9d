//! What is timed beside the proved library does the same work: the lookups by
//! hand give its numbers, and the reduction a table's answers where document 000
//! says so, in either direction.

use benchmarks::by_hand;
use benchmarks::reduction::PlanNode;
use order_tables::raw as proved;
use reference::builder::build_table;
use reference::query::order;
use reference::random::Random;
use reference::{samples, trials, Dependency, Implementation, Query, Reference};

#[test]
fn lookups_by_hand() {
    let mut random = Random::new(1);
    for _ in 0..2000 {
        let table = samples::any_table(&mut random);
        for table in [samples::damaged(&mut random, &table), table] {
            for _ in 0..20 {
                let [a, b] = [[16, 256], [10, 256]].map(|limits| {
                    let limit = limits[random.below(2)];
                    random.below(limit) as u8
                });
                assert_eq!(by_hand::enter(&table, b), proved::table_enter(&table, b));
                assert_eq!(
                    by_hand::take(&table, a, b),
                    proved::table_take(&table, a, b)
                );
                assert_eq!(by_hand::ask(&table, a, b), proved::table_ask(&table, a, b));
                assert_eq!(by_hand::word(&table, a), proved::table_word(&table, a));
            }
        }
    }
}

#[test]
fn reduction_of_some_trials() {
    for name in [
        "listing_example",
        "trip_reports",
        "both_directions",
        "constant_in_either_direction",
        "equal_takes_the_direction",
        "inserted_in_either_direction",
        "descending_column_goes",
    ] {
        let query = trials::named(name).query;
        let table = build_table(&query).expect("the trial has a table");
        let query = Query::read(&query).expect("the trial's query is read");
        for produced in 0..query.produced.len() as u8 {
            for choice in 0..1 << query.sets {
                let mut sets = query.chosen(choice);
                for _ in 0..2 {
                    let state = Reference::follow(&table, produced, &sets).expect("granted");
                    let mut node = PlanNode::new(&query.produced[usize::from(produced)]);
                    sets.iter().for_each(|&set| node.take(&query, set));
                    for (handle, order) in (0..).zip(query.interesting()) {
                        let held = Reference::ask(&table, state, handle);
                        let case = format!("{order:?} after {sets:?} of {name}");
                        assert_eq!(Ok(node.ask(order)), held, "{case}");
                    }
                    sets.reverse();
                }
            }
        }
    }
}

#[test]
fn reduction_is_not_confluent() {
    let [a, b, c] = [0, 1, 2];
    let mut dependencies = vec![Dependency::fix(0, &[a, b], c), Dependency::fix(0, &[a], b)];
    for held in [true, false] {
        let query = Query {
            columns: 3,
            produced: vec![order(&[a])],
            tested: vec![],
            sets: 1,
            dependencies: dependencies.clone(),
        };
        let mut node = PlanNode::new(&query.produced[0]);
        node.take(&query, 0);
        assert_eq!(node.ask(&order(&[a, b, c])), held);
        dependencies.reverse();
    }
}
