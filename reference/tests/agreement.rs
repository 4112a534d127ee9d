//! The table's answers to random lists of lookups equal the plain model's, and
//! what is held does hold of rows.

use reference::builder::build_table;
use reference::derivation::start;
use reference::lookups::{model_answers, table_answers, Answer, Lookup};
use reference::model::Model;
use reference::query::order;
use reference::random::Random;
use reference::rows::{obey_all, stand_in};
use reference::samples::{self, Shape};
use reference::{Dependency, Implementation, Query, Reference};

/// A random query of few columns that is not refused, with its table.
fn any_with_table(random: &mut Random) -> (Query, Vec<u8>) {
    match random.below(2) {
        0 => samples::query_with_table(random, Shape::SMALL),
        _ => samples::chains_with_table(random, Shape::CHAINS),
    }
}

#[test]
fn tables_answer_as_the_plain_model_does() {
    let mut random = Random::new(2026);
    let queries = 3000;
    let (mut held, mut not_held, mut refused, mut reentries) = (0, 0, 0, 0);
    for _ in 0..queries {
        let (query, table) = any_with_table(&mut random);
        for _ in 0..4 {
            let lookups = samples::lookups(&mut random, &query, 24);
            let answers = table_answers::<Reference>(&table, &lookups);
            assert_eq!(
                answers,
                model_answers(&query, &lookups),
                "{query:?} {lookups:?}"
            );
            for (lookup, answer) in lookups.iter().zip(&answers) {
                match (lookup, answer) {
                    (_, Answer::Held(true)) => held += 1,
                    (_, Answer::Held(false)) => not_held += 1,
                    (_, Answer::Refused(_)) => refused += 1,
                    (Lookup::Enter(_), Answer::Granted) => reentries += 1,
                    (_, Answer::Granted) => {}
                }
            }
        }
    }
    reentries -= 4 * queries;
    assert!(held > 20_000 && not_held > 20_000 && refused > 10_000 && reentries > 5_000);
}

#[test]
fn tables_of_many_columns_answer_as_the_plain_model_does() {
    let mut random = Random::new(2027);
    let (mut held, mut not_held) = (0, 0);
    for _ in 0..1000 {
        let (query, table) = match random.below(2) {
            0 => samples::query_with_table(&mut random, Shape::FULL),
            _ => samples::chains_with_table(&mut random, Shape::FULL),
        };
        let lookups = samples::lookups(&mut random, &query, 40);
        let answers = table_answers::<Reference>(&table, &lookups);
        let expected = model_answers(&query, &lookups);
        assert_eq!(answers, expected, "{query:?} {lookups:?}");
        for answer in answers {
            held += usize::from(answer == Answer::Held(true));
            not_held += usize::from(answer == Answer::Held(false));
        }
    }
    assert!(held > 3000 && not_held > 5000, "{held} {not_held}");
}

#[test]
fn every_order_is_asked_after_every_pair_of_takes() {
    let mut random = Random::new(77);
    for _ in 0..500 {
        let (query, table) = any_with_table(&mut random);
        let interesting = (query.produced.len() + query.tested.len()) as u8;
        let mut lookups = Vec::new();
        for produced in 0..query.produced.len() as u8 {
            for first in 0..query.sets {
                for second in 0..query.sets {
                    lookups.push(Lookup::Enter(produced));
                    lookups.extend((0..=interesting).map(Lookup::Ask));
                    lookups.push(Lookup::Take(first));
                    lookups.extend((0..=interesting).map(Lookup::Ask));
                    lookups.push(Lookup::Take(second));
                    lookups.extend((0..=interesting).map(Lookup::Ask));
                }
            }
        }
        assert_eq!(
            table_answers::<Reference>(&table, &lookups),
            model_answers(&query, &lookups),
            "{query:?}"
        );
    }
}

#[test]
fn the_same_sets_in_any_order_and_however_often_give_the_same_answers_and_row() {
    let mut random = Random::new(78);
    let (mut otherwise, mut later) = (0, 0);
    for _ in 0..1000 {
        let (query, table) = any_with_table(&mut random);
        let interesting = query.interesting().count();
        for produced in 0..query.produced.len() as u8 {
            let sets: Vec<u8> = (0..query.sets).filter(|_| !random.one_in(4)).collect();
            let answers = model_answers(&query, &samples::asks_after(&query, produced, &sets));
            let answers = &answers[answers.len() - interesting..];
            let row = Reference::follow(&table, produced, &sets);
            let rearranged = samples::rearranged(&mut random, &sets);
            let case = format!("{sets:?} {rearranged:?} {query:?}");

            let lookups = samples::asks_after(&query, produced, &rearranged);
            assert!(model_answers(&query, &lookups).ends_with(answers), "{case}");
            assert!(
                table_answers::<Reference>(&table, &lookups).ends_with(answers),
                "{case}"
            );
            assert_eq!(
                Reference::follow(&table, produced, &rearranged),
                row,
                "{case}"
            );
            otherwise += usize::from(rearranged != sets);
            let one_less = sets.split_last().map_or(&[][..], |(_, sets)| sets);
            later += usize::from(Reference::follow(&table, produced, one_less) != row);
        }
    }
    assert!(otherwise > 500, "only {otherwise} sequences differ");
    assert!(later > 200, "only {later} last sets lead to another row");
}

#[test]
fn refused_lookups_leave_the_state_and_the_model_as_they_were() {
    let query = Query {
        columns: 3,
        produced: vec![order(&[0]), order(&[2])],
        tested: vec![order(&[0, 1])],
        sets: 1,
        dependencies: vec![Dependency::fix(0, &[0], 1)],
    };
    let lookups = [
        Lookup::Enter(2),
        Lookup::Enter(0),
        Lookup::Take(0),
        Lookup::Take(1),
        Lookup::Ask(3),
        Lookup::Enter(255),
        Lookup::Ask(2),
        Lookup::Enter(1),
        Lookup::Ask(2),
        Lookup::Ask(1),
        Lookup::Enter(0),
        Lookup::Ask(2),
    ];
    let expected = [
        Answer::Refused(10),
        Answer::Granted,
        Answer::Granted,
        Answer::Refused(10),
        Answer::Refused(10),
        Answer::Refused(10),
        Answer::Held(true),
        Answer::Granted,
        Answer::Held(false),
        Answer::Held(true),
        Answer::Granted,
        Answer::Held(false),
    ];
    let table = build_table(&query.write()).expect("not refused");
    assert_eq!(table_answers::<Reference>(&table, &lookups), expected);
    assert_eq!(model_answers(&query, &lookups), expected);
}

#[test]
fn the_model_keeps_its_start_order_and_list_of_sets() {
    let query = Query {
        columns: 2,
        produced: vec![order(&[0]), order(&[1, 128])],
        tested: vec![],
        sets: 2,
        dependencies: vec![],
    };
    let mut model = Model::new(&query);
    assert_eq!(model.start_order(), None);
    assert_eq!(model.enter(2), Err(10));
    assert_eq!(model.start_order(), None);
    model.enter(0).expect("produced");
    for set in [1, 1, 0] {
        model.take(set).expect("a set");
    }
    assert_eq!(model.take(2), Err(10));
    assert_eq!(model.sets(), [1, 1, 0]);
    assert_eq!(model.start_order(), Some(&order(&[0])));
    model.enter(1).expect("produced");
    assert_eq!(model.sets(), []);
    assert_eq!(model.start_order(), Some(&order(&[1, 128])));
    assert_eq!(model.orderings(), Some(&start(&order(&[1, 128]))));
}

#[test]
fn held_orders_hold_of_rows_that_stand_in_the_start_order_and_obey_the_sets() {
    let mut random = Random::new(9);
    let (mut held_of_rows, mut not_held_and_false) = (0, 0);
    for _ in 0..2000 {
        let (query, table) = any_with_table(&mut random);
        let mut model = Model::new(&query);
        let produced = random.below(query.produced.len()) as u8;
        let mut lookups = vec![Lookup::Enter(produced)];
        model.enter(produced).expect("produced");
        for _ in 0..random.below(4) {
            if query.sets > 0 {
                let set = random.below(query.sets.into()) as u8;
                lookups.push(Lookup::Take(set));
                model.take(set).expect("a set");
            }
        }
        let moves = lookups.len();
        lookups.extend((0..query.interesting().count() as u8).map(Lookup::Ask));
        let answers = table_answers::<Reference>(&table, &lookups);
        let start_order = model.start_order().expect("entered");

        for _ in 0..4 {
            let rows = samples::rows(&mut random, &query, start_order, model.sets(), 8);
            assert!(stand_in(&rows, start_order));
            assert!(obey_all(&rows, query.dependencies_of(model.sets())));
            for (order, answer) in query.interesting().zip(&answers[moves..]) {
                let true_of_rows = stand_in(&rows, order);
                match answer {
                    Answer::Held(true) => {
                        assert!(true_of_rows, "{query:?} {lookups:?} {order:?} {rows:?}");
                        held_of_rows += usize::from(rows.len() > 2);
                    }
                    _ => not_held_and_false += usize::from(!true_of_rows),
                }
            }
            let orderings = model.orderings().expect("there are few columns");
            assert!(orderings.iter().all(|ordering| stand_in(&rows, ordering)));
        }
    }
    assert!(held_of_rows > 5_000 && not_held_and_false > 5_000);
}
