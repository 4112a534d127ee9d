//! Merging: which states share a row, how rows are numbered, and that no right
//! table has fewer.

use std::collections::VecDeque;

use reference::buffers::SCRATCH_BYTES;
use reference::builder::table_of;
use reference::construction::of_pairs;
use reference::derivation::{closure, start};
use reference::lookups::{model_answers, table_answers};
use reference::merging::{classes, merged, walked};
use reference::query::order;
use reference::random::Random;
use reference::samples::{self, Kind, Shape, Supplied};
use reference::table::{State, Table};
use reference::verification::{compare, states_alike, two_alike};
use reference::{trials, Implementation, Query, Reference};

/// Random queries that are not refused, small ones and large ones, with their
/// tables.
fn queries(seed: u64, count: usize) -> impl Iterator<Item = (Query, Table)> {
    let mut random = Random::new(seed);
    std::iter::repeat_with(move || match random.below(10) {
        0 => samples::query(&mut random, Shape::FEW_SETS),
        1 => samples::query_of_many_rows(&mut random),
        2..=5 => samples::query_of_chains(&mut random, Shape::CHAINS),
        _ => samples::query(&mut random, Shape::SMALL),
    })
    .filter_map(|query| {
        let table = table_of(&query.write()).ok()?;
        Some((query, table))
    })
    .take(count)
}

fn verify(query: &Query, table: &Table) -> Result<(), u8> {
    Reference::verify(&query.write(), &table.write(), &mut [0; SCRATCH_BYTES])
}

/// The length of the shortest run of sets after which two states of a table hold
/// different orders, if there is one. The pairs that the runs lead to are looked
/// at forwards, the shortest runs first.
fn telling_length(table: &Table, one: usize, other: usize) -> Option<usize> {
    let states = table.states.len();
    let mut seen = vec![false; states * states];
    let mut waiting = VecDeque::from([(one, other, 0)]);
    while let Some((one, other, length)) = waiting.pop_front() {
        let (one_state, other_state) = (&table.states[one], &table.states[other]);
        if one_state.held != other_state.held {
            return Some(length);
        }
        let successors = one_state.successors.iter().zip(&other_state.successors);
        for (&one, &other) in successors {
            if !std::mem::replace(&mut seen[one * states + other], true) {
                waiting.push_back((one, other, length + 1));
            }
        }
    }
    None
}

/// Of each state, the row of the other table that every run to it leads to.
fn rows_of(unmerged: &Table, merged: &Table) -> Vec<usize> {
    let mut rows = vec![None; unmerged.states.len()];
    let starts = unmerged.starts.iter().zip(&merged.starts);
    let mut waiting: Vec<(&usize, &usize)> = starts.collect();
    while let Some((&state, &row)) = waiting.pop() {
        match rows[state] {
            Some(other) => assert_eq!(row, other, "two rows for state {state}"),
            None => {
                rows[state] = Some(row);
                let (state, row) = (&unmerged.states[state], &merged.states[row]);
                assert_eq!(state.held, row.held);
                waiting.extend(state.successors.iter().zip(&row.successors));
            }
        }
    }
    let reached = rows.into_iter();
    reached.map(|row| row.expect("a run leads to it")).collect()
}

#[test]
fn two_states_share_a_row_exactly_when_no_run_of_sets_tells_them_apart() {
    let (mut shared, mut told_apart_later) = (0, [0; 4]);
    let chains = (1..=5).map(|sets| {
        let query = samples::chain_of_equals(sets);
        let table = table_of(&query.write()).expect("not refused");
        (query, table)
    });
    for (query, table) in queries(61, 300).chain(chains) {
        let unmerged = of_pairs(&query);
        let rows = rows_of(&unmerged, &table);
        let classes = classes(&unmerged);
        for one in 0..rows.len() {
            for other in 0..rows.len() {
                let telling = telling_length(&unmerged, one, other);
                let share = rows[one] == rows[other];
                assert_eq!(share, telling.is_none(), "{one} {other} {query:?}");
                let one_class = classes[one] == classes[other];
                assert_eq!(one_class, share, "{one} {other} {query:?}");
                let alike = states_alike(&unmerged, one, other);
                assert_eq!(alike, share, "{one} {other} {query:?}");
                shared += usize::from(share && one != other);
                if let Some(length) = telling {
                    told_apart_later[length.min(3)] += 1;
                }
            }
        }
    }
    let enough = shared > 5000 && told_apart_later.iter().all(|&pairs| pairs > 100);
    assert!(enough, "{shared} share, told apart: {told_apart_later:?}");
}

#[test]
fn no_two_rows_answer_alike() {
    for (query, table) in queries(62, 2000) {
        assert_eq!(two_alike(&table), None, "{query:?}");
    }
}

#[test]
fn merging_the_smallest_table_changes_nothing() {
    for (query, table) in queries(63, 5000) {
        assert_eq!(merged(&table), table, "{query:?}");
    }
}

#[test]
fn rows_are_numbered_starts_first_then_as_they_are_met() {
    for (query, table) in queries(64, 2000) {
        let mut met: Vec<usize> = Vec::new();
        let successors = table.states.iter().flat_map(|state| &state.successors);
        for state in table.starts.iter().chain(successors).copied() {
            if !met.contains(&state) {
                met.push(state);
            }
        }
        let in_number_order: Vec<usize> = (0..table.states.len()).collect();
        assert_eq!(met, in_number_order, "{query:?}");
    }
}

#[test]
fn any_table_answers_as_before() {
    let mut random = Random::new(65);
    let (mut read, mut smaller) = (0, 0);
    for _ in 0..5000 {
        if let Ok(table) = Table::read(&samples::any_table(&mut random)) {
            let merged = merged(&table);
            assert_eq!(compare(&table, &merged.write()), Ok(()), "{table:?}");
            assert_eq!(compare(&merged, &table.write()), Ok(()), "{table:?}");
            read += 1;
            smaller += usize::from(merged.states.len() < table.states.len());
        }
    }
    let enough = read > 1500 && smaller > 500;
    assert!(enough, "{read} tables, of which {smaller} get smaller");
}

#[test]
fn the_table_answers_as_the_unmerged_one_and_the_plain_model_do() {
    let mut random = Random::new(70);
    let mut smaller = 0;
    for _ in 0..1000 {
        let (query, table) = samples::query_with_table(&mut random, Shape::SMALL);
        let unmerged = samples::unmerged(&query).expect("there are few pairs");
        let unmerged = unmerged.write();
        smaller += usize::from(table.len() < unmerged.len());
        let lookups = samples::lookups(&mut random, &query, 40);
        let answers = table_answers::<Reference>(&table, &lookups);
        let unmerged_answers = table_answers::<Reference>(&unmerged, &lookups);
        assert_eq!(answers, unmerged_answers, "{query:?} {lookups:?}");
        let model_answers = model_answers(&query, &lookups);
        assert_eq!(answers, model_answers, "{query:?} {lookups:?}");
    }
    assert!(smaller > 100, "only {smaller} tables are smaller");
}

#[test]
fn every_accepted_table_has_as_many_rows_or_more_and_merges_into_the_own_one() {
    let mut random = Random::new(66);
    let (mut as_many, mut more) = (0, 0);
    for (query, own) in queries(67, 1000) {
        for kind in Kind::ALL {
            let Supplied { table, .. } = samples::supplied(&mut random, kind, &query, &own);
            let Ok(table) = Table::read(&table) else {
                continue;
            };
            let case = format!("{kind:?} {table:?} {query:?}");
            let accepted = verify(&query, &table).is_ok();
            let merges_into_own = merged(&table) == own;
            assert_eq!(accepted, merges_into_own, "{case}");
            if accepted {
                assert!(table.states.len() >= own.states.len(), "{case}");
                match table.states.len() == own.states.len() {
                    true => as_many += 1,
                    false => more += 1,
                }
            }
        }
    }
    let enough = as_many > 1500 && more > 3000;
    assert!(enough, "{as_many} with as many rows, {more} with more");
}

/// A table without this row. What led to it leads to another row.
fn without_row(table: &Table, row: usize, instead: usize) -> Table {
    let lead = |&state: &usize| {
        let state = if state == row { instead } else { state };
        state - usize::from(state > row)
    };
    let states = table.states.iter().enumerate();
    let states = states.filter(|&(number, _)| number != row);
    Table {
        starts: table.starts.iter().map(lead).collect(),
        states: states
            .map(|(_, state)| State {
                successors: state.successors.iter().map(lead).collect(),
                held: state.held,
            })
            .collect(),
        ..*table
    }
}

#[test]
fn a_table_with_a_row_left_out_is_refused() {
    let mut left_out = 0;
    for (query, table) in queries(68, 500) {
        let states = table.states.len().min(12);
        for row in 0..states {
            for instead in (0..states).filter(|&instead| instead != row) {
                let fewer = without_row(&table, row, instead);
                assert_eq!(verify(&query, &fewer), Err(13), "{row} {instead} {query:?}");
                left_out += 1;
            }
        }
    }
    assert!(left_out > 5000, "only {left_out} tables");
}

#[test]
fn no_table_of_one_or_two_rows_is_right_for_the_running_query() {
    let trial = trials::named("running_query");
    let query = Query::read(&trial.query).expect("the trial's query is read");
    let own = Table::read(&trial.table).expect("the trial's table has the form");
    assert_eq!((own.states.len(), own.interesting()), (3, 3));
    for rows in 1..=2 {
        // The starts and the successors, two per row, are rows in all ways.
        let rows_in_all_ways = samples::choices([&[0, 1][..rows]; 6]);
        for numbers in rows_in_all_ways {
            let [one, other, successors @ ..] = numbers.map(usize::from);
            for held in 0..1 << (3 * rows) {
                let state = |row: usize| State {
                    successors: successors[2 * row..][..2].to_vec(),
                    held: held >> (3 * row) & 7,
                };
                let table = Table {
                    starts: vec![one, other],
                    states: (0..rows).map(state).collect(),
                    ..own
                };
                assert_eq!(verify(&query, &table), Err(13), "{table:?}");
            }
        }
    }
}

#[test]
fn the_accepted_tables_of_trials_merge_into_the_built_ones() {
    let mut merges = 0;
    for trial in trials::all() {
        if trial.verified == Some(Ok(())) {
            let supplied = Table::read(&trial.supplied).expect("an accepted table has the form");
            let own = table_of(&trial.query).expect("the trial's query has a table");
            assert_eq!(merged(&supplied), own, "trial {}", trial.name);
            merges += 1;
        }
    }
    assert!(merges >= 4, "only {merges} trials");
}

#[test]
fn the_unmerged_table_of_a_trial_has_a_row_for_each_pair() {
    let trial = trials::named("supplied_unmerged");
    let query = Query::read(&trial.query).expect("the trial's query is read");
    let pairs = of_pairs(&query);
    let unmerged = walked(&pairs);
    assert_eq!(unmerged.write(), trial.supplied);
    assert_eq!(unmerged.states.len(), pairs.states.len());
    assert_eq!(samples::unmerged(&query), Some(unmerged.clone()));
    for (one, other) in [(0, 3), (1, 4), (2, 6), (5, 7)] {
        assert!(states_alike(&unmerged, one, other), "{one} {other}");
    }

    // After both sets, state 6, (a,c) is derived, and after set 0 alone it is not.
    let (a, c) = (0, 2);
    let derived = |sets: &[u8]| {
        let orderings = closure(start(&query.produced[0]), query.dependencies_of(sets));
        orderings.contains(&order(&[a, c]))
    };
    assert!(derived(&[0, 1]) && !derived(&[0]));
}

#[test]
fn the_walk_numbers_states_and_changes_no_answer() {
    let mut random = Random::new(71);
    for (query, _) in queries(72, 500) {
        let Some(unmerged) = samples::unmerged(&query) else {
            continue;
        };
        for _ in 0..3 {
            let renumbered = samples::renumbered(&mut random, &unmerged);
            assert_eq!(walked(&renumbered), unmerged, "{query:?}");
        }
    }
}

/// A table of one set, in which each row leads to this one and holds order 0 or
/// none.
fn one_set(starts: &[usize], rows: &[(usize, bool)]) -> Table {
    let states = rows.iter().map(|&(next, held)| State {
        successors: vec![next],
        held: held.into(),
    });
    Table {
        tested: 0,
        sets: 1,
        starts: starts.to_vec(),
        states: states.collect(),
    }
}

#[test]
fn states_that_differ_only_after_several_sets_stay_apart() {
    // States 0 to 3 hold the order for ever, states 4 to 6 until the set leads to
    // state 7.
    let chains = one_set(
        &[0, 4],
        &[
            (1, true),
            (2, true),
            (3, true),
            (3, true),
            (5, true),
            (6, true),
            (7, true),
            (7, false),
        ],
    );
    assert_eq!(telling_length(&chains, 0, 4), Some(3));
    assert_eq!(telling_length(&chains, 4, 5), Some(2));
    let smallest = one_set(
        &[0, 1],
        &[(0, true), (2, true), (3, true), (4, true), (4, false)],
    );
    assert_eq!(merged(&chains), smallest);
}

#[test]
fn a_chain_of_128_states_is_told_apart_by_its_last_one_alone() {
    let mut random = Random::new(69);
    let (query, [alike, told_apart]) = samples::longest_chain();
    assert_eq!(telling_length(&told_apart, 0, 1), Some(126));
    let one_row = table_of(&query.write()).expect("the query has a table");
    assert_eq!(one_row.states.len(), 1);
    for _ in 0..20 {
        let renumbered = samples::renumbered(&mut random, &alike);
        assert_eq!(merged(&renumbered), one_row);
        let renumbered = samples::renumbered(&mut random, &told_apart);
        assert_eq!(merged(&renumbered), told_apart);
    }
}

#[test]
fn states_of_a_trial_are_told_apart_after_as_many_sets_as_is_said_of_them() {
    let trial = trials::named("told_apart_after_six_sets");
    let table = table_of(&trial.query).expect("the trial's query has a table");
    assert_eq!(telling_length(&table, 0, 1), Some(6));
}

#[test]
fn the_rows_of_a_trial_are_as_many_as_is_said_of_them() {
    // Of what each group of sets has, where no group is whole; without set 0 and with
    // it.
    let groups = [&[1, 2][..], &[3, 4, 5], &[6, 7]];
    let partial: usize = groups.iter().map(|sets| (1 << sets.len()) - 1).product();
    let trial = trials::named("eight_sets_built");
    let query = Query::read(&trial.query).expect("the trial's query is read");
    let table = table_of(&trial.query).expect("the trial's query has a table");
    assert_eq!(table.states.len(), 2 * (partial + 1));
    assert_eq!(of_pairs(&query).states.len(), 256);

    let held = |choice: usize| {
        let has = |set: &u8| choice >> set & 1 == 1;
        has(&0) && groups.iter().any(|sets| sets.iter().all(has))
    };
    let bytes = table.write();
    for choice in 0..256 {
        let sets = query.chosen(choice);
        let state = Reference::follow(&bytes, 0, &sets).expect("granted");
        assert_eq!(
            Reference::ask(&bytes, state, 1),
            Ok(held(choice)),
            "{sets:?}"
        );
    }
}
