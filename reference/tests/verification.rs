//! A supplier's table on trial. Beside the trial stands the plain model, which is
//! put to every run of sets that may be needed.

use reference::buffers::SCRATCH_BYTES;
use reference::builder::table_of;
use reference::model::Model;
use reference::query::order;
use reference::random::Random;
use reference::samples::{self, most_orders, own_column_per_set, Kind, Shape, Supplied};
use reference::table::Table;
use reference::{trials, Implementation, Query, Reference};

/// Small enough for every run of sets.
const TINY: Shape = Shape {
    columns: (1, 3),
    produced: (1, 2),
    tested: (0, 3),
    lengths: (0, 3),
    sets: (0, 2),
    dependencies: (0, 3),
};

/// The most runs of one length that are put to a table.
const MOST_RUNS: usize = 8192;

fn verify(query: &Query, table: &[u8]) -> Result<(), u8> {
    Reference::verify(&query.write(), table, &mut [7; SCRATCH_BYTES])
}

/// What the plain model answers of each interesting order, by the produced order
/// entered by and the choice of sets taken, bit i for set i.
fn model_answers(query: &Query) -> Vec<Vec<Vec<Result<bool, u8>>>> {
    let orders = 0..query.interesting().count() as u8;
    let mut answers = Vec::new();
    for produced in 0..query.produced.len() as u8 {
        let of_choice = |choice: usize| {
            let mut model = Model::new(query);
            model.enter(produced).expect("a produced order");
            for set in query.chosen(choice) {
                model.take(set).expect("a set");
            }
            orders.clone().map(|order| model.ask(order)).collect()
        };
        answers.push((0..1 << query.sets).map(of_choice).collect());
    }
    answers
}

/// A run of sets: the produced order entered by, the choice of sets taken, bit i
/// for set i, and the state of the table that it leads to.
struct Run {
    produced: u8,
    choice: usize,
    state: u8,
}

/// The length of the shortest run of sets after which a table answers otherwise
/// than the plain model, if one of at most so many sets does.
fn shortest_wrong_run(query: &Query, table: &[u8], most: usize) -> Option<usize> {
    let model_answers = model_answers(query);
    let answers_alike = |run: &Run| {
        let expected = &model_answers[usize::from(run.produced)][run.choice];
        let given = (0..).map(|order| Reference::ask(table, run.state, order));
        given
            .zip(expected)
            .all(|(given, expected)| given == *expected)
    };
    let entered = (0..query.produced.len() as u8).map(|produced| Run {
        produced,
        choice: 0,
        state: Reference::enter(table, produced).expect("a produced order"),
    });
    let mut runs: Vec<Run> = entered.collect();
    for length in 0..=most {
        if !runs.iter().all(answers_alike) {
            return Some(length);
        }
        let longer = runs.iter().flat_map(|run| {
            (0..query.sets).map(|set| Run {
                produced: run.produced,
                choice: run.choice | 1 << set,
                state: Reference::take(table, run.state, set).expect("a set"),
            })
        });
        runs = longer.collect();
    }
    None
}

/// How long a run must be at most to tell a table from the plain model: their
/// states are told apart by runs that are shorter by two than there are states
/// in both. The model has at most one for each choice of sets from each start.
fn telling_length(query: &Query, table: &Table) -> usize {
    (query.produced.len() << query.sets) + table.states.len() - 2
}

#[test]
fn a_table_is_refused_exactly_when_a_run_of_sets_leads_to_a_wrong_answer() {
    let mut random = Random::new(31);
    let mut accepted = 0;
    let mut wrong_after = [0; 4];
    for _ in 0..1000 {
        let query = match random.below(2) {
            0 => samples::query(&mut random, TINY),
            _ => samples::query_of_chains(&mut random, TINY),
        };
        let own_table = table_of(&query.write()).expect("there are few pairs");
        let own = own_table.write();
        for kind in Kind::ALL {
            let Supplied { table, known } =
                samples::supplied(&mut random, kind, &query, &own_table);
            let verified = verify(&query, &table);
            let case = format!("{kind:?} {table:?} {query:?}");
            assert!(known.is_none_or(|known| known == verified), "{case}");
            let length = match Table::read(&table) {
                Err(refusal) => {
                    assert_eq!(verified, Err(refusal), "{case}");
                    continue;
                }
                Ok(_) if table[1..4] != own[1..4] => {
                    assert_eq!(verified, Err(12), "{case}");
                    continue;
                }
                Ok(table) => telling_length(&query, &table),
            };
            let runs = usize::from(query.sets).checked_pow(length as u32);
            if runs.is_none_or(|runs| runs > MOST_RUNS) {
                continue;
            }
            let wrong = shortest_wrong_run(&query, &table, length);
            let expected = wrong.map_or(Ok(()), |_| Err(13));
            assert_eq!(verified, expected, "{case}");
            match wrong {
                None => accepted += 1,
                Some(length) => wrong_after[length.min(3)] += 1,
            }
        }
    }
    let enough = accepted > 5000 && wrong_after.iter().all(|&tables| tables > 50);
    assert!(
        enough,
        "{accepted} accepted, wrong after sets: {wrong_after:?}"
    );
}

#[test]
fn a_wrong_answer_after_127_sets_is_found() {
    let mut random = Random::new(32);
    let (query, tables) = samples::longest_chain();
    for _ in 0..20 {
        let [right, wrong] = tables
            .each_ref()
            .map(|table| samples::renumbered(&mut random, table).write());
        assert_eq!(shortest_wrong_run(&query, &right, 127), None);
        assert_eq!(verify(&query, &right), Ok(()));
        assert_eq!(shortest_wrong_run(&query, &wrong, 127), Some(127));
        assert_eq!(verify(&query, &wrong), Err(13));
    }
}

#[test]
fn every_start_is_tried() {
    let query = Query {
        columns: 3,
        produced: [0, 1, 2].map(|column| order(&[column])).to_vec(),
        tested: vec![],
        sets: 0,
        dependencies: vec![],
    };
    let own = table_of(&query.write()).expect("the query has a table");
    for start in 0..3 {
        let mut wrong = own.clone();
        wrong.starts[start] = (wrong.starts[start] + 1) % 3;
        assert_eq!(verify(&query, &wrong.write()), Err(13), "start {start}");
    }
}

#[test]
fn every_held_bit_of_every_state_is_tried() {
    for (query, states, orders) in [(own_column_per_set(7), 128, 8), (most_orders(), 16, 16)] {
        let own = table_of(&query.write()).expect("the query has a table");
        assert_eq!((own.states.len(), own.interesting()), (states, orders));
        for state in 0..states {
            for order in 0..orders {
                let mut wrong = own.clone();
                wrong.states[state].held ^= 1 << order;
                assert_eq!(verify(&query, &wrong.write()), Err(13), "{state} {order}");
            }
        }
    }
}

#[test]
fn tables_of_trials_are_wrong_after_as_many_sets_as_is_said_of_them() {
    for (name, sets) in [
        ("supplied_pair_of_fixes", Some(1)),
        ("supplied_prefix_test", Some(2)),
        ("supplied_wrong_after_three_sets", Some(3)),
        ("supplied_settled_column_kept", Some(1)),
        ("supplied_direction_ignored", Some(0)),
        ("supplied_nothing_to_take_out", None),
        ("supplied_renumbered", None),
        ("supplied_twin_rows", None),
        ("supplied_unmerged", None),
        ("supplied_unreachable_row", None),
    ] {
        let trial = trials::named(name);
        let query = Query::read(&trial.query).expect("the trial's query is read");
        let table = Table::read(&trial.supplied).expect("the trial's table has the form");
        let length = telling_length(&query, &table);
        let wrong = shortest_wrong_run(&query, &trial.supplied, length);
        assert_eq!(wrong, sets, "trial {name}");
    }
}

#[test]
fn a_table_of_other_sizes_may_be_right_for_its_own_query() {
    let trial = trials::named("supplied_sizes_differ");
    let mut query = Query::read(&trial.query).expect("the trial's query is read");
    assert_eq!(verify(&query, &trial.supplied), Err(12));
    query.tested.pop();
    assert_eq!(verify(&query, &trial.supplied), Ok(()));
}

#[test]
fn right_tables_differ_from_the_own_one_as_is_said_of_them() {
    let mut random = Random::new(33);
    let (mut renumbered, mut unmerged) = (0, 0);
    for _ in 0..500 {
        let (query, own) = samples::query_with_table(&mut random, Shape::SMALL);
        let own = Table::read(&own).expect("a built table has the form");
        let mut supplied = |kind| {
            let supplied = samples::supplied(&mut random, kind, &query, &own).table;
            Table::read(&supplied).expect("a right table has the form")
        };
        assert_eq!(supplied(Kind::Own), own);
        let table = supplied(Kind::Renumbered);
        assert_eq!(table.states.len(), own.states.len());
        renumbered += usize::from(table != own);
        let states = supplied(Kind::Unmerged).states.len();
        assert!(states >= own.states.len(), "{query:?}");
        unmerged += usize::from(states > own.states.len());
        let mut longer = vec![Kind::TwinRows, Kind::UnreachableRows];
        if query.sets > 0 {
            longer.push(Kind::Chain);
        }
        for kind in longer {
            let states = supplied(kind).states.len();
            let room = own.states.len() < 128;
            assert_eq!(states > own.states.len(), room, "{kind:?} {query:?}");
        }
    }
    assert!(renumbered > 200, "only {renumbered} tables are renumbered");
    assert!(unmerged > 50, "only {unmerged} tables have more rows");
}
