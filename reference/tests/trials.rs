//! Every file of the folder trials/, put to this implementation, and how such a
//! file is read.

use reference::buffers::SCRATCH_BYTES;
use reference::construction::smallest;
use reference::lookups::{model_answers, Answer};
use reference::query::order;
use reference::trials::{self, Trial};
use reference::{stepped, Dependency, Query, Reference};

/// How many trials there are at least.
const TRIALS: usize = 62;

#[test]
fn every_trial() {
    let trials = trials::all();
    assert!(trials.len() >= TRIALS, "only {} trials", trials.len());
    for trial in trials {
        assert!(!trial.lines.is_empty(), "trial {} says nothing", trial.name);
        assert_eq!(trial.check::<Reference>(), Ok(()), "trial {}", trial.name);
        if let Ok(query) = Query::read(&trial.query) {
            assert_eq!(query.write(), trial.query, "trial {}", trial.name);
            check_by_the_query(&trial, &query);
        }
    }
}

/// Checks what a trial says that needs the query: what the plain model answers,
/// and the rows without limits.
fn check_by_the_query(trial: &Trial, query: &Query) {
    for (lookups, held) in &trial.asks {
        let answer = model_answers(query, lookups).pop();
        let expected = Some(Answer::Held(*held));
        assert_eq!(answer, expected, "{lookups:?} of trial {}", trial.name);
    }
    if let Some(expected) = trial.without_limits {
        let rows = smallest(query).states.len();
        assert_eq!(rows, expected, "trial {}", trial.name);
    }
    check_held_bytes(trial, query);
}

/// Checks what a trial says of the held bytes in a stepped build's scratch.
fn check_held_bytes(trial: &Trial, query: &Query) {
    let read = Ok(query.clone());
    let mut scratch = [0; SCRATCH_BYTES];
    assert_eq!(stepped::begin(&read, &mut scratch), Ok(()));
    for _ in 0..query.pairs() {
        let settled = stepped::continue_build(&read, &mut scratch, &mut []);
        assert_eq!(settled, Ok(None), "trial {}", trial.name);
    }
    if !trial.pairs.is_empty() {
        let held = &scratch[2..][..2 * query.pairs()];
        assert_eq!(held, trial.pairs, "trial {}", trial.name);
    }
    for [held, table] in &trial.merged {
        let mut found = scratch;
        found[2..][..held.len()].copy_from_slice(held);
        let mut output = vec![0; table.len()];
        let done = stepped::continue_build(&read, &mut found, &mut output);
        assert_eq!(done, Ok(Some(table.len())), "trial {}", trial.name);
        assert_eq!(&output, table, "trial {}", trial.name);
    }
}

#[test]
fn the_example_is_read_as_its_comments_say() {
    let query = Query {
        columns: 3,
        produced: vec![order(&[0]), order(&[1, 0])],
        tested: vec![order(&[0, 1]), order(&[2])],
        sets: 2,
        dependencies: vec![Dependency::fix(0, &[0], 1), Dependency::equal(1, 1, 2)],
    };
    assert_eq!(Query::read(&trials::example().query), Ok(query));
}

#[test]
fn what_comes_out_otherwise_than_a_trial_says_is_seen() {
    let query = "1 1 0 1 0  0  255 255 255 255 # produced (), and an empty set\n";
    let check = |said: &str| {
        let trial = Trial::read("", &[query, said].concat());
        trial.expect("the trial can be read").check::<Reference>()
    };
    let (count, state) = ("= states 1", "= state 0 next 0 held 1");
    let in_sequence = format!("{count}\n{state}");
    let backwards = format!("{state}\n{count}");
    let all = format!("= whole\n{count}\n= start 0 0\n{state}");
    for said in [
        "",
        &in_sequence,
        &all,
        "= table 8\n= bytes 1 1 0 1\n= bytes 0 0 1 0 # held",
        "= after 0: held 0\n= after 0: 0 0 held 0",
        "= after 0: same as 0",
        "= scratch 16383 refused 9",
        "= supplied 2 1 0 1 0\n= supplied 1 0 1 0 1 0\n= verified accepted",
        "= supplied 1 1 0 1 0 0 0 0\n= verified refused 13",
        "= supplied 1 1 0 0 0 1 0\n= verified refused 12",
        "= supplied 1 1 0 1\n= verified refused 1",
    ] {
        assert_eq!(check(said), Ok(()), "{said}");
    }
    for said in [
        "= states 2",
        "= states 1 nodes 1",
        &backwards,
        "= whole\n= states 1",
        "= refused 8",
        "= table 7",
        "= bytes 1 1 0 1",
        "= after 0: 0 not held 0",
        "= after 0: 0 held 1",
        "= after 0: 1 same as 1",
        "= scratch 16384 refused 9",
        "= scratch 16383 refused 8",
        "= supplied 1 1 0 1 0 0 1 0\n= verified refused 13",
        "= supplied 1 1 0 1 0 0 0 0\n= verified accepted",
        "= supplied 1 1 0 1 0 0 0 0\n= verified refused 12",
    ] {
        assert!(check(said).is_err(), "{said}");
    }
}

#[test]
fn lines_that_cannot_be_read_are_refused() {
    for text in [
        "1 1 0 256",
        "=states 1",
        "= without limits 1",
        "= pairs 1 256",
        "= merged 1 0 2 0",
        "= without limits states many",
        "= table",
        "= bytes 5 256",
        "= after 0 1 held 1",
        "= after 0: 1 helt 1",
        "= scratch 16383",
        "= supplied 1 1 0 256\n= verified accepted",
        "= supplied 1 1 0 1\n= verified refused",
        "= supplied 1 1 0 1\n= verified granted",
        "= supplied 1 1 0 1",
        "= verified accepted",
    ] {
        assert!(Trial::read("", text).is_err(), "{text}");
    }
    let trial = Trial::read("", "1 2 # 3\n#4\n= table 5").expect("readable");
    assert_eq!((trial.query, trial.table_length), (vec![1, 2], Some(5)));
}
