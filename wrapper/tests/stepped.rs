//! Builds in steps, on the trials: what each step shows and keeps, and how the last one
//! ends.

use order_tables::{build, OrderHandle, Refusal, SetHandle, Step, SteppedBuild, Table};
use order_tables::{LONGEST_TABLE, SCRATCH_BYTES};
use reference::trials;

/// Steps a build to its end, and gives how many pairs each step left settled with how it
/// ended. In each step but the last the output must keep its bytes.
fn steps(mut stepped: SteppedBuild, output: &mut [u8]) -> (Vec<usize>, Result<usize, Refusal>) {
    let before = output.to_vec();
    let mut settled = Vec::new();
    loop {
        match stepped.step(output) {
            Ok(Step::Settled(unfinished)) => stepped = unfinished,
            Ok(Step::Done(length)) => return (settled, Ok(length)),
            Err(refusal) => return (settled, Err(refusal)),
        }
        assert_eq!(output, before);
        settled.push(stepped.settled());
    }
}

#[test]
fn ends_as_one_build_after_a_step_for_each_pair_and_one_more() {
    let mut outcomes = [0; 2];
    for trial in trials::all() {
        let (mut scratch, mut output) = (vec![7; SCRATCH_BYTES + 9], vec![7; LONGEST_TABLE]);
        let (mut whole_scratch, mut whole_output) = (scratch.clone(), output.clone());
        let built = build(&trial.query, &mut whole_scratch, &mut whole_output);
        let begun = SteppedBuild::begin(&trial.query, &mut scratch);
        let ended = match begun {
            Err(refusal) => Err(refusal),
            Ok(begun) => {
                let pairs = begun.pairs();
                assert_eq!(pairs, usize::from(trial.query[1]) << trial.query[3]);
                assert_eq!(begun.settled(), 0);
                let (settled, ended) = steps(begun, &mut output);
                let counted: Vec<usize> = (1..=pairs).collect();
                assert_eq!(settled, counted, "trial {}", trial.name);
                ended
            }
        };
        assert_eq!(ended, built, "trial {}", trial.name);
        assert_eq!(output, whole_output, "trial {}", trial.name);
        assert_eq!(scratch, whole_scratch, "trial {}", trial.name);
        outcomes[usize::from(ended.is_ok())] += 1;
    }
    assert!(outcomes.iter().all(|&trials| trials > 5), "{outcomes:?}");
}

#[test]
fn lookups_go_on_by_the_old_table_until_the_last_step() {
    // From order 0 and after set 0, order 1 is held by the old query and not by the new.
    let [old, new] = ["equal", "pair_of_fixes"].map(|name| trials::named(name).query);
    let mut output = [0; LONGEST_TABLE];
    let built = build(&old, &mut [0; SCRATCH_BYTES], &mut output);
    let old_length = built.expect("not refused");
    let held = |table: Table| {
        let start = table.enter(OrderHandle(0))?;
        let state = table.take(start, SetHandle(0))?;
        table.ask(state, OrderHandle(1))
    };

    let mut scratch = [0; SCRATCH_BYTES];
    let mut stepped = SteppedBuild::begin(&new, &mut scratch).expect("not refused");
    let length = loop {
        assert_eq!(held(Table::new(&output[..old_length])), Ok(true));
        match stepped.step(&mut output).expect("not refused") {
            Step::Settled(unfinished) => stepped = unfinished,
            Step::Done(length) => break length,
        }
    };
    assert_eq!(held(Table::new(&output[..length])), Ok(false));
}

#[test]
fn only_the_last_step_looks_at_the_output() {
    let example = trials::example();
    let mut scratch = [7; SCRATCH_BYTES];
    for room in [0, 1, example.table.len() - 1] {
        let begun = SteppedBuild::begin(&example.query, &mut scratch).expect("not refused");
        let mut output = vec![7; room];
        let (settled, ended) = steps(begun, &mut output);
        assert_eq!((settled.len(), ended), (8, Err(Refusal::Space)));
        assert_eq!(output, vec![7; room]);
        assert_eq!(scratch, [0; SCRATCH_BYTES]);
    }
    // Another output for each step.
    let mut stepped = SteppedBuild::begin(&example.query, &mut scratch).expect("not refused");
    let mut output = [7; LONGEST_TABLE];
    for room in 0..8 {
        match stepped.step(&mut output[..room]) {
            Ok(Step::Settled(unfinished)) => stepped = unfinished,
            other => panic!("{other:?}"),
        }
    }
    match stepped.step(&mut output) {
        Ok(Step::Done(length)) => assert_eq!(output[..length], example.table),
        other => panic!("{other:?}"),
    }
}

#[test]
fn rows_are_refused_in_the_last_step() {
    let trial = trials::named("eight_sets");
    let mut scratch = [7; SCRATCH_BYTES];
    let begun = SteppedBuild::begin(&trial.query, &mut scratch).expect("not refused");
    let (settled, ended) = steps(begun, &mut []);
    assert_eq!((settled.len(), ended), (256, Err(Refusal::States)));
    assert_eq!(scratch, [0; SCRATCH_BYTES]);
}

#[test]
fn begins_afresh_where_a_build_was_given_up() {
    let (example, other) = (trials::example(), trials::named("seven_sets"));
    let mut scratch = [7; SCRATCH_BYTES];
    for given_up in [&example, &other] {
        let mut stepped = SteppedBuild::begin(&given_up.query, &mut scratch).expect("not refused");
        for _ in 0..3 {
            match stepped.step(&mut []) {
                Ok(Step::Settled(unfinished)) => stepped = unfinished,
                other => panic!("{other:?}"),
            }
        }
        assert_eq!(stepped.settled(), 3);
        let begun = SteppedBuild::begin(&example.query, &mut scratch).expect("not refused");
        assert_eq!((begun.settled(), begun.pairs()), (0, 8));
        let mut output = [0; LONGEST_TABLE];
        let (_, ended) = steps(begun, &mut output);
        assert_eq!(ended, Ok(example.table.len()));
        assert_eq!(output[..example.table.len()], example.table);
    }
}

#[test]
fn refuses_to_begin() {
    for (name, refusal) in [
        ("four_bytes", Refusal::Length),
        ("thirteen_columns", Refusal::Size),
        ("column_n", Refusal::Column),
        ("repeated_column", Refusal::Repeat),
        ("equal_descending_orders", Refusal::Twin),
    ] {
        let query = trials::named(name).query;
        let mut scratch = [7; SCRATCH_BYTES];
        let begun = SteppedBuild::begin(&query, &mut scratch);
        assert_eq!(begun.err(), Some(refusal), "trial {name}");
        assert_eq!(scratch, [7; SCRATCH_BYTES]);
    }
    let query = trials::example().query;
    let mut short = [7; SCRATCH_BYTES - 1];
    let begun = SteppedBuild::begin(&query, &mut short);
    assert_eq!(begun.err(), Some(Refusal::Space));
    assert_eq!(short, [7; SCRATCH_BYTES - 1]);
}
