//! The refusals of a query, of a build, of a listing, of a supplied table and of what
//! is asked for two rows, and the buffers afterwards.

use std::sync::LazyLock;

use reference::buffers::SCRATCH_BYTES;
use reference::builder::build_table;
use reference::query::{order, DESCENDING};
use reference::random::Random;
use reference::samples::{self, Shape};
use reference::{listing, trials, Dependency, Implementation, Query, Reference};

/// The example's bytes.
static EXAMPLE: LazyLock<Vec<u8>> = LazyLock::new(|| trials::example().query);

/// The number that reading a query refuses it with, or none. The listing must
/// refuse it with the same number.
fn refusal(query: &[u8]) -> Option<u8> {
    let refusal = Query::read(query).err();
    if let Some(number) = refusal {
        assert_eq!(listing(query), format!("refused {number}\n"));
    }
    refusal
}

/// The example with one byte changed.
fn example_with(place: usize, byte: u8) -> Vec<u8> {
    let mut query = EXAMPLE.clone();
    query[place] = byte;
    query
}

/// A query of one produced order or one dependency, its head and bytes given.
fn one_order(columns: u8, head: u8, fields: [u8; 4]) -> Vec<u8> {
    let mut query = vec![columns, 1, 0, 0, 0, head];
    query.extend(fields);
    query
}

fn one_dependency(columns: u8, sets: u8, head: u8, fields: [u8; 4]) -> Vec<u8> {
    let mut query = vec![columns, 1, 0, sets, 1, 0, head, 255, 255, 255, 255];
    query.extend(fields);
    query
}

/// A query at the upper limit of all its sizes.
fn largest() -> Query {
    Query {
        columns: 12,
        produced: (0..8).map(|column| order(&[column])).collect(),
        tested: (0..8).map(|column| order(&[column, 11])).collect(),
        sets: 8,
        dependencies: (0..16)
            .map(|number| Dependency::fix(number % 8, &[], number % 12))
            .collect(),
    }
}

#[test]
fn fewer_bytes_than_the_sizes_take_give_1() {
    for length in 0..5 {
        assert_eq!(refusal(&EXAMPLE[..length]), Some(1));
        assert_eq!(refusal(&vec![255; length]), Some(1));
    }
}

#[test]
fn a_total_other_than_implied_gives_1() {
    for length in 5..EXAMPLE.len() {
        assert_eq!(refusal(&EXAMPLE[..length]), Some(1));
    }
    for more in 1..6 {
        let longer = [&EXAMPLE[..], &vec![0; more]].concat();
        assert_eq!(refusal(&longer), Some(1));
    }
    assert_eq!(refusal(&EXAMPLE), None);
}

#[test]
fn sizes_are_taken_up_to_their_limits() {
    assert_eq!(refusal(&largest().write()), None);
    assert_eq!(refusal(&one_order(1, 0, [255; 4])), None);
}

#[test]
fn sizes_outside_their_limits_give_2() {
    for (place, limit) in [12, 8, 8, 8, 16].into_iter().enumerate() {
        for size in limit + 1..=255 {
            assert_eq!(refusal(&example_with(place, size)), Some(2));
        }
    }
    assert_eq!(refusal(&example_with(0, 0)), Some(2));
    assert_eq!(refusal(&example_with(1, 0)), Some(2));
}

#[test]
fn sizes_outside_their_limits_give_2_with_the_implied_total_too() {
    let mut columns = largest();
    columns.columns = 13;
    let mut produced = largest();
    produced.produced.push(vec![]);
    let mut tested = largest();
    tested.tested.push(vec![]);
    let mut sets = largest();
    sets.sets = 9;
    let mut dependencies = largest();
    dependencies.dependencies.push(Dependency::fix(0, &[0], 1));
    let mut nothing_produced = largest();
    nothing_produced.produced.clear();
    for query in [
        columns,
        produced,
        tested,
        sets,
        dependencies,
        nothing_produced,
    ] {
        assert_eq!(refusal(&query.write()), Some(2));
    }
}

#[test]
fn an_order_length_above_4_gives_3() {
    assert_eq!(refusal(&one_order(4, 4, [3, 2, 1, 0])), None);
    for head in 5..=255 {
        assert_eq!(refusal(&one_order(4, head, [3, 2, 1, 0])), Some(3));
    }
    assert_eq!(refusal(&example_with(7, 5)), Some(3));
}

#[test]
fn a_kind_above_4_gives_3() {
    assert_eq!(refusal(&one_dependency(2, 1, 64, [0, 1, 255, 255])), None);
    for kind in 5..16 {
        for used in 0..=4 {
            let mut fields = [255; 4];
            fields[..used].copy_from_slice(&[0, 1, 2, 3][..used]);
            let query = one_dependency(4, 1, 16 * kind, fields);
            assert_eq!(refusal(&query), Some(3));
        }
    }
}

#[test]
fn a_set_not_below_s_gives_3() {
    for sets in 0..=8 {
        for set in 0..16 {
            for (kind, fields) in [(0, [0, 255, 255, 255]), (4, [1, 0, 255, 255])] {
                let query = one_dependency(2, sets, 16 * kind + set, fields);
                let expected = (set >= sets).then_some(3);
                assert_eq!(refusal(&query), expected, "set {set} of {sets}");
            }
        }
    }
}

#[test]
fn an_unused_byte_other_than_255_gives_3() {
    for used in 0..4 {
        let mut fields = [255; 4];
        for (column, field) in (0..).zip(&mut fields[..used]) {
            *field = column;
        }
        let heads = (used as u8, (16 * used as u8).wrapping_sub(16));
        for place in used..4 {
            for byte in [0, 3, 4, 11, 127, 128, 131, 132, 254] {
                let mut spoilt = fields;
                spoilt[place] = byte;
                assert_eq!(refusal(&one_order(4, heads.0, spoilt)), Some(3));
                if used > 0 {
                    assert_eq!(refusal(&one_dependency(4, 1, heads.1, spoilt)), Some(3));
                }
                if used == 2 {
                    assert_eq!(refusal(&one_dependency(4, 1, 64, spoilt)), Some(3));
                }
            }
        }
        assert_eq!(refusal(&one_order(4, heads.0, fields)), None);
        if used > 0 {
            assert_eq!(refusal(&one_dependency(4, 1, heads.1, fields)), None);
        }
    }
}

#[test]
fn a_column_not_below_n_gives_4() {
    for columns in 4..=12 {
        for place in 0..4 {
            for (column, expected) in [(columns - 1, None), (columns, Some(4)), (255, Some(4))] {
                let mut fields = [0, 1, 2, 3];
                if column < columns {
                    fields.swap(place, 3);
                }
                fields[place] = column;
                assert_eq!(refusal(&one_order(columns, 4, fields)), expected);
                assert_eq!(refusal(&one_dependency(columns, 1, 48, fields)), expected);
            }
        }
    }
    assert_eq!(refusal(&one_dependency(1, 1, 0, [0, 255, 255, 255])), None);
    assert_eq!(
        refusal(&one_dependency(1, 1, 0, [1, 255, 255, 255])),
        Some(4)
    );
    assert_eq!(
        refusal(&one_dependency(2, 1, 64, [2, 1, 255, 255])),
        Some(4)
    );
    assert_eq!(
        refusal(&one_dependency(2, 1, 64, [1, 2, 255, 255])),
        Some(4)
    );
}

#[test]
fn every_byte_of_an_order_is_a_column_in_one_direction_or_gives_4() {
    for columns in 1..=12 {
        for byte in 0..=255 {
            let query = one_order(columns, 1, [byte, 255, 255, 255]);
            let column = byte % DESCENDING;
            let expected = (column >= columns).then_some(4);
            assert_eq!(refusal(&query), expected, "{byte} of {columns}");
            if let Ok(query) = Query::read(&query) {
                let entry = query.produced[0][0];
                let descends = byte >= DESCENDING;
                assert_eq!((entry.column, entry.descends), (column, descends));
                assert_eq!((entry.byte(), query.descends()), (byte, descends));
            }
        }
    }
    // At every place, beside other columns.
    for place in 0..4 {
        for byte in 0..=255 {
            let mut fields = [0, 129, 2, 131];
            fields[place] = byte;
            let others = (0..4).filter(|&other| other != place);
            let expected = match byte % DESCENDING {
                4.. => Some(4),
                column if others.into_iter().any(|c| c == column.into()) => Some(5),
                _ => None,
            };
            assert_eq!(refusal(&one_order(4, 4, fields)), expected, "{fields:?}");
        }
    }
}

#[test]
fn a_byte_of_a_dependency_from_128_on_gives_4() {
    // Fixes of up to three left columns, and an equal, each with its columns.
    for (head, used) in [(0, 1), (16, 2), (32, 3), (48, 4), (64, 2)] {
        let mut fields = [255; 4];
        fields[..used].copy_from_slice(&[0, 1, 2, 3][..used]);
        assert_eq!(refusal(&one_dependency(12, 1, head, fields)), None);
        for place in 0..used {
            for byte in DESCENDING..=255 {
                let mut spoilt = fields;
                spoilt[place] = byte;
                let query = one_dependency(12, 1, head, spoilt);
                assert_eq!(refusal(&query), Some(4), "{head} {spoilt:?}");
            }
        }
    }
}

#[test]
fn a_column_twice_in_one_order_gives_5_in_whichever_directions() {
    for first in 0..4 {
        for second in first + 1..4 {
            for directions in 0..16 {
                let descending = |place: usize| (directions >> place & 1) * DESCENDING;
                let mut fields = [0, 1, 2, 3];
                fields[second] = fields[first];
                for (place, field) in fields.iter_mut().enumerate() {
                    *field += descending(place);
                }
                assert_eq!(refusal(&one_order(4, 4, fields)), Some(5), "{fields:?}");
            }
        }
    }
    let query = one_order(2, 2, [0, DESCENDING, 255, 255]);
    assert_eq!(refusal(&query), Some(5));
}

#[test]
fn a_column_twice_in_one_item_gives_5() {
    for first in 0..4 {
        for second in first + 1..4 {
            let mut fields = [0, 1, 2, 3];
            fields[second] = fields[first];
            assert_eq!(refusal(&one_order(4, 4, fields)), Some(5));
            assert_eq!(refusal(&one_dependency(4, 1, 48, fields)), Some(5));
        }
    }
    assert_eq!(refusal(&one_order(2, 2, [1, 1, 255, 255])), Some(5));
    assert_eq!(
        refusal(&one_dependency(2, 1, 16, [1, 1, 255, 255])),
        Some(5)
    );
    assert_eq!(
        refusal(&one_dependency(2, 1, 64, [1, 1, 255, 255])),
        Some(5)
    );
}

#[test]
fn two_equal_interesting_orders_give_6() {
    let query = |produced: &[&[u8]], tested: &[&[u8]]| Query {
        columns: 4,
        produced: produced.iter().map(|bytes| order(bytes)).collect(),
        tested: tested.iter().map(|bytes| order(bytes)).collect(),
        sets: 0,
        dependencies: vec![],
    };
    let refusal_of = |produced, tested| refusal(&query(produced, tested).write());
    assert_eq!(refusal_of(&[&[0, 1], &[2], &[0, 1]], &[]), Some(6));
    assert_eq!(refusal_of(&[&[2]], &[&[0, 1], &[1], &[0, 1]]), Some(6));
    assert_eq!(
        refusal_of(&[&[2], &[0, 1, 2, 3]], &[&[0, 1, 2, 3]]),
        Some(6)
    );
    assert_eq!(refusal_of(&[&[]], &[&[]]), Some(6));
    assert_eq!(refusal_of(&[&[0, 1], &[0]], &[&[1, 0], &[]]), None);
    // Orders that differ in a direction are not equal.
    assert_eq!(refusal_of(&[&[0], &[128]], &[]), None);
    assert_eq!(
        refusal_of(&[&[0, 1]], &[&[128, 1], &[0, 129], &[128, 129]]),
        None
    );
    assert_eq!(refusal_of(&[&[0], &[128]], &[&[0, 1], &[128]]), Some(6));
    assert_eq!(refusal_of(&[&[2], &[0, 129, 2]], &[&[0, 129, 2]]), Some(6));
}

#[test]
fn equal_dependencies_are_not_refused() {
    let twice = Dependency::fix(0, &[0], 1);
    let query = Query {
        columns: 2,
        produced: vec![order(&[0])],
        tested: vec![],
        sets: 2,
        dependencies: vec![twice.clone(), twice, Dependency::fix(1, &[0], 1)],
    };
    assert_eq!(refusal(&query.write()), None);
}

#[test]
fn the_first_failing_check_gives_the_number() {
    // Sizes before the total.
    assert_eq!(refusal(&[0, 1, 0, 0, 0]), Some(2));
    assert_eq!(refusal(&[13, 2, 2, 2, 2, 9]), Some(2));
    // The total before the items.
    assert_eq!(refusal(&one_order(4, 5, [9, 9, 9, 9])[..9]), Some(1));
    // Within one item all of 3, then all of 4, then 5.
    assert_eq!(refusal(&one_order(4, 2, [9, 9, 255, 0])), Some(3));
    assert_eq!(refusal(&one_order(4, 3, [1, 1, 4, 255])), Some(4));
    assert_eq!(refusal(&one_order(4, 2, [137, 137, 255, 128])), Some(3));
    assert_eq!(refusal(&one_order(4, 3, [1, 129, 132, 255])), Some(4));
    assert_eq!(refusal(&one_order(4, 3, [1, 129, 255, 255])), Some(4));
    assert_eq!(refusal(&one_dependency(4, 1, 80, [9, 9, 0, 0])), Some(3));
    assert_eq!(
        refusal(&one_dependency(4, 1, 65, [9, 9, 255, 255])),
        Some(3)
    );
    assert_eq!(refusal(&one_dependency(4, 1, 64, [9, 9, 255, 1])), Some(3));
    assert_eq!(
        refusal(&one_dependency(4, 1, 64, [9, 9, 255, 255])),
        Some(4)
    );
    assert_eq!(refusal(&one_dependency(4, 1, 32, [1, 1, 4, 255])), Some(4));
}

#[test]
fn an_earlier_item_is_refused_before_a_later_one() {
    // Items 0 to 5 of the example with, at each, a fault of 3, 4 or 5.
    let (heads, fields) = (5, 5 + 6);
    let spoil = |query: &mut Vec<u8>, item: usize, number: u8| match number {
        3 => query[heads + item] = 255,
        4 => query[fields + 4 * item] = 3,
        _ => {
            query[heads + item] = if item < 4 { 2 } else { 16 };
            query[fields + 4 * item] = 0;
            query[fields + 4 * item + 1] = 0;
        }
    };
    for earlier in 0..6 {
        for later in earlier + 1..6 {
            for earlier_fault in 3..=5 {
                for later_fault in 3..=5 {
                    let mut query = EXAMPLE.clone();
                    spoil(&mut query, earlier, earlier_fault);
                    spoil(&mut query, later, later_fault);
                    assert_eq!(refusal(&query), Some(earlier_fault));
                }
            }
        }
    }
}

#[test]
fn twins_are_refused_after_all_items() {
    let mut query = Query::read(&EXAMPLE).expect("not refused");
    query.tested[0] = query.produced[0].clone();
    assert_eq!(refusal(&query.write()), Some(6));
    for (dependency, expected) in [
        (Dependency::equal(2, 0, 1), 3),
        (Dependency::equal(1, 0, 3), 4),
        (Dependency::equal(1, 1, 1), 5),
    ] {
        query.dependencies[1] = dependency;
        assert_eq!(refusal(&query.write()), Some(expected));
    }
}

/// Calls what writes so much of a query when there is room, with a scratch and an
/// output of these lengths, full of marks. Checks the bytes of both afterwards
/// against the outcome.
fn lend(
    query: &[u8],
    scratch: usize,
    output: usize,
    call: impl Fn(&[u8], &mut [u8], &mut [u8]) -> Result<usize, u8>,
    whole: &[u8],
) -> Result<usize, u8> {
    let marks = |length: usize| (0..length).map(|at| (at % 251) as u8 + 1).collect();
    let (scratch_before, output_before): (Vec<u8>, Vec<u8>) = (marks(scratch), marks(output));
    let (mut scratch, mut output) = (scratch_before.clone(), output_before.clone());
    let outcome = call(query, &mut scratch, &mut output);

    let written = outcome.unwrap_or(0);
    assert_eq!(output[..written], whole[..written]);
    assert!(outcome.is_err() || written == whole.len());
    assert_eq!(output[written..], output_before[written..]);

    let cleared = match Query::read(query).is_ok() && scratch.len() >= SCRATCH_BYTES {
        true => SCRATCH_BYTES,
        false => 0,
    };
    assert!(scratch[..cleared].iter().all(|&byte| byte == 0));
    assert_eq!(scratch[cleared..], scratch_before[cleared..]);
    outcome
}

fn build_with(query: &[u8], scratch: usize, output: usize) -> Result<usize, u8> {
    let table = build_table(query).unwrap_or_default();
    lend(query, scratch, output, Reference::build, &table)
}

fn list_with(query: &[u8], scratch: usize, text: usize) -> Result<usize, u8> {
    let listing = listing(query);
    lend(query, scratch, text, Reference::list, listing.as_bytes())
}

/// Verifies a table for a query. It writes no output.
fn verify_with(query: &[u8], table: &[u8], scratch: usize) -> Result<(), u8> {
    let verify = |query: &[u8], scratch: &mut [u8], _: &mut [u8]| {
        Reference::verify(query, table, scratch).map(|()| 0)
    };
    lend(query, scratch, 0, verify, &[]).map(|_| ())
}

/// A query of 256 rows.
fn too_many_rows() -> Vec<u8> {
    trials::named("eight_sets").query
}

/// Queries that the checks 1 to 6 refuse, each with its number.
fn refused_on_reading() -> Vec<(Vec<u8>, u8)> {
    let twins = Query {
        columns: 1,
        produced: vec![order(&[0]), order(&[0])],
        tested: vec![],
        sets: 0,
        dependencies: vec![],
    };
    vec![
        (EXAMPLE[..4].to_vec(), 1),
        (example_with(0, 13), 2),
        (EXAMPLE[..34].to_vec(), 1),
        (one_order(2, 5, [255; 4]), 3),
        (one_order(2, 1, [2, 255, 255, 255]), 4),
        (one_order(2, 2, [0, 0, 255, 255]), 5),
        (twins.write(), 6),
    ]
}

/// Lengths of scratch that are too short, and ones that are not.
const SHORT_SCRATCH: [usize; 3] = [0, 1, 16_383];
const LONG_SCRATCH: [usize; 3] = [16_384, 16_385, 20_000];

#[test]
fn scratch_below_its_length_gives_9_before_anything_is_constructed() {
    for query in [EXAMPLE.clone(), too_many_rows()] {
        for scratch in SHORT_SCRATCH {
            for output in [0, 22, 2048] {
                assert_eq!(build_with(&query, scratch, output), Err(9));
                assert_eq!(list_with(&query, scratch, output), Err(9));
            }
        }
    }
}

#[test]
fn rows_are_refused_before_output() {
    for scratch in LONG_SCRATCH {
        for output in [0, 2048] {
            assert_eq!(build_with(&too_many_rows(), scratch, output), Err(8));
        }
    }
}

#[test]
fn eight_sets_are_refused_for_their_rows_alone() {
    let with_sets = |query: &[u8], sets: u8| {
        let mut query = Query::read(query).expect("not refused");
        query.sets = sets;
        query.write()
    };
    for name in ["constant", "seven_constants", "settled_chain"] {
        let query = trials::named(name).query;
        for sets in [7, 8] {
            let query = with_sets(&query, sets);
            let rows = 2 * usize::from(sets) + 2 * 2;
            assert_eq!(build_with(&query, SCRATCH_BYTES, 2048), Ok(4 + 1 + rows));
            assert_eq!(build_with(&query, SCRATCH_BYTES - 1, 2048), Err(9));
        }
    }
    let nine_sets = with_sets(&EXAMPLE, 9);
    assert_eq!(refusal(&nine_sets), Some(2));
}

#[test]
fn output_shorter_than_the_table_gives_9() {
    let trial = trials::example();
    let length = trial.table.len();
    for scratch in LONG_SCRATCH {
        for output in 0..length {
            assert_eq!(build_with(&trial.query, scratch, output), Err(9));
        }
        for output in [length, length + 1, 2048] {
            assert_eq!(build_with(&trial.query, scratch, output), Ok(length));
        }
    }
}

#[test]
fn text_shorter_than_what_is_printed_gives_9() {
    for query in [EXAMPLE.clone(), too_many_rows()] {
        let length = listing(&query).len();
        for scratch in LONG_SCRATCH {
            for text in 0..length {
                assert_eq!(list_with(&query, scratch, text), Err(9));
            }
            for text in [length, length + 1, 2048] {
                assert_eq!(list_with(&query, scratch, text), Ok(length));
            }
        }
    }
}

#[test]
fn a_query_refused_on_reading_leaves_the_scratch_and_is_printed_when_there_is_room() {
    let line = "refused 1\n".len();
    for (query, number) in refused_on_reading() {
        for scratch in [SHORT_SCRATCH, LONG_SCRATCH].concat() {
            for output in [0, line - 1, line, 2048] {
                assert_eq!(build_with(&query, scratch, output), Err(number));
                let listed = if output < line { Err(9) } else { Ok(line) };
                assert_eq!(list_with(&query, scratch, output), listed);
            }
        }
    }
}

/// Tables for the example, each with what verifying it gives: one for each
/// refusal, and the example's own.
fn tables_of_every_outcome() -> Vec<(Vec<u8>, Result<(), u8>)> {
    let own = trials::example().table;
    let with = |place: usize, byte: u8| {
        let mut table = own.clone();
        table[place] = byte;
        table
    };
    vec![
        (own[..3].to_vec(), Err(1)),
        (with(0, 129), Err(2)),
        (own[..own.len() - 1].to_vec(), Err(1)),
        (with(6, 4), Err(11)),
        (trials::named("supplied_sizes_differ").supplied, Err(12)),
        (with(14, 3), Err(13)),
        (own, Ok(())),
    ]
}

#[test]
fn a_query_refused_on_reading_is_refused_before_scratch_and_table() {
    for (query, number) in refused_on_reading() {
        for (table, _) in tables_of_every_outcome() {
            for scratch in [SHORT_SCRATCH, LONG_SCRATCH].concat() {
                assert_eq!(verify_with(&query, &table, scratch), Err(number));
            }
        }
    }
}

#[test]
fn short_scratch_is_refused_before_the_construction_and_the_table() {
    for query in [EXAMPLE.clone(), too_many_rows()] {
        for (table, _) in tables_of_every_outcome() {
            for scratch in SHORT_SCRATCH {
                assert_eq!(verify_with(&query, &table, scratch), Err(9));
            }
        }
    }
}

#[test]
fn rows_are_refused_before_the_table() {
    for (table, _) in tables_of_every_outcome() {
        for scratch in LONG_SCRATCH {
            assert_eq!(verify_with(&too_many_rows(), &table, scratch), Err(8));
        }
    }
}

#[test]
fn a_table_is_refused_for_its_form_then_its_sizes_then_its_answers() {
    for (table, verified) in tables_of_every_outcome() {
        for scratch in LONG_SCRATCH {
            assert_eq!(verify_with(&EXAMPLE, &table, scratch), verified);
        }
    }
    // One produced order, tested order or set more or fewer, each in a table of
    // the right total.
    for sizes in [
        [1, 1, 2, 2],
        [1, 3, 2, 2],
        [1, 2, 1, 2],
        [1, 2, 3, 2],
        [1, 2, 2, 1],
        [1, 2, 2, 3],
    ] {
        let [states, produced, _, sets] = sizes.map(usize::from);
        let zeros = vec![0; produced + states * sets + 2 * states];
        let mut table = [&sizes[..], &zeros].concat();
        assert_eq!(verify_with(&EXAMPLE, &table, SCRATCH_BYTES), Err(12));
        table[4] = 1;
        assert_eq!(verify_with(&EXAMPLE, &table, SCRATCH_BYTES), Err(11));
    }
    let no_answer = [1, 2, 2, 2, 0, 0, 0, 0, 0, 0];
    assert_eq!(verify_with(&EXAMPLE, &no_answer, SCRATCH_BYTES), Err(13));
}

/// Asks for two rows of a query in a buffer of so many bytes, full of marks, which
/// must keep them past the rows, or all of them where none are given.
fn ask_with(query: &[u8], asked: [u8; 3], room: usize) -> Result<bool, u8> {
    let mut rows = vec![7; room];
    let answer = Reference::counterexample(query, asked.into(), &mut rows);
    let given = match answer {
        Ok(true) => 2 * usize::from(query[0]),
        _ => 0,
    };
    let (given, kept) = rows.split_at(given);
    assert!(given.iter().all(|&value| value < 2), "{rows:?}");
    assert!(kept.iter().all(|&byte| byte == 7), "{rows:?}");
    answer
}

/// What is asked of the example: where two rows are given, and where there are none.
const IN_THE_EXAMPLE: [([u8; 3], bool); 4] = [
    ([0, 0, 2], true),
    ([0, 1, 2], false),
    ([1, 3, 0], true),
    ([1, 2, 3], false),
];

/// What is asked of the example that is not in it: a produced order, an interesting
/// order, or a set.
const NOT_IN_THE_EXAMPLE: [[u8; 3]; 9] = [
    [2, 0, 2],
    [255, 0, 2],
    [0, 0, 4],
    [0, 0, 255],
    [0, 4, 2],
    [0, 5, 2],
    [0, 128, 2],
    [0, 255, 2],
    [2, 4, 4],
];

#[test]
fn a_query_refused_on_reading_is_refused_before_what_is_asked_of_it() {
    let asked = IN_THE_EXAMPLE.map(|(asked, _)| asked);
    for (query, number) in refused_on_reading() {
        for asked in asked.iter().chain(&NOT_IN_THE_EXAMPLE) {
            for room in [0, 1, 24, 2048] {
                assert_eq!(ask_with(&query, *asked, room), Err(number), "{asked:?}");
            }
        }
    }
}

#[test]
fn an_order_or_a_set_that_is_not_in_the_query_gives_10_before_room() {
    for asked in NOT_IN_THE_EXAMPLE {
        for room in [0, 5, 6, 2048] {
            assert_eq!(ask_with(&EXAMPLE, asked, room), Err(10), "{asked:?}");
        }
    }
    // Every byte as a choice of sets, for every number of sets.
    for sets in 0..=8 {
        let query = samples::own_column_per_set(sets).write();
        for choice in 0..=255 {
            let answer = ask_with(&query, [0, choice, 0], 24);
            let expected = match u32::from(choice) < 1 << sets {
                true => Ok(false),
                false => Err(10),
            };
            assert_eq!(answer, expected, "choice {choice} of {sets} sets");
        }
    }
}

#[test]
fn room_for_fewer_than_two_rows_gives_9_rows_or_none() {
    for (asked, given) in IN_THE_EXAMPLE {
        for room in 0..6 {
            assert_eq!(ask_with(&EXAMPLE, asked, room), Err(9), "{asked:?}");
        }
        for room in [6, 7, 24, 2048] {
            assert_eq!(ask_with(&EXAMPLE, asked, room), Ok(given), "{asked:?}");
        }
    }
    for columns in 1..=12 {
        let query = one_order(columns, 0, [255; 4]);
        let bytes = 2 * usize::from(columns);
        assert_eq!(ask_with(&query, [0, 0, 0], bytes - 1), Err(9));
        assert_eq!(ask_with(&query, [0, 0, 0], bytes), Ok(false));
    }
}

#[test]
fn random_queries_of_all_sizes_read_back_and_build() {
    let mut random = Random::new(41);
    let mut outcomes = [0; 12];
    for _ in 0..1500 {
        let query = match random.below(4) {
            0 => samples::query_of_many_rows(&mut random),
            1 => samples::query_of_chains(&mut random, Shape::FULL),
            _ => samples::query(&mut random, Shape::FULL),
        };
        let bytes = query.write();
        assert_eq!(Query::read(&bytes), Ok(query));
        let built = build_with(&bytes, SCRATCH_BYTES, 2048);
        outcomes[usize::from(built.err().unwrap_or(0))] += 1;
    }
    let enough = outcomes[0] > 1000 && outcomes[8] > 50;
    assert!(enough, "{outcomes:?}");
    assert_eq!(outcomes[0] + outcomes[8], 1500, "{outcomes:?}");
}

#[test]
fn damaged_bytes_are_refused_or_read_as_they_stand() {
    let mut random = Random::new(42);
    for _ in 0..20_000 {
        let bytes = samples::query(&mut random, Shape::SMALL).write();
        let damaged = samples::damaged(&mut random, &bytes);
        if let Ok(query) = Query::read(&damaged) {
            assert_eq!(query.write(), damaged);
        }
    }
}
