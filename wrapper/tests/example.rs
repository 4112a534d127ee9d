//! The types on the listing's example, and on trials that are refused or have a
//! supplier's table.

use order_tables::{build, counterexample, list, verify, Columns, Order, Query, Rule};
use order_tables::{Direction, Entry, DESCENDING};
use order_tables::{HeldWord, OrderHandle, Refusal, SetChoice, SetHandle, StateNumber, Table};
use order_tables::{LISTING_BYTES, LONGEST_TABLE, SCRATCH_BYTES, TWO_ROWS_BYTES};
use reference::counterexample::check;
use reference::random::Random;
use reference::{samples, trials, Dependency};

fn build_in(query: &[u8], scratch: usize, output: usize) -> Result<usize, Refusal> {
    build(query, &mut vec![0; scratch], &mut vec![0; output])
}

/// An order in the second implementation's types.
fn entries(order: Order) -> Vec<reference::Entry> {
    let entries = order.iter().map(|entry| reference::Entry {
        column: entry.column,
        descends: entry.direction == Direction::Descending,
    });
    entries.collect()
}

/// A query as the library reads it, in the second implementation's types.
fn read(bytes: &[u8]) -> Result<reference::Query, Refusal> {
    let query = Query::new(bytes)?;
    let dependencies = query.dependencies().map(|dependency| {
        let set = dependency.set.0;
        match dependency.rule {
            Rule::Fix { left, right } => Dependency::fix(set, &left, right),
            Rule::Equal(one, other) => Dependency::equal(set, one, other),
        }
    });
    Ok(reference::Query {
        columns: query.columns(),
        produced: query.produced().map(entries).collect(),
        tested: query.tested().map(entries).collect(),
        sets: query.sets(),
        dependencies: dependencies.collect(),
    })
}

#[test]
fn reads_queries() {
    let mut random = Random::new(1);
    let trials = trials::all().into_iter().map(|trial| trial.query);
    let random = (0..1000).map(|_| samples::any_query(&mut random));
    let (mut outcomes, mut descending) = ([0; 2], 0);
    for query in trials.chain(random) {
        let expected = reference::Query::read(&query);
        outcomes[usize::from(expected.is_ok())] += 1;
        descending += usize::from(expected.as_ref().is_ok_and(reference::Query::descends));
        assert_eq!(read(&query).map_err(Refusal::number), expected, "{query:?}");
    }
    assert!(outcomes.iter().all(|&count| count > 100), "{outcomes:?}");
    assert!(descending > 100, "{descending}");
}

#[test]
fn reads_every_byte_of_an_order_and_of_a_dependency() {
    for byte in 0..=255 {
        // Twelve columns, one produced order of this byte, no dependency.
        let query = [12, 1, 0, 0, 0, 1, byte, 255, 255, 255];
        let order = Query::new(&query).and_then(|query| query.order(OrderHandle(0)));
        let (column, direction) = match byte < DESCENDING {
            true => (byte, Direction::Ascending),
            false => (byte - DESCENDING, Direction::Descending),
        };
        match order {
            Ok(order) => assert_eq!(*order, [Entry { column, direction }], "{byte}"),
            Err(refusal) => assert_eq!(refusal, Refusal::Column, "{byte}"),
        }
        assert_eq!(order.is_ok(), column < 12, "{byte}");

        // The empty order, and this byte as a constant in set 0.
        let query = [
            12, 1, 0, 1, 1, 0, 0, 255, 255, 255, 255, byte, 255, 255, 255,
        ];
        let refused = Query::new(&query).err();
        assert_eq!(refused, (byte >= 12).then_some(Refusal::Column), "{byte}");
    }
}

#[test]
fn reads_items_that_are_there() {
    let mut random = Random::new(2);
    for _ in 0..100 {
        let bytes = samples::query(&mut random, samples::Shape::FULL).write();
        let query = Query::new(&bytes).expect("not refused");
        let orders: Vec<Order> = query.produced().chain(query.tested()).collect();
        let dependencies: Vec<order_tables::Dependency> = query.dependencies().collect();
        for i in 0..=255 {
            let order = orders.get(usize::from(i)).copied();
            let dependency = dependencies.get(usize::from(i)).copied();
            let read = query.order(OrderHandle(i));
            assert_eq!(read, order.ok_or(Refusal::Handle), "{i} of {bytes:?}");
            let read = query.dependency(i);
            assert_eq!(read, dependency.ok_or(Refusal::Handle), "{i} of {bytes:?}");
        }
    }
}

#[test]
fn columns_are_equal_where_those_that_are_there_are() {
    // Produced (a), set 0 with a -> b and a -> c.
    let query = [
        3, 1, 0, 1, 2, 1, 16, 16, 0, 255, 255, 255, 0, 1, 255, 255, 0, 2, 255, 255,
    ];
    let query = Query::new(&query).expect("not refused");
    let left = query
        .dependencies()
        .map(|dependency| match dependency.rule {
            Rule::Fix { left, .. } => left,
            Rule::Equal(..) => panic!("no equal is there"),
        });
    let left: Vec<Columns> = left.collect();
    assert_eq!(*left[0], [0]);
    assert_eq!(left[0], left[1]);
}

#[test]
fn directions_tell_orders_apart() {
    // Produced (a), tested (a desc) and (b).
    let bytes = [
        2, 1, 2, 0, 0, 1, 1, 1, 0, 255, 255, 255, 128, 255, 255, 255, 1, 255, 255, 255,
    ];
    let query = Query::new(&bytes).expect("not refused");
    let orders: Vec<Order> = query.produced().chain(query.tested()).collect();
    assert_eq!(orders[0][0].column, orders[1][0].column);
    assert_ne!(orders[0], orders[1]);
    let shown = shown_in(&bytes, [0, 0, 1], TWO_ROWS_BYTES);
    assert_eq!(shown, Ok(true), "rows in (a) need not be in (a desc)");

    // A column in both directions is there twice. An unused byte is looked at before a
    // column.
    let both = [1, 1, 0, 0, 0, 2, 0, 128, 255, 255];
    assert_eq!(Query::new(&both), Err(Refusal::Repeat));
    let twins = [1, 1, 1, 0, 0, 1, 1, 128, 255, 255, 255, 128, 255, 255, 255];
    assert_eq!(Query::new(&twins), Err(Refusal::Twin));
    let unused = [1, 1, 0, 0, 0, 1, 255, 128, 255, 255];
    assert_eq!(Query::new(&unused), Err(Refusal::Item));
}

#[test]
fn builds_and_looks_up() {
    let example = trials::example();
    let mut output = [0; LONGEST_TABLE];
    let length = build(&example.query, &mut [0; SCRATCH_BYTES], &mut output);
    assert_eq!(length, Ok(example.table.len()));
    let bytes = &output[..example.table.len()];
    assert_eq!(bytes, example.table);

    // Four sizes, two starts, four rows of two successors, four times two bytes
    // of held bits.
    let table = Table::new(bytes);
    assert_eq!(table.check(), Ok(()));
    let start = table.enter(OrderHandle(1));
    assert_eq!(start, Ok(StateNumber(bytes[5])));
    let next = table.take(StateNumber(1), SetHandle(1));
    assert_eq!(next, Ok(StateNumber(bytes[9])));
    for order in 0..4 {
        let held = table.ask(StateNumber(3), OrderHandle(order));
        assert_eq!(held, Ok(bytes[20] >> order & 1 == 1));
    }
    let word = table.word(StateNumber(3));
    assert_eq!(word, Ok(HeldWord(bytes[20].into())));
    let row = table.row(StateNumber(2));
    assert_eq!(row, Ok(&bytes[10..12]));
}

#[test]
fn takes_a_settled_column_out() {
    for (name, sets) in [
        ("time_axis_code", &[0][..]),
        ("settled_chain", &[0]),
        ("settled_chain_in_two_sets", &[1, 0]),
    ] {
        let trial = trials::named(name);
        let mut output = [0; LONGEST_TABLE];
        let length = build(&trial.query, &mut [0; SCRATCH_BYTES], &mut output);
        let table = Table::new(&output[..length.expect("not refused")]);
        let mut state = table.enter(OrderHandle(0)).expect("granted");
        for &set in sets {
            assert_eq!(table.ask(state, OrderHandle(1)), Ok(false), "trial {name}");
            state = table.take(state, SetHandle(set)).expect("granted");
        }
        assert_eq!(table.ask(state, OrderHandle(1)), Ok(true), "trial {name}");
    }
}

#[test]
fn builds_what_has_many_orderings_or_many_pairs_and_few_rows() {
    for name in ["seven_constants", "empty_sets_share_rows", "tpcr_query_8"] {
        let trial = trials::named(name);
        let built = build_in(&trial.query, SCRATCH_BYTES, LONGEST_TABLE);
        assert_eq!(built.ok(), trial.table_length, "trial {name}");
    }
}

#[test]
fn a_word_holds_what_asks_say() {
    // One state, the most orders, no sets, and all sixteen held bits.
    for held in [0, 1, 0x0080, 0x0100, 0x8000, 0x5af0, 0xffff] {
        let mut bytes = [1, 8, 8, 0, 0, 0, 0, 0, 0, 0, 0, 0, 0, 0];
        bytes[12..].copy_from_slice(&u16::to_le_bytes(held));
        let table = Table::new(&bytes);
        let word = table.word(StateNumber(0)).expect("granted");
        assert_eq!(word, HeldWord(held));
        for order in (0..=255).map(OrderHandle) {
            let asked = table.ask(StateNumber(0), order);
            let expected = match order.0 {
                0..16 => Ok(word.holds(order)),
                16.. => Err(Refusal::Handle),
            };
            assert_eq!(asked, expected, "{order:?} in {word:?}");
        }
    }
}

#[test]
fn a_word_holds_no_order_past_its_bits() {
    for held in [0, 1, 0x8000, 0xffff] {
        for order in 0..=255 {
            let expected = order < 16 && u32::from(held) & 1 << order != 0;
            assert_eq!(HeldWord(held).holds(OrderHandle(order)), expected);
        }
    }
}

#[test]
fn takes_sets_in_any_order_and_again() {
    let example = trials::example();
    let table = Table::new(&example.table);
    for produced in [OrderHandle(0), OrderHandle(1)] {
        let follow = |sets: &[u8]| {
            let start = table.enter(produced)?;
            let mut sets = sets.iter().copied().map(SetHandle);
            sets.try_fold(start, |state, set| table.take(state, set))
        };
        let both = follow(&[0, 1]);
        assert!(both.is_ok());
        for sets in [&[1, 0][..], &[0, 1, 0], &[1, 1, 0, 0, 1]] {
            assert_eq!(follow(sets), both, "{produced:?} {sets:?}");
        }
    }
}

#[test]
fn verifies() {
    let mut tried = [0; 3];
    for trial in trials::all() {
        let Some(verified) = trial.verified else {
            continue;
        };
        let table = Table::new(&trial.supplied);
        let given = verify(&trial.query, table, &mut [0; SCRATCH_BYTES]);
        assert_eq!(given.map_err(Refusal::number), verified, "{}", trial.name);
        match given {
            Ok(()) => tried[0] += 1,
            Err(Refusal::Mismatch) => tried[1] += 1,
            Err(refusal) => {
                assert_eq!(refusal, Refusal::Answer, "{}", trial.name);
                tried[2] += 1;
            }
        }
    }
    assert!(tried.iter().all(|&trials| trials > 0), "{tried:?}");

    let example = trials::example();
    let verify_in = |query, table, scratch: usize| {
        verify(query, Table::new(table), &mut vec![0; scratch]).map_err(Refusal::number)
    };
    assert_eq!(verify_in(&example.query, &example.table, 16_384), Ok(()));
    assert_eq!(verify_in(&example.query, &example.table, 16_383), Err(9));
    assert_eq!(verify_in(&example.query, &[], 16_384), Err(1));
    assert_eq!(verify_in(&[], &example.table, 0), Err(1));
}

/// Asks for two rows of a query in a buffer of so many bytes, and gives whether they
/// come. They must be the buffer's first bytes, and right.
fn shown_in(query: &[u8], asked: [u8; 3], room: usize) -> Result<bool, Refusal> {
    let [produced, sets, order] = asked;
    let (produced, order) = (OrderHandle(produced), OrderHandle(order));
    let before = vec![7; room];
    let mut rows = before.clone();
    let given = counterexample(query, produced, SetChoice(sets), order, &mut rows);
    let given = given.map(|two| two.map(|two| [two.first, two.second].concat()));
    if let Ok(Some(given)) = &given {
        assert_eq!(given, &rows[..2 * usize::from(query[0])]);
    }
    let shown = given.map(|given| given.is_some());
    let answer = shown.map_err(Refusal::number);
    let checked = check(query, asked.into(), answer, &before, &rows);
    assert_eq!(checked, Ok(()), "{asked:?} {shown:?} {rows:?}");
    shown
}

#[test]
fn shows_two_rows() {
    let query = trials::example().query;
    // (a) and (b,a) are produced, (a,b) and (c) tested; set 0 brings a → b, and set 1
    // brings b = c.
    for (asked, shown) in [
        ([0, 0, 2], true),
        ([0, 1, 2], false),
        ([0, 2, 2], true),
        ([1, 1, 3], true),
        ([1, 2, 3], false),
    ] {
        assert_eq!(shown_in(&query, asked, 5), Err(Refusal::Space), "{asked:?}");
        for room in [6, 7, TWO_ROWS_BYTES] {
            assert_eq!(shown_in(&query, asked, room), Ok(shown), "{asked:?}");
        }
    }
    for asked in [[2, 0, 2], [0, 4, 2], [0, 0, 4]] {
        assert_eq!(
            shown_in(&query, asked, 0),
            Err(Refusal::Handle),
            "{asked:?}"
        );
    }
    assert_eq!(shown_in(&[], [2, 4, 4], 0), Err(Refusal::Length));

    // A query that is refused with 8 and has no table.
    let query = trials::named("eight_sets").query;
    assert_eq!(shown_in(&query, [0, 255, 8], TWO_ROWS_BYTES), Ok(false));
    assert_eq!(shown_in(&query, [0, 127, 8], TWO_ROWS_BYTES), Ok(true));
}

#[test]
fn lists() {
    for trial in [trials::example(), trials::named("four_bytes")] {
        let mut text = [0; LISTING_BYTES];
        let length = list(&trial.query, &mut [0; SCRATCH_BYTES], &mut text);
        let length = length.expect("there is room");
        assert_eq!(&text[..length], trial.listing().as_bytes());
    }
}

#[test]
fn refuses_queries() {
    for (name, refusal) in [
        ("four_bytes", Refusal::Length),
        ("thirteen_columns", Refusal::Size),
        ("column_n", Refusal::Column),
        ("repeated_column", Refusal::Repeat),
        ("eight_sets", Refusal::States),
        ("one_row_too_many", Refusal::States),
    ] {
        let trial = trials::named(name);
        assert_eq!(refusal.to_string(), trial.lines[0], "trial {name}");
        let built = build_in(&trial.query, SCRATCH_BYTES, LONGEST_TABLE);
        assert_eq!(built, Err(refusal), "trial {name}");
    }
    let long_order = [2, 1, 0, 0, 0, 5, 0, 1, 0, 1];
    assert_eq!(build_in(&long_order, 0, 0), Err(Refusal::Item));
    let twins = [1, 1, 1, 0, 0, 1, 1, 0, 255, 255, 255, 0, 255, 255, 255];
    assert_eq!(build_in(&twins, 0, 0), Err(Refusal::Twin));
}

#[test]
fn refuses_space_and_handles_and_rows() {
    let example = trials::example();
    let (query, length) = (&example.query, example.table.len());
    for (scratch, output) in [(SCRATCH_BYTES - 1, length), (SCRATCH_BYTES, length - 1)] {
        assert_eq!(build_in(query, scratch, output), Err(Refusal::Space));
    }

    let &[states, produced, _, sets] = example.table.first_chunk().expect("it has sizes");
    let table = Table::new(&example.table);
    let entered = table.enter(OrderHandle(produced));
    assert_eq!(entered, Err(Refusal::Handle));
    let taken = table.take(StateNumber(0), SetHandle(sets));
    assert_eq!(taken, Err(Refusal::Handle));
    assert_eq!(table.word(StateNumber(states)), Err(Refusal::Handle));
    assert_eq!(table.row(StateNumber(states)), Err(Refusal::Handle));

    let mut bytes = example.table.clone();
    bytes[6] = states;
    let damaged = Table::new(&bytes);
    let taken = damaged.take(StateNumber(0), SetHandle(0));
    assert_eq!(taken, Err(Refusal::Row));
    assert_eq!(damaged.check(), Err(Refusal::Row));
    let word = damaged.word(StateNumber(0));
    assert_eq!(word, Ok(HeldWord(bytes[14].into())));
    assert_eq!(Refusal::Row.number(), 11);
}
