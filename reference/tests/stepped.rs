//! Stepped builds: what each call settles and what it leaves in the buffers, how the last
//! one merges whatever words it finds, and when calls are refused.

use reference::buffers::SCRATCH_BYTES;
use reference::builder::build_table;
use reference::construction::pair_word;
use reference::lookups::{model_answers, Answer};
use reference::query::order;
use reference::random::Random;
use reference::samples::{self, any_bytes, Changed, Shape};
use reference::stepped::{begin, continue_build};
use reference::table::{State, Table, MOST_STATES};
use reference::{trials, Dependency, Implementation, Query, Reference};

/// More bytes than any table has.
const ROOM: usize = 2048;

/// A query that is read.
type Read = Result<Query, u8>;

fn example() -> Read {
    Query::read(&trials::example().query)
}

/// The words of a scratch: the count, then that of each pair.
fn words(scratch: &[u8]) -> Vec<u16> {
    let (words, _) = scratch[..SCRATCH_BYTES].as_chunks();
    words.iter().copied().map(u16::from_le_bytes).collect()
}

fn set_count(scratch: &mut [u8], count: usize) {
    scratch[..2].copy_from_slice(&u16::to_le_bytes(count as u16));
}

/// A scratch in which a build of this query is begun, with bytes behind it.
fn begun(query: &Read, behind: &[u8]) -> Vec<u8> {
    let mut scratch = [&[7; SCRATCH_BYTES], behind].concat();
    assert_eq!(begin(query, &mut scratch), Ok(()));
    scratch
}

/// Settles so many pairs.
fn settle(query: &Read, scratch: &mut [u8], pairs: usize) {
    for _ in 0..pairs {
        assert_eq!(continue_build(query, scratch, &mut []), Ok(None));
    }
}

#[test]
fn the_example_is_settled_pair_by_pair() {
    // Rows in (a), order 0: with set 0, a -> b, they are in (a,b), order 2, too. Rows in
    // (b,a), order 1: with set 1, b = c, they are in (c), order 3, too.
    let held = [1, 5, 1, 5, 2, 2, 10, 10];
    let (query, table) = (example(), trials::example().table);
    let mut scratch = vec![7; SCRATCH_BYTES + 3];
    assert_eq!(begin(&query, &mut scratch), Ok(()));
    let mut expected = vec![0; SCRATCH_BYTES];
    expected.extend([7; 3]);
    expected[0] = 1;
    assert_eq!(scratch, expected);

    let mut output = vec![9; table.len() + 1];
    for (pair, held) in held.into_iter().enumerate() {
        let continued = continue_build(&query, &mut scratch, &mut output);
        assert_eq!(continued, Ok(None), "pair {pair}");
        expected[0] += 1;
        expected[2 + 2 * pair] = held;
        assert_eq!(scratch, expected, "pair {pair}");
        assert_eq!(output, vec![9; table.len() + 1], "pair {pair}");
    }
    let continued = continue_build(&query, &mut scratch, &mut output);
    assert_eq!(continued, Ok(Some(table.len())));
    assert_eq!(output, [&table[..], &[9]].concat());
    assert_eq!(scratch, [&[0; SCRATCH_BYTES][..], &[7; 3]].concat());
    let continued = continue_build(&query, &mut scratch, &mut output);
    assert_eq!(continued, Err(14), "there is no build any more");
}

/// Builds a query in steps and in one call, in buffers of these bytes, and compares what
/// comes of it. Gives the refusal, or 0.
fn compare_with_one_build(query: &[u8], scratch: &[u8], output: &[u8]) -> u8 {
    let (mut whole_scratch, mut whole_output) = (scratch.to_vec(), output.to_vec());
    let built = Reference::build(query, &mut whole_scratch, &mut whole_output);
    let (mut scratch, mut output) = (scratch.to_vec(), output.to_vec());
    let in_steps = Reference::build_in_steps(query, &mut scratch, &mut output);
    assert_eq!(in_steps, built, "{query:?}");
    assert_eq!(scratch, whole_scratch, "{query:?}");
    assert_eq!(output, whole_output, "{query:?}");
    built.err().unwrap_or(0)
}

#[test]
fn a_stepped_build_ends_as_one_build() {
    let mut random = Random::new(81);
    let trials = trials::all().into_iter().map(|trial| trial.query);
    let mut queries: Vec<Vec<u8>> = trials.collect();
    queries.extend((0..2000).map(|_| samples::any_query(&mut random)));
    let mut outcomes = [0; 15];
    for query in queries {
        let length = build_table(&query).map_or(22, |table| table.len());
        for (scratch, output) in [
            (SCRATCH_BYTES - 1, ROOM),
            (SCRATCH_BYTES, length),
            (SCRATCH_BYTES, length - 1),
            (SCRATCH_BYTES + 5, length + 1),
        ] {
            let [scratch, output] = [scratch, output].map(|length| any_bytes(&mut random, length));
            let refusal = compare_with_one_build(&query, &scratch, &output);
            outcomes[usize::from(refusal)] += 1;
        }
    }
    let given = [0, 1, 2, 3, 4, 5, 6, 8, 9];
    assert!(given.iter().all(|&n| outcomes[n] > 20), "{outcomes:?}");
    assert_eq!(outcomes[7] + outcomes[14], 0, "{outcomes:?}");
}

#[test]
fn there_are_as_many_calls_as_pairs_and_one_more() {
    let mut random = Random::new(82);
    for _ in 0..300 {
        let query = samples::any_read_query(&mut random);
        let pairs = query.produced.len() * (1 << query.sets);
        assert_eq!(query.pairs(), pairs);
        let query = Ok(query);
        let mut scratch = begun(&query, &[]);
        for settled in 0..pairs {
            assert_eq!(usize::from(words(&scratch)[0]), settled + 1);
            settle(&query, &mut scratch, 1);
        }
        let last = continue_build(&query, &mut scratch, &mut [0; ROOM]);
        assert!(matches!(last, Ok(Some(1..)) | Err(8)), "{last:?} {query:?}");
    }
}

#[test]
fn each_pair_is_settled_as_the_plain_model_answers() {
    let mut random = Random::new(83);
    let mut compared = 0;
    for _ in 0..300 {
        let query = match random.below(2) {
            0 => samples::query(&mut random, Shape::SMALL),
            _ => samples::query_of_chains(&mut random, Shape::CHAINS),
        };
        let pairs = query.pairs();
        let read = Ok(query.clone());
        let mut scratch = begun(&read, &[]);
        settle(&read, &mut scratch, pairs);
        // Produced orders in turn, and within one the choices counted upwards.
        let mut settled = words(&scratch)[1..].to_vec().into_iter();
        for produced in 0..query.produced.len() as u8 {
            for choice in 0..1 << query.sets {
                let sets = query.chosen(choice);
                let asks = samples::asks_after(&query, produced, &sets);
                let answers = model_answers(&query, &asks)
                    .into_iter()
                    .skip(1 + sets.len());
                let held = (0..).zip(answers).map(|(bit, answer)| match answer {
                    Answer::Held(held) => u16::from(held) << bit,
                    other => panic!("{other:?}"),
                });
                let held: u16 = held.sum();
                assert_eq!(settled.next(), Some(held), "{produced} {sets:?} {query:?}");
                compared += 1;
            }
        }
        assert!(settled.all(|word| word == 0));
    }
    assert!(compared > 2000, "only {compared} pairs");
}

#[test]
fn a_call_goes_by_the_count_alone_and_changes_it_and_one_word() {
    let mut random = Random::new(84);
    for _ in 0..1000 {
        let query = samples::any_read_query(&mut random);
        let pairs = query.pairs();
        let count = random.between((1, pairs));
        let mut scratch = any_bytes(&mut random, SCRATCH_BYTES + 9);
        set_count(&mut scratch, count);
        let mut output = any_bytes(&mut random, 40);
        let (mut expected, output_before) = (scratch.clone(), output.clone());
        set_count(&mut expected, count + 1);
        let word = pair_word(&query, count - 1).to_le_bytes();
        expected[2 * count..][..2].copy_from_slice(&word);
        let continued = continue_build(&Ok(query), &mut scratch, &mut output);
        assert_eq!(continued, Ok(None));
        assert_eq!((scratch, output), (expected, output_before));
    }
}

#[test]
fn beginning_over_an_unfinished_build_starts_afresh() {
    let mut random = Random::new(85);
    for _ in 0..200 {
        let queries = [
            samples::any_read_query(&mut random),
            samples::any_read_query(&mut random),
        ];
        let [query, other] = queries.map(Ok::<Query, u8>);
        let fresh = begun(&query, &[7; 9]);
        for unfinished in [&query, &other] {
            let mut scratch = begun(unfinished, &[7; 9]);
            let pairs = unfinished.as_ref().map_or(0, Query::pairs);
            settle(unfinished, &mut scratch, random.between((0, pairs)));
            assert_eq!(begin(&query, &mut scratch), Ok(()));
            assert_eq!(scratch, fresh, "{query:?}");
        }
    }
}

#[test]
fn the_query_lent_to_a_call_is_the_one_it_goes_by() {
    // Three produced orders and one set, and one produced order and two sets: six pairs
    // and four.
    let longer = Query {
        columns: 3,
        produced: vec![order(&[0]), order(&[1]), order(&[2])],
        tested: vec![order(&[0, 1])],
        sets: 1,
        dependencies: vec![Dependency::fix(0, &[0], 1)],
    };
    let shorter = Query {
        columns: 3,
        produced: vec![order(&[0])],
        tested: vec![order(&[0, 2]), order(&[1])],
        sets: 2,
        dependencies: vec![Dependency::fix(0, &[0], 2), Dependency::equal(1, 0, 1)],
    };
    let [longer, shorter] = [longer, shorter].map(Ok::<Query, u8>);

    // Pair 1 is the first order under set 0 for both, pair 2 the second order for one
    // and the first under set 1 for the other.
    let mut scratch = begun(&longer, &[]);
    settle(&longer, &mut scratch, 1);
    settle(&shorter, &mut scratch, 2);
    settle(&longer, &mut scratch, 1);
    assert_eq!(words(&scratch)[..6], [5, 1, 3, 5, 2, 0]);

    // With four pairs settled the shorter one's last call is due, and the words of both
    // are merged, cut to its three orders: 1, 3, 5, 2 from the choices 0, 1, 2, 3.
    let mut output = vec![9; ROOM];
    let mut merges = scratch.clone();
    let done = continue_build(&shorter, &mut merges, &mut output);
    let successors = [1, 2, 1, 3, 3, 2, 3, 3];
    let held = [1, 0, 3, 0, 5, 0, 2, 0];
    let table = [&[4, 1, 2, 2, 0][..], &successors, &held].concat();
    assert_eq!(done, Ok(Some(table.len())));
    assert_eq!(output[..table.len()], table);

    // With one more settled its count is too large.
    settle(&longer, &mut scratch, 1);
    let before = scratch.clone();
    let refused = continue_build(&shorter, &mut scratch, &mut output);
    assert_eq!(refused, Err(14));
    assert_eq!(scratch, before);
    settle(&longer, &mut scratch, 1);
    let done = continue_build(&longer, &mut scratch, &mut output);
    assert!(matches!(done, Ok(Some(_))), "{done:?}");
}

/// The table that pairs with these words merge into, by the definition: two pairs share a
/// row when their words are the same under every choice of further sets.
fn merged_by_definition(query: &Query, words: &[u16]) -> Table {
    let bits = (1_u32 << query.interesting().count()) - 1;
    let choices = 1 << query.sets;
    let answers = |pair: usize| -> Vec<u16> {
        let further = (0..choices).map(|further| words[pair | further] & bits as u16);
        further.collect()
    };
    let mut rows: Vec<(usize, Vec<u16>)> = Vec::new();
    let row_of = |rows: &mut Vec<(usize, Vec<u16>)>, pair: usize| {
        let answers = answers(pair);
        let known = rows.iter().position(|(_, others)| *others == answers);
        known.unwrap_or_else(|| {
            rows.push((pair, answers));
            rows.len() - 1
        })
    };
    let starts = (0..query.produced.len()).map(|produced| row_of(&mut rows, produced * choices));
    let starts = starts.collect();
    let mut states = Vec::new();
    while let Some(&(pair, ref answers)) = rows.get(states.len()) {
        let held = answers[0];
        let next = (0..query.sets).map(|set| row_of(&mut rows, pair | 1 << set));
        let successors = next.collect();
        states.push(State { successors, held });
    }
    Table {
        tested: query.tested.len() as u8,
        sets: query.sets,
        starts,
        states,
    }
}

#[test]
fn whatever_words_are_found_are_merged_by_the_definition() {
    let mut random = Random::new(86);
    let (mut merged, mut refused, mut fewer, mut as_built) = (0, 0, 0, 0);
    for case in 0..4000 {
        let query = match case % 40 {
            0 => samples::any_read_query(&mut random),
            1..4 => samples::query_of_many_rows(&mut random),
            _ => samples::query(&mut random, Shape::SMALL),
        };
        let read = Ok(query.clone());
        let mut scratch = begun(&read, &[7; 9]);
        settle(&read, &mut scratch, query.pairs());
        let built = Reference::build(&query.write(), &mut [0; SCRATCH_BYTES], &mut [0; ROOM]);
        let change = Changed::ALL[random.below(Changed::ALL.len())];
        change.change(&mut random, &query, &mut scratch);
        // Bytes behind the words of the pairs count for nothing.
        let behind = 2 + 2 * query.pairs();
        let any = any_bytes(&mut random, SCRATCH_BYTES - behind);
        scratch[behind..SCRATCH_BYTES].copy_from_slice(&any);

        let words = &words(&scratch)[1..=query.pairs()];
        let expected = merged_by_definition(&query, words);
        let mut output = vec![9; ROOM];
        let continued = continue_build(&read, &mut scratch, &mut output);
        let case = || format!("{change:?} {words:?} {query:?}");
        let (answer, written) = match expected.write() {
            table if expected.states.len() <= MOST_STATES => (Ok(Some(table.len())), table),
            _ => (Err(8), vec![]),
        };
        assert_eq!(continued, answer, "{}", case());
        let kept = [9; ROOM];
        let output_after = [&written[..], &kept[written.len()..]].concat();
        assert!(output == output_after, "{}", case());
        let scratch_after = [&[0; SCRATCH_BYTES][..], &[7; 9]].concat();
        assert!(scratch == scratch_after, "{}", case());
        if change == Changed::PastOrders {
            assert_eq!(continued, built.map(Some), "{}", case());
            as_built += 1;
        }
        merged += usize::from(continued.is_ok());
        refused += usize::from(continued.is_err());
        fewer += usize::from(expected.states.len() < query.pairs());
    }
    let enough = merged > 3000 && refused > 30 && fewer > 1500 && as_built > 300;
    assert!(enough, "{merged} {refused} {fewer} {as_built}");
}

#[test]
fn changed_words_are_refused_from_129_rows_on() {
    // Two produced orders and seven sets. The word of the first one is the choice, so it
    // has 128 rows; that of the second one is 127 throughout, so it has one of them.
    let read = Ok(Query {
        columns: 8,
        produced: vec![order(&[0]), order(&[1])],
        tested: (1..8).map(|column| order(&[column, 0])).collect(),
        sets: 7,
        dependencies: vec![],
    });
    let mut full = begun(&read, &[]);
    set_count(&mut full, 2 * 128 + 1);
    for choice in 0..128 {
        full[2 + 2 * choice] = choice as u8;
        full[2 + 2 * (128 + choice)] = 127;
    }
    let mut scratch = full.clone();
    let done = continue_build(&read, &mut scratch, &mut [0; ROOM]);
    assert_eq!(done, Ok(Some(4 + 2 + 128 * 7 + 128 * 2)));
    for choice in 0..128 {
        // The start of the second order is told from all others, at once or later.
        let mut scratch = full.clone();
        scratch[2 + 2 * (128 + choice) + 1] = 1;
        let mut output = [9; ROOM];
        let refused = continue_build(&read, &mut scratch, &mut output);
        assert_eq!(refused, Err(8), "{choice}");
        assert_eq!((&scratch[..], output), (&[0; SCRATCH_BYTES][..], [9; ROOM]));
    }
}

/// Queries, each with the refusal that beginning and continuing give for it, or none.
fn queries_of_every_outcome() -> Vec<(Read, Option<u8>)> {
    let example = trials::example().query;
    let with = |place: usize, byte: u8| {
        let mut query = example.clone();
        query[place] = byte;
        query
    };
    let mut twins = with(7, 1);
    twins[20] = 255;
    let queries = [
        (example[..4].to_vec(), Some(1)),
        (with(0, 13), Some(2)),
        (example[..34].to_vec(), Some(1)),
        (with(5, 5), Some(3)),
        (with(11, 3), Some(4)),
        (with(16, 1), Some(5)),
        (twins, Some(6)),
        (trials::named("eight_sets").query, None),
        (example, None),
    ];
    let read = queries.map(|(query, refused)| (Query::read(&query), refused));
    read.to_vec()
}

/// The length of a table of one row for a query.
fn length_of_one_row(query: &Query) -> usize {
    4 + query.produced.len() + usize::from(query.sets) + 2
}

/// Continues a build with this count, in a scratch whose other bytes are all the same.
/// When it is refused, checks the bytes of both buffers. Gives the refusal, or 0.
fn refusal_of(query: &Read, count: usize, scratch: usize, output: usize) -> u8 {
    let mut scratch = vec![3; scratch];
    for (byte, of_count) in scratch.iter_mut().zip(u16::to_le_bytes(count as u16)) {
        *byte = of_count;
    }
    let mut output = vec![9; output];
    let (scratch_before, output_before) = (scratch.clone(), output.clone());
    let continued = continue_build(query, &mut scratch, &mut output);
    let Err(refusal) = continued else { return 0 };
    assert_eq!(output, output_before, "{query:?}");
    let last = query.as_ref().is_ok_and(|query| count == query.pairs() + 1);
    let cleared = match last && scratch.len() >= SCRATCH_BYTES {
        true => SCRATCH_BYTES,
        false => 0,
    };
    assert!(scratch[..cleared].iter().all(|&byte| byte == 0));
    assert_eq!(scratch[cleared..], scratch_before[cleared..], "{query:?}");
    refusal
}

#[test]
fn calls_are_refused_in_their_order_and_leave_the_buffers() {
    let mut given = [0; 15];
    for (query, refused) in queries_of_every_outcome() {
        // All words are the same, so there is one row.
        let pairs = query.as_ref().map_or(8, Query::pairs);
        let length = query.as_ref().map_or(22, length_of_one_row);
        for scratch in [0, 1, 2, 16_383, 16_384, 16_385, 20_000] {
            let mut lent = vec![3; scratch];
            let mut expected = lent.clone();
            let begun = begin(&query, &mut lent);
            let short = (scratch < SCRATCH_BYTES).then_some(9);
            assert_eq!(begun.err(), refused.or(short));
            if begun.is_ok() {
                expected[..SCRATCH_BYTES].fill(0);
                expected[0] = 1;
            }
            assert_eq!(lent, expected, "{query:?}");

            for count in [0, pairs + 2, 256 * pairs, 65_535, 1, pairs, pairs + 1] {
                for output in [0, length - 1, length, length + 1, ROOM] {
                    let counted = (count == 0 || count > pairs + 1).then_some(14);
                    let room = (count == pairs + 1 && output < length).then_some(9);
                    let expected = refused.or(short).or(counted).or(room);
                    let refusal = refusal_of(&query, count, scratch, output);
                    assert_eq!(
                        refusal,
                        expected.unwrap_or(0),
                        "count {count}, {scratch} and {output} bytes, {query:?}"
                    );
                    given[usize::from(refusal)] += 1;
                }
            }
        }
    }
    let listed = [0, 1, 2, 3, 4, 5, 6, 9, 14];
    assert!(listed.iter().all(|&n| given[n] > 50), "{given:?}");
}

#[test]
fn rows_are_refused_before_output_in_the_last_call_alone() {
    let query = Query::read(&trials::named("eight_sets").query);
    let mut scratch = begun(&query, &[7; 9]);
    settle(&query, &mut scratch, 256);
    for output in [0, 1, ROOM] {
        let mut last = scratch.clone();
        let mut output = vec![9; output];
        assert_eq!(continue_build(&query, &mut last, &mut output), Err(8));
        assert_eq!(last, [&[0; SCRATCH_BYTES][..], &[7; 9]].concat());
        assert!(output.iter().all(|&byte| byte == 9));
        assert_eq!(continue_build(&query, &mut last, &mut output), Err(14));
    }
}

#[test]
fn the_count_has_its_limits_for_all_numbers_of_orders_and_sets() {
    let mut random = Random::new(87);
    for produced in 1..=8 {
        for sets in 0..=8 {
            let query = Query {
                columns: 8,
                produced: (0..produced).map(|column| order(&[column])).collect(),
                tested: vec![],
                sets,
                dependencies: vec![],
            };
            let pairs = usize::from(produced) << sets;
            let query = Ok(query);
            for count in samples::counts(&mut random, pairs) {
                let mut scratch = begun(&query, &[]);
                scratch[..2].copy_from_slice(&count.to_le_bytes());
                let continued = continue_build(&query, &mut scratch, &mut [0; ROOM]);
                let count = usize::from(count);
                let as_said = match continued {
                    Ok(None) => (1..=pairs).contains(&count),
                    Ok(Some(_)) => count == pairs + 1,
                    Err(refusal) => refusal == 14 && (count == 0 || count > pairs + 1),
                };
                assert!(as_said, "{continued:?} for {count} of {pairs}");
            }
        }
    }
}
