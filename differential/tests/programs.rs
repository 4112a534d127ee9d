//! The programs that take files, run with them: the one that puts a supplier's table
//! on trial, and the one that shows two rows where an order is not held. They print
//! what the second implementation says, or any two rows that it takes, or say on
//! standard error what failed.

use std::ffi::OsStr;
use std::fmt::Debug;
use std::fs;
use std::os::unix::ffi::OsStrExt;
use std::path::{Path, PathBuf};

use differential::codes;
use differential::programs::built;
use differential::tally::Tally;
use reference::buffers::SCRATCH_BYTES;
use reference::builder::table_of;
use reference::counterexample::{Asked, Question};
use reference::program::{self, Written};
use reference::random::Random;
use reference::samples::{self, Kind, Shape};
use reference::table::Table;
use reference::{counterexample, trials, verification, Implementation, Query, Reference};

/// The program that puts a supplier's table on trial.
const VERIFY: &str = "order_verify";
/// The program that shows two rows where an order is not held.
const COUNTEREXAMPLE: &str = "order_counterexample";

/// A folder of this name for the files of one test, empty at first.
fn folder(name: &str) -> PathBuf {
    program::empty_folder(Path::new(env!("CARGO_TARGET_TMPDIR")).join(name))
}

/// The files of the example's query and its table.
fn example_files() -> [PathBuf; 2] {
    ["first.query", "first.table"].map(|name| trials::repository().join("examples").join(name))
}

/// What can't be read as a file: one that is not there, a folder, and one without a
/// name.
fn unreadable(folder: &Path) -> [PathBuf; 3] {
    [folder.join("missing"), folder.to_owned(), PathBuf::new()]
}

/// Some bytes as a file of this name in a folder.
fn written(folder: &Path, name: &str, bytes: &[u8]) -> PathBuf {
    let path = folder.join(name);
    fs::write(&path, bytes).expect("the file can be written");
    path
}

/// The first of some bytes, or these and zeros behind them, so that they are so many.
fn resized(bytes: &[u8], length: usize) -> Vec<u8> {
    let mut resized = bytes.to_vec();
    resized.resize(length, 0);
    resized
}

/// Runs the program of this name with these arguments.
fn run(program: &str, arguments: &[impl AsRef<OsStr>]) -> Written {
    program::run(&built(program), arguments, &[])
}

/// Runs a program with arguments that it can do nothing with. It must say so in one
/// line on standard error, and print nothing.
fn assert_fails(program: &str, arguments: &[impl AsRef<OsStr> + Debug]) {
    let Written { output, errors } = run(program, arguments);
    assert_eq!(output, "", "{program} {arguments:?}");
    let one_line = errors.ends_with('\n') && errors.lines().count() == 1;
    assert!(one_line, "{program} {arguments:?}: {errors:?}");
}

/// What a program writes that prints this and fails in nothing.
fn printed(output: String) -> Written {
    let errors = String::new();
    Written { output, errors }
}

/// Writes a query and a table into a folder and puts the table on trial. The
/// program must print the line that the second implementation says. Gives what
/// that is.
fn compare(folder: &Path, query: &[u8], table: &[u8]) -> Result<(), u8> {
    let files = [("query", query), ("table", table)];
    let files = files.map(|(name, bytes)| written(folder, name, bytes));
    let verified = Reference::verify(query, table, &mut [0; SCRATCH_BYTES]);
    let expected = printed(verification::printed(verified));
    let given = run(VERIFY, &files);
    assert_eq!(given, expected, "table {table:?}, query {query:?}");
    verified
}

#[test]
fn every_trial_with_a_supplied_table() {
    let folder = folder("trials");
    let mut tried = 0;
    for trial in trials::all() {
        if let Some(expected) = trial.verified {
            let verified = compare(&folder, &trial.query, &trial.supplied);
            assert_eq!(verified, expected, "trial {}", trial.name);
            tried += 1;
        }
    }
    assert!(tried >= 10, "only {tried} trials");
}

#[test]
fn other_than_two_arguments() {
    let [query, table] = example_files();
    let files = [&query, &table, &table, &table];
    assert_eq!(run(VERIFY, &files[..2]).output, "accepted\n");
    for count in [0, 1, 3, 4] {
        assert_fails(VERIFY, &files[..count]);
    }
}

#[test]
fn files_that_cannot_be_read() {
    let folder = folder("unreadable");
    let [query, table] = example_files();
    let refused = written(&folder, "refused", &[]);
    for unreadable in &unreadable(&folder) {
        assert_fails(VERIFY, &[unreadable, &table]);
        assert_fails(VERIFY, &[&query, unreadable]);
        assert_fails(VERIFY, &[unreadable, unreadable]);
        // A query that is refused does not hide that the table can't be read.
        assert_fails(VERIFY, &[&refused, unreadable]);
    }
}

#[test]
fn files_that_are_empty_or_longer_than_a_query_or_a_table() {
    let folder = folder("lengths");
    let example = trials::example();
    let (query, table) = (&example.query, &example.table);
    assert_eq!(compare(&folder, &[], &[]), Err(1));
    assert_eq!(compare(&folder, &[], table), Err(1));
    assert_eq!(compare(&folder, query, &[]), Err(1));
    for length in [36, 165, 166, 255, 256, 257, 300, 5000] {
        assert_eq!(compare(&folder, &resized(query, length), table), Err(1));
        assert_eq!(compare(&folder, &resized(&[0], length), table), Err(2));
    }
    for length in [23, 1291, 1292, 1293, 1294, 2000, 70_000] {
        assert_eq!(compare(&folder, query, &resized(table, length)), Err(1));
        assert_eq!(compare(&folder, query, &resized(&[0], length)), Err(2));
    }

    // Tables of the most rows that are right: of the most sets, of the most orders, and
    // of both, which is the longest there is.
    for (query, length) in [
        (samples::own_column_per_set(7), 1157),
        (samples::most_orders(), 780),
        (samples::longest_table(), 1292),
    ] {
        let (query, mut table) = with_the_most_states(&query);
        let bytes = table.write();
        assert_eq!(bytes.len(), length);
        assert_eq!(compare(&folder, &query, &bytes), Ok(()));
        assert_eq!(
            compare(&folder, &query, &resized(&bytes, length + 1)),
            Err(1)
        );
        table.states[127].held ^= 1 << (table.interesting() - 1);
        assert_eq!(compare(&folder, &query, &table.write()), Err(13));
    }

    // As long a table, for queries of other sizes or of too many rows.
    let mut longest = vec![128, 8, 8, 8];
    longest.resize(1292, 0);
    let eight_sets = trials::named("eight_sets").query;
    assert_eq!(compare(&folder, query, &longest), Err(12));
    assert_eq!(compare(&folder, query, &resized(&longest, 1293)), Err(1));
    assert_eq!(compare(&folder, &eight_sets, &longest), Err(8));
}

/// A query, and a right table for it of the most states. The last one is reached.
fn with_the_most_states(query: &Query) -> (Vec<u8>, Table) {
    let query = query.write();
    let mut table = table_of(&query).expect("the query has a table");
    if table.states.len() < 128 {
        let start = table.starts.last_mut().expect("a table has a start");
        let copy = table.states[*start].clone();
        *start = 127;
        table.states.resize(128, copy);
    }
    (query, table)
}

#[test]
fn random_files() {
    let folder = folder("random");
    let mut random = Random::new(2);
    let mut outcomes = Tally::default();
    let mut compare = |query: &[u8], table: &[u8]| {
        let verified = compare(&folder, query, table);
        outcomes.count(codes::answer(verified.map(|()| 0)));
    };
    for _ in 0..30 {
        let (query, own) = samples::query_with_table(&mut random, Shape::SMALL);
        let own = Table::read(&own).expect("a built table has the form");
        for kind in Kind::ALL {
            let supplied = samples::supplied(&mut random, kind, &query, &own);
            compare(&query.write(), &supplied.table);
        }
        let query = samples::any_query(&mut random);
        compare(&query, &samples::any_table(&mut random));
    }
    println!("order_verify on random files: {outcomes}");
    assert!([0, 1, 11, 12, 13]
        .iter()
        .all(|&refusal| outcomes.with(refusal) > 5));
}

/// The number that a word of digits is, where a byte is enough for it.
fn byte(word: &str) -> Option<u8> {
    let digits = word.trim_start_matches('0');
    match digits.is_empty() {
        true => Some(0),
        false => digits.parse().ok(),
    }
}

/// Writes a query into a folder and asks for two rows by a produced order, a choice of
/// sets and an order looked for, in digits. The program must print what the second
/// implementation says, or two rows that it takes. Gives whether these come.
fn compare_asked(folder: &Path, query: &[u8], words: [&str; 3]) -> Result<bool, u8> {
    let file = written(folder, "query", query);
    let given = run(COUNTEREXAMPLE, &arguments(&file, words));
    // A number that is no byte is refused as produced order 255 is, which no query has.
    let numbers = words.map(byte);
    let asked = match numbers.iter().all(Option::is_some) {
        true => Asked::from(numbers.map(Option::unwrap_or_default)),
        false => Asked::from([255, 0, 0]),
    };
    let case = format!("{words:?}, query {query:?}: {given:?}");
    let checked = counterexample::check_printed(query, asked, &given.output);
    assert_eq!(checked, Ok(()), "{case}");
    assert_eq!(given.errors, "", "{case}");
    Question::read(query, asked).map(|question| question.two_rows().is_some())
}

/// A query's file and three words, as arguments.
fn arguments<'a>(query: &'a Path, words: [&'a str; 3]) -> [&'a OsStr; 4] {
    let [produced, sets, order] = words.map(OsStr::new);
    [query.as_os_str(), produced, sets, order]
}

/// The same words with one of them changed, each in turn.
fn each_changed<'a>(words: [&'a str; 3], other: &'a str) -> [[&'a str; 3]; 3] {
    [0, 1, 2].map(|place| {
        let mut changed = words;
        changed[place] = other;
        changed
    })
}

/// Bytes that reading refuses as queries, each with its number.
fn refused_queries() -> [(Vec<u8>, u8); 7] {
    let named = |name| trials::named(name).query;
    [
        (vec![], 1),
        (named("thirteen_columns"), 2),
        (named("unused_byte_128"), 3),
        (named("column_n"), 4),
        (named("descending_in_a_dependency"), 4),
        (named("column_in_both_directions"), 5),
        (named("equal_descending_orders"), 6),
    ]
}

#[test]
fn all_that_is_asked_of_some_queries() {
    let folder = folder("asked");
    let (mut shown, mut none) = (0, 0);
    for name in [
        "listing_example",
        "settled_chain_in_two_sets",
        "two_fixes_either_way",
        "equal_column_goes",
        "running_query",
        "equal_takes_the_direction",
        "trip_reports",
    ] {
        let query = trials::named(name).query;
        let read = Query::read(&query).expect("the trial's query is read");
        for asked in samples::all_asked(&read) {
            let words = [asked.produced, asked.sets, asked.order].map(|byte| byte.to_string());
            let words = words.each_ref().map(String::as_str);
            match compare_asked(&folder, &query, words) {
                Ok(true) => shown += 1,
                Ok(false) => none += 1,
                Err(refusal) => panic!("{asked:?} of {name} refused with {refusal}"),
            }
        }
    }
    println!("order_counterexample on all that is asked: {shown} two rows, {none} none");
    assert!(shown > 30 && none > 30);

    // A query that has no table, and the most columns.
    let query = samples::own_column_per_set(8).write();
    assert_eq!(compare_asked(&folder, &query, ["0", "254", "1"]), Ok(true));
    assert_eq!(compare_asked(&folder, &query, ["0", "255", "1"]), Ok(false));
    assert_eq!(compare_asked(&folder, &query, ["0", "256", "1"]), Err(10));
}

#[test]
fn numbers_of_any_length() {
    let folder = folder("numbers");
    let query = trials::example().query;
    let words = ["0", "1", "2"];
    // No byte is enough for these. Some are what the example has, when all but their
    // lowest bits are dropped.
    let longest = 131_071;
    let powers: [u128; 5] = [256, 512, 65_536, 1 << 32, 1 << 64];
    let mut large: Vec<String> = powers
        .iter()
        .flat_map(|power| [power - 1, *power, power + 1].map(|number| number.to_string()))
        .filter(|number| number != "255")
        .collect();
    large.extend(["9".repeat(300), format!("1{}", "0".repeat(299))]);
    large.extend(["1000", "0256", "00000000000000000000000000256"].map(str::to_owned));
    large.push(format!("{}256", "0".repeat(297)));
    large.push("9".repeat(longest));
    for large in &large {
        for words in each_changed(words, large) {
            assert_eq!(compare_asked(&folder, &query, words), Err(10));
            for (query, refusal) in refused_queries() {
                assert_eq!(compare_asked(&folder, &query, words), Err(refusal));
            }
        }
        assert_eq!(compare_asked(&folder, &query, [large; 3]), Err(10));
    }
    // Not in the example.
    for (words, other) in [
        (["2", "0", "0"], ["255", "0", "0"]),
        (["0", "4", "0"], ["0", "255", "0"]),
        (["0", "0", "4"], ["0", "0", "255"]),
    ] {
        for words in [words, other] {
            assert_eq!(compare_asked(&folder, &query, words), Err(10));
        }
    }
    // Zeros before a number count for nothing.
    for zeros in [1, 2, 3, 20, 299, longest - 1] {
        let [first, second, third] = words.map(|word| format!("{}{word}", "0".repeat(zeros)));
        let words = [first.as_str(), &second, &third];
        assert_eq!(compare_asked(&folder, &query, words), Ok(false));
        assert_eq!(compare_asked(&folder, &query, ["0", "0", &third]), Ok(true));
        assert_eq!(
            compare_asked(&folder, &query, [&second, "0", "0"]),
            Ok(true)
        );
    }
    let query = samples::own_column_per_set(8).write();
    assert_eq!(
        compare_asked(&folder, &query, ["0", "0255", "8"]),
        Ok(false)
    );
}

#[test]
fn words_that_are_no_numbers() {
    let folder = folder("words");
    let [query, _] = example_files();
    let refused = written(&folder, "refused", &[]);
    let missing = folder.join("missing");
    let words = ["0", "1", "2"];
    let digits_then_a = format!("{}a", "1".repeat(300));
    let others = [
        "", " ", "+1", "-1", "-0", " 1", "1 ", "1a", "a1", "a", "0x1", "1.0", "1e0", "1_0", "1,",
        "1\n", "\n", "/", ":", "0/", ":0", "٢", "²", "none",
    ];
    for other in others.into_iter().chain([digits_then_a.as_str()]) {
        for words in each_changed(words, other) {
            for file in [&query, &refused, &missing] {
                assert_fails(COUNTEREXAMPLE, &arguments(file, words));
            }
        }
        // A number that is too large does not hide it.
        for words in each_changed(["256", "256", "256"], other) {
            assert_fails(COUNTEREXAMPLE, &arguments(&query, words));
        }
        assert_fails(COUNTEREXAMPLE, &arguments(&query, [other; 3]));
    }
    for other in [&b"\xff"[..], b"1\xff", b"\xb1", b"\x01"] {
        for place in 1..4 {
            let mut arguments = arguments(&query, words);
            arguments[place] = OsStr::from_bytes(other);
            assert_fails(COUNTEREXAMPLE, &arguments);
        }
    }
}

#[test]
fn other_than_a_file_and_three_numbers() {
    let [query, table] = example_files();
    let [query, table] = [&query, &table].map(|path| path.as_os_str());
    let zero = OsStr::new("0");
    assert_eq!(
        run(COUNTEREXAMPLE, &[query, zero, zero, zero]),
        printed("none\n".to_owned())
    );
    let arguments = [query, zero, zero, zero, zero, zero];
    for count in [0, 1, 2, 3, 5, 6] {
        assert_fails(COUNTEREXAMPLE, &arguments[..count]);
    }
    assert_fails(COUNTEREXAMPLE, &[query, table, zero, zero]);
    assert_fails(COUNTEREXAMPLE, &[zero, zero, zero, query]);
}

#[test]
fn queries_that_cannot_be_read_or_have_other_lengths() {
    let folder = folder("queries");
    let words = ["0", "1", "2"];
    for unreadable in &unreadable(&folder) {
        for words in [words, ["0", "0", "2"], ["256", "1", "2"], ["0", "4", "2"]] {
            assert_fails(COUNTEREXAMPLE, &arguments(unreadable, words));
        }
    }
    let query = trials::example().query;
    assert_eq!(compare_asked(&folder, &[], words), Err(1));
    for length in [1, 4, 5, 34, 36, 165, 166, 255, 256, 257, 300, 5000, 70_000] {
        assert_eq!(
            compare_asked(&folder, &resized(&query, length), words),
            Err(1)
        );
        let expected = if length < 5 { 1 } else { 2 };
        let no_sizes = resized(&[0], length);
        assert_eq!(compare_asked(&folder, &no_sizes, words), Err(expected));
    }
    // The longest query there is.
    let mut query = samples::longest_table();
    query.dependencies.extend(query.dependencies.clone());
    let query = query.write();
    assert_eq!(query.len(), 165);
    assert_eq!(compare_asked(&folder, &query, ["7", "7", "15"]), Ok(true));
    assert_eq!(compare_asked(&folder, &query, ["7", "8", "14"]), Ok(false));
    let longer = resized(&query, 166);
    assert_eq!(compare_asked(&folder, &longer, ["7", "7", "15"]), Err(1));
}

#[test]
fn random_queries_and_numbers() {
    let folder = folder("random_asked");
    let mut random = Random::new(4);
    let mut outcomes = Tally::default();
    let (mut shown, mut none) = (0, 0);
    for _ in 0..1000 {
        let query = samples::any_query(&mut random);
        let asked = samples::asked(&mut random, &query);
        let words = [asked.produced, asked.sets, asked.order].map(|byte| {
            let number = match random.below(40) {
                0 => 256 * random.between((1, 300)) + usize::from(byte),
                _ => byte.into(),
            };
            format!("{}{number}", "0".repeat(random.below(3)))
        });
        let outcome = compare_asked(&folder, &query, words.each_ref().map(String::as_str));
        outcomes.count(codes::answer(outcome.map(u32::from)));
        shown += usize::from(outcome == Ok(true));
        none += usize::from(outcome == Ok(false));
    }
    println!("order_counterexample on random files: {outcomes}; {shown} two rows, {none} none");
    let refusals = [1, 2, 3, 4, 5, 6, 10];
    assert!(refusals.iter().all(|&refusal| outcomes.with(refusal) > 0));
    assert!(shown > 200 && none > 200);
}
