//! Queries to text and back, and texts laid out in any way. A text is read as what it was
//! made from, or refused as the second implementation refuses its bytes; whatever the
//! bytes, reading ends with a query or with words about them.

use order_tables_tool::failure::Failure;
use order_tables_tool::load::Loaded;
use order_tables_tool::text;
use reference::random::Random;
use reference::samples::{self, Shape};
use reference::{trials, Entry, Query, Rule};

/// The query of some bytes or of a text, called `query` in words.
fn load(content: &[u8]) -> Result<Loaded, Failure> {
    Loaded::new("query", content.to_vec())
}

/// Writes a query as text and reads that. Its bytes and its names must come back.
fn assert_comes_back(bytes: &[u8]) {
    let loaded = load(bytes).unwrap_or_else(|failure| panic!("{}, {bytes:?}", failure.words()));
    let written = text::write(&loaded.query);
    let again = load(written.as_bytes());
    let again = again.unwrap_or_else(|failure| panic!("{}, {written}", failure.words()));
    assert_eq!(again.bytes, bytes, "{written}");
    assert_eq!(again.query, loaded.query, "{written}");
}

/// Random queries of many shapes, of which nearly all pass the checks 1 to 6.
fn queries(random: &mut Random) -> Vec<Vec<u8>> {
    let mut queries = Vec::new();
    for _ in 0..2000 {
        queries.extend([
            samples::query(random, Shape::SMALL),
            samples::query(random, Shape::FULL),
            samples::query_of_chains(random, Shape::CHAINS),
            samples::query_of_many_rows(random),
        ]);
    }
    queries.push(samples::longest_table());
    queries.push(samples::most_orders());
    queries.push(samples::constants(7));
    queries.iter().map(Query::write).collect()
}

#[test]
fn queries_come_back_from_their_texts() {
    let trials = trials::all().into_iter().map(|trial| trial.query);
    let queries = queries(&mut Random::new(1)).into_iter().chain(trials);
    let queries = queries.filter(|query| Query::read(query).is_ok());
    let (mut all, mut with_all_sets, mut descending) = (0, 0, 0);
    for query in queries {
        assert_comes_back(&query);
        let written = load(&query).map(|loaded| text::write(&loaded.query));
        let has = |words: &str| usize::from(written.iter().any(|text| text.contains(words)));
        all += 1;
        with_all_sets += has("\nsets ");
        descending += has(" desc");
        assert_eq!(has(" asc"), 0, "{written:?}");
    }
    let counts = [all, with_all_sets, descending];
    assert!(all > 7000 && with_all_sets > 500, "{counts:?}");
    assert!(2 * descending >= all, "{counts:?}");
}

/// Names that differ, of which some are words of the text elsewhere or begin so.
const NAMES: [&str; 16] = [
    "time", "axis", "code", "t.time", "Time", "_", "columns", "set", "sets", "produced", "x1", "a",
    "s0", "tested", "desc_", "t.asc",
];
/// What may stand behind an ascending column of an order.
const ASCENDING: [&str; 6] = ["", "", "", " asc", "\tASC", " \tAsc"];
/// What may stand behind a descending one.
const DESCENDING: [&str; 4] = [" desc", "\tDESC", "  Desc", " dEsC"];

/// So many names, in a random sequence.
fn names(random: &mut Random, count: u8) -> Vec<&'static str> {
    let mut names = NAMES;
    random.shuffle(&mut names);
    names[..count.into()].to_vec()
}

/// Nothing, or blanks.
fn blank(random: &mut Random) -> &'static str {
    ["", "", " ", "  ", "\t"][random.below(5)]
}

/// Some words with commas between them.
fn listed(random: &mut Random, words: &[String]) -> String {
    let mut text = String::new();
    for (place, word) in words.iter().enumerate() {
        let comma = if place == 0 { "" } else { "," };
        text += &[comma, blank(random), word, blank(random)].concat();
    }
    text
}

/// An order with these names, its directions in any case.
fn order_text(random: &mut Random, order: &[Entry], names: &[&str]) -> String {
    let entries = order.iter().map(|entry| {
        let direction = match entry.descends {
            true => DESCENDING[random.below(DESCENDING.len())],
            false => ASCENDING[random.below(ASCENDING.len())],
        };
        format!("{}{direction}", names[usize::from(entry.column)])
    });
    let entries: Vec<String> = entries.collect();
    format!("({})", listed(random, &entries))
}

/// A line of a text with a random end.
fn line(random: &mut Random, said: &str) -> String {
    let ends = [
        "\n",
        "\r\n",
        " # (\u{e9}\n",
        "#\n",
        "\n\n",
        "\n # columns\n",
    ];
    [
        blank(random),
        said,
        blank(random),
        ends[random.below(ends.len())],
    ]
    .concat()
}

/// The lines that say a query with these names: those of orders in one sequence, and
/// those of dependencies in another.
fn said(random: &mut Random, query: &Query, columns: &[&str], sets: &[&str]) -> [Vec<String>; 3] {
    let mut orders = |word: &str, orders: &[Vec<Entry>]| -> Vec<String> {
        let lines = orders.iter().map(|order| {
            let order = order_text(random, order, columns);
            format!("{word}{}{order}", blank(random))
        });
        lines.collect()
    };
    let (produced, tested) = (
        orders("produced", &query.produced),
        orders("tested", &query.tested),
    );
    let dependencies = query.dependencies.iter().map(|dependency| {
        let rule = match &dependency.rule {
            Rule::Fix { left, right } => {
                let left = left.iter().map(|&column| columns[usize::from(column)]);
                let left: Vec<String> = left.map(str::to_owned).collect();
                format!(
                    "{}->{}",
                    listed(random, &left),
                    columns[usize::from(*right)]
                )
            }
            Rule::Equal(one, other) => {
                let [one, other] = [one, other].map(|&column| columns[usize::from(column)]);
                format!("{one}{}={}{other}", blank(random), blank(random))
            }
        };
        format!(
            "set {}{}:{rule}",
            sets[usize::from(dependency.set)],
            blank(random)
        )
    });
    let dependencies = dependencies.collect();
    [produced, tested, dependencies]
}

/// A text that says a query with these names, its lines in a random sequence as far as
/// that says the same.
fn laid_out(random: &mut Random, query: &Query, columns: &[&str], sets: &[&str]) -> String {
    let mut rest = said(random, query, columns, sets);
    for lines in &mut rest {
        lines.reverse();
    }
    let mut lines = vec![
        format!("columns {}", columns.join(" ")),
        format!("sets {}", sets.join("\t")),
    ];
    while rest.iter().any(|lines| !lines.is_empty()) {
        lines.extend(rest[random.below(rest.len())].pop());
    }
    let lines: Vec<String> = lines.iter().map(|said| line(random, said)).collect();
    // A text's first byte is no blank but a space.
    format!(" {}", lines.concat())
}

#[test]
fn texts_laid_out_in_any_way_are_read() {
    let mut random = Random::new(2);
    for _ in 0..3000 {
        let query = samples::query(&mut random, Shape::FULL);
        let columns = names(&mut random, query.columns);
        let sets = names(&mut random, query.sets);
        let text = laid_out(&mut random, &query, &columns, &sets);
        let loaded = load(text.as_bytes());
        let loaded = loaded.unwrap_or_else(|failure| panic!("{}\n{text}", failure.words()));
        assert_eq!(loaded.bytes, query.write(), "{text}");
        assert_eq!(loaded.query.columns, columns, "{text}");
        assert_eq!(loaded.query.sets, sets, "{text}");
    }
}

/// The number in the words of a refusal, `query: refused 5, repeat: ..`, with its word.
fn refusal(failure: &Failure) -> Option<(u8, String)> {
    let (number, said) = failure
        .words()
        .strip_prefix("query: refused ")?
        .split_once(", ")?;
    let (word, what) = said.split_once(": ")?;
    assert!(!what.is_empty(), "{failure:?}");
    Some((number.parse().ok()?, word.to_owned()))
}

#[test]
fn texts_are_refused_as_their_bytes_are() {
    let mut random = Random::new(3);
    let mut refused = [0; 7];
    for _ in 0..3000 {
        let mut query = samples::query(&mut random, Shape::FULL);
        match random.below(5) {
            0 => query = samples::with_equal_orders(&mut random),
            1 => query.columns = 13,
            2 => query.produced.clear(),
            3 => query
                .dependencies
                .extend((0..16).map(|_| reference::Dependency::fix(0, &[], 0))),
            _ => {
                let repeated = [0, 0].map(|column| Entry::either(column)[random.below(2)]);
                let repeated = repeated.to_vec();
                query
                    .tested
                    .insert(random.below(query.tested.len() + 1), repeated);
            }
        }
        query.sets = query.sets.max(1);
        let columns = names(&mut random, query.columns);
        let sets = names(&mut random, query.sets);
        let text = laid_out(&mut random, &query, &columns, &sets);
        let read = load(text.as_bytes()).map(|loaded| loaded.bytes);
        match Query::read(&query.write()) {
            Ok(_) => assert_eq!(read, Ok(query.write()), "{text}"),
            Err(number) => {
                let failure = read.expect_err("the bytes are refused");
                let said = refusal(&failure).map(|(number, _)| number);
                assert_eq!(said, Some(number), "{failure:?} {text}");
                refused[usize::from(number)] += 1;
            }
        }
    }
    assert!(
        [2, 5, 6].iter().all(|&number| refused[number] > 100),
        "{refused:?}"
    );
}

/// The words of the refusal list.
const WORDS: [&str; 6] = ["length", "size", "item", "column", "repeat", "twin"];

#[test]
fn bytes_are_read_or_refused_as_by_the_second_implementation() {
    let mut random = Random::new(4);
    let mut outcomes = [0; 7];
    for round in 0..6000 {
        let bytes = match round % 3 {
            0 => samples::any_query(&mut random),
            1 => samples::nearly_query(&mut random),
            _ => {
                let query = samples::query(&mut random, Shape::SMALL).write();
                samples::damaged(&mut random, &query)
            }
        };
        if text::is_text(&bytes) {
            continue;
        }
        match (Query::read(&bytes), load(&bytes)) {
            (Ok(_), Ok(loaded)) => {
                assert_eq!(loaded.bytes, bytes);
                assert_comes_back(&bytes);
                outcomes[0] += 1;
            }
            (Err(number), Err(failure)) => {
                let word = WORDS[usize::from(number) - 1].to_owned();
                assert_eq!(refusal(&failure), Some((number, word)), "{bytes:?}");
                outcomes[usize::from(number)] += 1;
            }
            (expected, given) => panic!("{expected:?} {given:?} {bytes:?}"),
        }
    }
    assert!(outcomes.iter().all(|&count| count > 10), "{outcomes:?}");
}

/// A text with some of its bytes taken out, put in, changed or moved.
fn changed(random: &mut Random, text: &str) -> Vec<u8> {
    let mut bytes = text.as_bytes().to_vec();
    for _ in 0..random.between((1, 4)) {
        let at = random.below(bytes.len() + 1);
        let until = (at + random.below(6)).min(bytes.len());
        let others = [
            &b"("[..],
            b")",
            b",",
            b"->",
            b"=",
            b":",
            b"#",
            b"\n",
            b" ",
            b"desc",
            b" DESC ",
            b" asc",
            b"\xff",
            b"set",
            b"a",
        ];
        match random.below(3) {
            0 => drop(bytes.drain(at..until)),
            1 => drop(bytes.splice(at..at, others[random.below(others.len())].iter().copied())),
            _ => {
                let part = bytes[at..until].to_vec();
                let to = random.below(bytes.len() + 1);
                bytes.splice(to..to, part);
            }
        }
    }
    bytes
}

/// Checks the words about an error in a text: its place is in the text, and the line is
/// shown with marks under it.
fn assert_in_text(failure: &Failure, text: &[u8]) {
    let words = failure.words();
    let case = || format!("{words}\n{}", String::from_utf8_lossy(text));
    let (place, said) = words
        .split_once(": ")
        .unwrap_or_else(|| panic!("{}", case()));
    let mut numbers = place
        .split(':')
        .skip(1)
        .map(|number| number.parse::<usize>());
    let (Some(Ok(line)), Some(Ok(column)), None) = (numbers.next(), numbers.next(), numbers.next())
    else {
        panic!("{}", case());
    };
    let shown = text.split(|&byte| byte == b'\n').nth(line - 1);
    let shown = shown.unwrap_or_else(|| panic!("{}", case()));
    assert!((1..=shown.len() + 1).contains(&column), "{}", case());
    let said: Vec<&str> = said.split('\n').collect();
    let [what, _, marks] = said[..] else {
        panic!("{}", case());
    };
    assert!(
        what.starts_with("found ") && what.ends_with(" would do"),
        "{}",
        case()
    );
    // Of a long line the last 60 characters before the error are shown, behind `..`.
    let before = if column > 61 { 62 } else { column - 1 };
    let first_mark = marks.chars().position(|character| character == '^');
    assert_eq!(first_mark, Some(before), "{}", case());
}

#[test]
fn whatever_the_text_reading_ends_with_a_query_or_with_words() {
    let mut random = Random::new(5);
    let (mut read, mut refused, mut errors) = (0, 0, 0);
    for _ in 0..20_000 {
        let query = samples::query(&mut random, Shape::SMALL);
        let columns = names(&mut random, query.columns);
        let sets = names(&mut random, query.sets);
        let text = laid_out(&mut random, &query, &columns, &sets);
        let text = changed(&mut random, &text);
        if !text::is_text(&text) {
            continue;
        }
        match load(&text) {
            Ok(loaded) => {
                assert!(Query::read(&loaded.bytes).is_ok());
                assert_comes_back(&loaded.bytes);
                read += 1;
            }
            Err(failure) if refusal(&failure).is_some() => refused += 1,
            Err(failure) => {
                assert_eq!(failure.status(), 1);
                assert_in_text(&failure, &text);
                errors += 1;
            }
        }
    }
    assert!(
        read > 1000 && refused > 20 && errors > 5000,
        "{read} {refused} {errors}"
    );
}
