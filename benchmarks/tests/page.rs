//! What docs/BENCHMARKS.md says of stepped builds and needs no counting: the pairs of the
//! queries, and what comes of the held words.

use std::fs;

use benchmarks::held_words::{kinds, merged};
use benchmarks::large_queries::{slow_to_settle, Sizes};
use benchmarks::report::outcome;
use reference::trials::{self, repository};
use reference::Query;

/// The first two cells of the rows of each table that the section has, with the head.
fn tables() -> Vec<Vec<[String; 2]>> {
    let page = fs::read_to_string(repository().join("docs/BENCHMARKS.md")).expect("the page");
    let (_, section) = page
        .split_once("\n## A stepped build, instructions\n")
        .expect("the section is there");
    let section = section.split("\n## ").next().unwrap_or_default();
    let tables = section.split("\n\n").filter(|block| block.starts_with('|'));
    let rows = tables.map(|table| {
        let rows = table.lines().filter(|line| !line.starts_with("|-"));
        rows.map(|row| {
            let mut cells = row.split('|').skip(1).map(|cell| cell.trim().to_owned());
            [cells.next(), cells.next()].map(Option::unwrap_or_default)
        })
        .collect()
    });
    rows.collect()
}

#[test]
fn the_queries_have_the_pairs() {
    let tables = tables();
    let (head, rows) = tables[0].split_first().expect("a head");
    assert_eq!(*head, ["Query", "Pairs"]);
    let names: Vec<&str> = rows.iter().map(|[name, _]| &name[..]).collect();
    assert_eq!(names[8..], ["long checks", "slow to settle"]);
    for [name, pairs] in rows {
        let query = match &name[..] {
            "long checks" => Sizes::LARGEST.long_checks(),
            "slow to settle" => slow_to_settle(),
            name => Query::read(&trials::named(name).query).expect("the query is read"),
        };
        assert_eq!(*pairs, query.pairs().to_string(), "{name}");
    }
}

#[test]
fn the_words_come_out_so() {
    let tables = tables();
    let (head, rows) = tables[1].split_first().expect("a head");
    assert_eq!(*head, ["Words", "Outcome"]);
    let query = Sizes::LARGEST.long_checks().write();
    let kinds = kinds();
    let expected = kinds
        .iter()
        .map(|(kind, words)| [(*kind).to_owned(), outcome(merged(&query, words))]);
    assert_eq!(*rows, expected.collect::<Vec<_>>());
}
