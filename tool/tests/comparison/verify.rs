//! A supplier's table on trial.

use std::fs;
use std::path::{Path, PathBuf};

use order_tables_tool::failure::Failure;
use reference::builder::table_of;
use reference::program::empty_folder;
use reference::random::Random;
use reference::refusal::{LENGTH, MISMATCH, ROW, SIZE};
use reference::samples::{self, Kind, Shape, Supplied};
use reference::table::{self, Table};
use reference::{trials, verification, Query};

use crate::answers::Answers;
use crate::refused::{check_query_refused, wrong_length, wrong_sizes, TABLE_LIMITS};
use crate::words::{counted, order_text, query_sizes_text, sizes_text};
use crate::{is_taken_for_text, query_with_table, tool, STANDARD_INPUT, WORDS};

/// Trials of supplied tables by the tool, and what was compared so far.
struct Comparison {
    random: Random,
    /// The folder of the file that the tool reads beside standard input.
    folder: PathBuf,
    /// By refusal, 0 for tables that are accepted.
    outcomes: [usize; WORDS.len()],
    /// Of the wrong answers, those found by trying one run after the other.
    tried: usize,
    /// Of the longest run to a wrong answer, how many sets it has.
    longest: usize,
    /// How many tables were for queries without descending columns, and with them.
    descending: [usize; 2],
    /// What was said of tables that are refused.
    said: Vec<String>,
}

impl Comparison {
    /// A comparison with a folder of its own.
    fn new(seed: u64, folder: &str) -> Self {
        let folders = Path::new(env!("CARGO_TARGET_TMPDIR")).join("compared_tables");
        Self {
            random: Random::new(seed),
            folder: empty_folder(folders.join(folder)),
            outcomes: Default::default(),
            tried: 0,
            longest: 0,
            descending: [0; 2],
            said: Vec::new(),
        }
    }

    /// What the tool says of a table on trial, with the names of the query's file and of
    /// the table's, one of which is standard input.
    fn verify(&mut self, query: &[u8], table: &[u8]) -> ([String; 2], Result<String, Failure>) {
        let file = self.folder.join("file");
        let name = file.display().to_string();
        let query_in_file = self.random.one_in(2);
        let content = if query_in_file { query } else { table };
        fs::write(&file, content).expect("a file can be written");
        let standard = STANDARD_INPUT.to_owned();
        if query_in_file {
            let given = tool(&["verify", &name, "-"], table);
            ([name, standard], given)
        } else {
            let given = tool(&["verify", "-", &name], query);
            ([standard, name], given)
        }
    }

    /// Compares the trial of a table for a query with this table or refusal, and gives
    /// the outcome.
    fn compare(&mut self, query: &[u8], own: &Result<Table, u8>, table: &[u8]) -> Result<(), u8> {
        let case = format!("table {table:?}, query {query:?}");
        let ([query_name, table_name], given) = self.verify(query, table);
        let own = own.as_ref().map_err(|&refusal| refusal);
        let expected = own.and_then(|own| verification::compare(own, table));
        let outcome = usize::from(expected.err().unwrap_or(0));
        self.outcomes[outcome] += 1;
        if let Ok(query) = Query::read(query) {
            self.descending[usize::from(query.descends())] += 1;
        }
        match (own, expected) {
            (_, Ok(())) => assert_eq!(given, Ok("accepted\n".to_owned()), "{case}"),
            (Err(_), Err(refusal)) => check_query_refused(&query_name, query, refusal, &given),
            (Ok(_), Err(refusal)) => {
                let query = Query::read(query).expect("a query with a table is read");
                let what = match refusal {
                    LENGTH => {
                        wrong_length(table, 4, |sizes| 4 + sizes[1] + sizes[0] * (sizes[3] + 2))
                    }
                    SIZE => wrong_sizes(table, &TABLE_LIMITS),
                    ROW => stray(&query, table),
                    MISMATCH => mismatch(&query, &query_name, table),
                    _ => self.wrong_answer(&query, table),
                };
                let word = WORDS[outcome];
                let words = format!("{table_name}: refused {refusal}, {word}: {what}");
                assert_eq!(given, Err(Failure::Refused(words)), "{case}");
                self.said.push(what);
            }
        }
        expected
    }

    /// Compares the trial of one table of each kind.
    fn compare_kinds(&mut self, query: &Query) {
        let bytes = query.write();
        let own = table_of(&bytes);
        let table = own.as_ref().expect("the query has a table");
        for kind in Kind::ALL {
            let Supplied { table, known } = samples::supplied(&mut self.random, kind, query, table);
            let verified = self.compare(&bytes, &own, &table);
            let as_known = known.is_none_or(|known| known == verified);
            assert!(as_known, "{kind:?} {verified:?} {table:?} {query:?}");
        }
    }

    /// The wrong answer of a table that has to be told. Where all runs can be tried, they
    /// give the same.
    fn wrong_answer(&mut self, query: &Query, table: &[u8]) -> String {
        let table = Table::read(table).expect("a table with wrong answers has the form");
        let mut answers = Answers::new(query, &table);
        let wrong = answers.first_wrong();
        let (produced, run) = wrong.expect("a table that is refused with 13 answers wrong");
        if let Some(tried) = answers.first_wrong_of_all_runs() {
            assert_eq!(tried, (produced, run.clone()), "{table:?} {query:?}");
            self.tried += 1;
        }
        self.longest = self.longest.max(run.len());
        format!(
            "entered by {}, {}, it says {}",
            order_text(&query.produced[produced]),
            run_text(&run),
            answers.wrong(produced, &run).join(", and ")
        )
    }

    /// Whether each of these refusals, 0 for none, came more often than so.
    fn has(&self, refusals: &[usize], count: usize) -> bool {
        let mut refusals = refusals.iter();
        refusals.all(|&refusal| self.outcomes[refusal] > count)
    }

    /// Whether each of these was said of more than so many tables.
    fn has_said(&self, words: &[&str], count: usize) -> bool {
        let said = |words: &&str| self.said.iter().filter(|said| said.contains(words)).count();
        words.iter().map(said).all(|said| said > count)
    }

    /// Says what was compared.
    fn report(&self, what: &str) {
        let outcomes = self.outcomes.iter().zip(WORDS);
        let outcomes = outcomes.filter(|(&count, _)| count > 0);
        let outcomes = outcomes.map(|(count, word)| format!("{count} {word}"));
        println!(
            "{what}: {}; {} of the wrong answers by trying all runs, the longest run {}; {} for \
             queries with descending columns",
            outcomes.collect::<Vec<String>>().join(", "),
            self.tried,
            self.longest,
            self.descending[1]
        );
    }

    /// Whether at least half of the tables were for queries with descending columns, of
    /// those for queries that pass the checks 1 to 6.
    fn half_descend(&self) -> bool {
        let [without, with] = self.descending;
        with >= without
    }
}

/// The first start or successor that is no state, or else the first state with a bit past
/// the interesting orders.
fn stray(query: &Query, table: &[u8]) -> String {
    let [states, produced, tested, sets] = *table.first_chunk().expect("a table has sizes");
    let mut starts = 0..produced;
    if let Some(start) = starts.find(|&start| table::enter(table, start) == Err(ROW)) {
        let order = query.produced.get(usize::from(start));
        let named = order.map(|order| order_text(order));
        let named = named.unwrap_or(format!("produced order {start}"));
        return format!("{named} starts in no state");
    }
    let mut taken = (0..states).flat_map(|state| (0..sets).map(move |set| (state, set)));
    if let Some((state, set)) = taken.find(|&(s, set)| table::take(table, s, set) == Err(ROW)) {
        let set = match set < query.sets {
            true => format!("s{set}"),
            false => format!("set {set}"),
        };
        return format!("in state {state} {set} leads to no state");
    }
    let orders = produced + tested;
    let mut words = (0..states).map(|state| table::word(table, state));
    let past = words.position(|word| word.is_ok_and(|word| u32::from(word) >> orders != 0));
    let state = past.expect("something is stray");
    let orders = counted(orders, "interesting order");
    format!("state {state} has a held bit past the {orders}")
}

/// The sizes of a table and those of the query.
fn mismatch(query: &Query, query_name: &str, table: &[u8]) -> String {
    let table = Table::read(table).expect("a table of other sizes has the form");
    let tested = usize::from(table.tested);
    let sizes = sizes_text(table.starts.len(), tested, table.sets.into());
    let expected = query_sizes_text(query);
    format!("it has {sizes}, and {query_name} has {expected}")
}

/// A run of sets, in words.
fn run_text(run: &[u8]) -> String {
    let mut words = String::from("at the start");
    let mut rest = run;
    while let Some(&set) = rest.first() {
        let times = rest.iter().take_while(|&&taken| taken == set).count();
        words = match rest.len() == run.len() {
            true => format!("after s{set}"),
            false => format!("{words}, then s{set}"),
        };
        if times > 1 {
            words += &format!(" {times} times");
        }
        rest = &rest[times..];
    }
    words
}

#[test]
fn tables_of_every_kind_on_trial() {
    let mut comparison = Comparison::new(3, "tables_of_every_kind");
    for (shape, count) in [
        (Shape::SMALL, 80),
        (Shape::CHAINS, 80),
        (Shape::MIDDLE, 20),
        (Shape::FEW_SETS, 10),
        (Shape::ONE_START, 10),
    ] {
        for _ in 0..count {
            let query = query_with_table(&mut comparison.random, shape);
            comparison.compare_kinds(&query);
        }
    }
    for query in [samples::longest_table(), samples::own_column_per_set(7)] {
        comparison.compare_kinds(&query);
    }
    comparison.report("tables of every kind");
    assert!(comparison.has(&[0, 13], 500) && comparison.has(&[11, 12], 100));
    assert!(comparison.has(&[1, 2], 5) && comparison.half_descend());
    assert!(comparison.tried > 500 && comparison.outcomes[13] - comparison.tried > 5);
    let strays = [
        ") starts in no state",
        "produced order 3 starts in no state",
        " s0 leads to no state",
        " set 3 leads to no state",
        "has a held bit past the ",
    ];
    assert!(comparison.has_said(&strays, 1));
    let wrong = [
        ", at the start, it says",
        ", after s0, it says",
        ", and that",
    ];
    assert!(comparison.has_said(&wrong, 50));
}

#[test]
fn supplied_tables_of_the_trials() {
    let mut comparison = Comparison::new(4, "supplied_tables");
    let trials = trials::all();
    let mut tables = 0;
    for trial in &trials {
        let own = table_of(&trial.query);
        for other in trials.iter().filter(|other| !other.supplied.is_empty()) {
            let verified = comparison.compare(&trial.query, &own, &other.supplied);
            if other.name == trial.name {
                assert_eq!(Some(verified), trial.verified, "{}", trial.name);
                tables += 1;
            }
        }
    }
    comparison.report("supplied tables of the trials");
    assert!(tables >= 10 && comparison.has(&[0, 2, 4, 5, 8, 12, 13], 3));
}

#[test]
fn tables_for_queries_of_every_kind() {
    let mut comparison = Comparison::new(5, "queries_of_every_kind");
    for _ in 0..1000 {
        let random = &mut comparison.random;
        let query = samples::any_query(random);
        if is_taken_for_text(&query) {
            continue;
        }
        let own = table_of(&query);
        let table = samples::supplied_for_any(random, &query, &own);
        let _ = comparison.compare(&query, &own, &table);
    }
    comparison.report("tables for queries of every kind");
    assert!(comparison.has(&[0, 1, 2, 3, 4, 5, 6, 8, 11, 12, 13], 3));
    assert!(comparison.half_descend());
}

#[test]
fn every_byte_of_the_example_table_changed() {
    let mut comparison = Comparison::new(6, "every_byte");
    let example = trials::example();
    let own = table_of(&example.query);
    for table in samples::each_byte_changed(&example.table, (0..20).chain([128, 129, 255])) {
        let _ = comparison.compare(&example.query, &own, &table);
    }
    for length in 0..example.table.len() {
        let _ = comparison.compare(&example.query, &own, &example.table[..length]);
    }
    comparison.report("the example's table with a byte changed");
    assert!(comparison.has(&[0, 1, 2, 11, 12, 13], 0));
}

#[test]
fn tables_that_one_set_leads_through() {
    let mut comparison = Comparison::new(7, "one_set");
    let (query, [right, wrong]) = samples::longest_chain();
    let (query, own) = (query.write(), table_of(&query.write()));
    for (table, expected) in [(right, Ok(())), (wrong, Err(13))] {
        for _ in 0..10 {
            let renumbered = samples::renumbered(&mut comparison.random, &table);
            for table in [&table, &renumbered] {
                let verified = comparison.compare(&query, &own, &table.write());
                assert_eq!(verified, expected, "{table:?}");
            }
        }
    }
    comparison.report("tables that one set leads through");
    assert_eq!((comparison.tried, comparison.longest), (20, 127));
}
