//! A query's table in words and as a graph.

use std::collections::{BTreeMap, HashSet};

use reference::builder::table_of;
use reference::random::Random;
use reference::samples::{self, Shape};
use reference::table::Table;
use reference::{trials, Query};

use crate::answers::{state_after, word_after};
use crate::graph::Graph;
use crate::refused::check_query_refused;
use crate::words::{counted, listed, order_text, orders_in, query_sizes_text, set_names};
use crate::{query_with_table, tool, STANDARD_INPUT};

/// What is expected of a query's table: its starts and successors, and the held orders of
/// its states by the plain model.
struct Expected {
    query: Query,
    table: Table,
    /// From each produced order the states that it leads to, each with its shortest run.
    runs: Vec<Vec<(usize, Vec<u8>)>>,
    /// Of each state, bit i for interesting order i.
    held: BTreeMap<usize, u16>,
}

impl Expected {
    /// What is expected of a query, or its refusal. Taking sets in another sequence or
    /// again changes nothing, so a shortest run is a choice of sets.
    fn new(bytes: &[u8]) -> Result<Self, u8> {
        let table = table_of(bytes)?;
        let query = Query::read(bytes)?;
        let mut choices: Vec<Vec<u8>> = (0..1 << query.sets).map(|c| query.chosen(c)).collect();
        choices.sort_by_key(|sets| (sets.len(), sets.clone()));

        let (mut runs, mut held) = (Vec::new(), BTreeMap::new());
        for produced in 0..query.produced.len() {
            let mut seen = HashSet::new();
            let choices = choices.iter().cloned();
            let led_to = choices.map(|run| (state_after(&table, produced, &run), run));
            let shortest: Vec<(usize, Vec<u8>)> =
                led_to.filter(|(state, _)| seen.insert(*state)).collect();
            for (state, run) in &shortest {
                let word = word_after(&query, produced, run);
                assert_eq!(*held.entry(*state).or_insert(word), word, "{query:?}");
            }
            runs.push(shortest);
        }
        Ok(Self {
            query,
            table,
            runs,
            held,
        })
    }

    /// The table in words.
    fn explained(&self) -> String {
        let query = &self.query;
        let states = counted(self.table.states.len(), "state");
        let mut text = format!("The table has {states} for {}.\n", query_sizes_text(query));
        for (produced, runs) in query.produced.iter().zip(&self.runs) {
            text += &format!("\nEntered by {}:\n", order_text(produced));
            for (state, run) in runs {
                let held = listed(orders_in(query, self.held[state]), "and");
                text += &format!("  state {state}, {}, holds {held}.\n", run_text(run));
            }
        }
        text += "\n";
        if query.sets == 0 {
            text += "There are no sets.\n";
        } else {
            let states = (0..self.table.states.len()).map(|state| self.explained_state(state));
            text.extend(states);
        }
        let ever = self.held.values().fold(0, |ever, word| ever | word);
        let never = orders_in(query, !ever);
        text += &match never.len() {
            0 => "\nEvery order is held after some run.\n".to_owned(),
            1 => format!("\n{} is never held.\n", listed(never, "and")),
            _ => format!("\n{} are never held.\n", listed(never, "and")),
        };
        text
    }

    /// What each set does in a state, in words.
    fn explained_state(&self, state: usize) -> String {
        let mut text = format!("In state {state}:\n");
        let mut kept = Vec::new();
        for (set, &next) in (0..).zip(&self.table.states[state].successors) {
            if next == state {
                kept.push(set);
                continue;
            }
            let added = self.held[&next] & !self.held[&state];
            let added = match listed(orders_in(&self.query, added), "and") {
                none if none.is_empty() => "no order".to_owned(),
                added => added,
            };
            text += &format!("  s{set} adds {added} and leads to state {next}.\n");
        }
        text += &match kept[..] {
            [] => String::new(),
            [set] => format!("  s{set} changes nothing.\n"),
            _ => format!("  {} change nothing.\n", listed(set_names(kept), "and")),
        };
        text
    }

    /// The table as a graph.
    fn graph(&self) -> Graph {
        let mut graph = Graph::default();
        for (produced, order) in self.query.produced.iter().enumerate() {
            graph.produced.insert(produced, order_text(order));
            graph.starts.insert(produced, self.table.starts[produced]);
        }
        for (state, row) in self.table.states.iter().enumerate() {
            let held = orders_in(&self.query, self.held[&state]);
            graph.states.insert(state, held);
            for (set, &next) in row.successors.iter().enumerate() {
                let arrow = graph.arrows.entry((state, next)).or_default();
                arrow.sets.push(format!("s{set}"));
                arrow.gray = next == state;
            }
        }
        graph
    }
}

/// A run of sets, in words.
fn run_text(run: &[u8]) -> String {
    match run.is_empty() {
        true => "at the start".to_owned(),
        false => format!("after {}", listed(set_names(run.iter().copied()), "and")),
    }
}

/// The trials' queries, random ones, so many of small ones, and ones at the limits.
fn queries(random: &mut Random, small: usize) -> Vec<Vec<u8>> {
    let trials = trials::all().into_iter().map(|trial| trial.query);
    let mut queries: Vec<Vec<u8>> = trials.collect();
    for (shape, count) in [
        (Shape::SMALL, small),
        (Shape::CHAINS, small),
        (Shape::MIDDLE, small / 4),
        (Shape::FEW_SETS, small / 4),
        (Shape::ONE_START, small / 4),
        (Shape::FULL, small / 4),
        (Shape::LARGEST, 2),
    ] {
        queries.extend((0..count).map(|_| query_with_table(random, shape).write()));
    }
    queries.extend((0..8).map(|_| samples::query_of_many_rows(random).write()));
    let at_the_limits = [
        samples::longest_table(),
        samples::most_orders(),
        samples::own_column_per_set(7),
        samples::own_column_per_set(8),
        samples::chain_of_equals(7),
        samples::joined_starts(8),
        samples::constants(12),
    ];
    queries.extend(at_the_limits.map(|query| query.write()));
    queries
}

/// What the tool prints of the table of each query, with what is expected of it, where
/// there is one. The other queries have to be refused, and are counted.
fn printed(command: &str, queries: &[Vec<u8>]) -> (Vec<(String, Expected)>, usize) {
    let (mut printed, mut refused) = (Vec::new(), 0);
    for query in queries {
        let given = tool(&[command, "-"], query);
        match Expected::new(query) {
            Ok(expected) => {
                let given = given.unwrap_or_else(|failure| panic!("{failure:?} {query:?}"));
                printed.push((given, expected));
            }
            Err(refusal) => {
                check_query_refused(STANDARD_INPUT, query, refusal, &given);
                refused += 1;
            }
        }
    }
    (printed, refused)
}

/// How many of the queries have descending columns.
fn descending(printed: &[(String, Expected)]) -> usize {
    let queries = printed.iter().map(|(_, expected)| &expected.query);
    queries.filter(|query| query.descends()).count()
}

#[test]
fn tables_in_words() {
    let (printed, refused) = printed("explain", &queries(&mut Random::new(1), 100));
    let mut runs = 0;
    for (given, expected) in &printed {
        assert_eq!(*given, expected.explained(), "{:?}", expected.query);
        runs += expected.runs.iter().flatten().count();
    }
    let (tables, descending) = (printed.len(), descending(&printed));
    println!(
        "{tables} tables in words with {runs} runs, {descending} of them with descending columns, \
         {refused} queries refused"
    );
    assert!(tables > 300 && runs > 2000 && refused > 5);
    assert!(2 * descending >= tables);
    for words in [
        ", at the start, holds ",
        ", after s0, holds ",
        ", after s0 and s1, holds ",
        " adds no order and leads to ",
        " changes nothing.\n",
        " change nothing.\n",
        "\nThere are no sets.\n",
        " is never held.\n",
        " are never held.\n",
        "\nEvery order is held after some run.\n",
    ] {
        let said = printed.iter().filter(|(given, _)| given.contains(words));
        assert!(said.count() > 20, "{words}");
    }
}

#[test]
fn tables_as_graphs() {
    let (printed, refused) = printed("draw", &queries(&mut Random::new(2), 60));
    let mut taken = [0; 2];
    for (given, expected) in &printed {
        let graph = Graph::read(given);
        let query = &expected.query;
        assert_eq!(graph, Some(expected.graph()), "{given} {query:?}");
        for arrow in graph.iter().flat_map(|graph| graph.arrows.values()) {
            taken[usize::from(arrow.gray)] += arrow.sets.len();
        }
    }
    let (tables, descending, [changing, gray]) = (printed.len(), descending(&printed), taken);
    println!(
        "{tables} tables as graphs, with {changing} sets on arrows and {gray} on gray ones, \
         {descending} of them with descending columns, {refused} queries refused"
    );
    assert!(tables > 200 && changing > 1000 && gray > 1000 && refused > 5);
    assert!(2 * descending >= tables);
}
