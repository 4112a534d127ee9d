//! The plain model's answers, and those of a table beside them.

use std::collections::{BTreeMap, HashSet};

use reference::model::Model;
use reference::table::Table;
use reference::Query;

use crate::words::order_text;

/// The most runs that are tried one by one for a wrong answer.
const MOST_RUNS: usize = 20_000;

/// More sets than a shortest run to a wrong answer has, as two tables have no more states.
const MOST_TAKEN: u32 = 256;

/// The interesting orders that the plain model says are held after an entry and some
/// sets, bit i for order i.
pub fn word_after(query: &Query, produced: usize, sets: &[u8]) -> u16 {
    let mut model = Model::new(query);
    model.enter(produced as u8).expect("the order is produced");
    for &set in sets {
        model.take(set).expect("the set is in the query");
    }
    let orders = 0..query.interesting().count();
    let held = orders.filter(|&order| model.ask(order as u8) == Ok(true));
    held.fold(0, |word, order| word | 1 << order)
}

/// The state of a table that a run of sets leads to from a produced order.
pub fn state_after(table: &Table, produced: usize, run: &[u8]) -> usize {
    let start = table.starts[produced];
    run.iter().fold(start, |state, &set| {
        table.states[state].successors[usize::from(set)]
    })
}

/// The answers of a supplied table beside those of the plain model.
pub struct Answers<'q> {
    query: &'q Query,
    table: &'q Table,
    /// Of produced orders and choices of sets, the words of the model.
    words: BTreeMap<(usize, u32), u16>,
}

impl<'q> Answers<'q> {
    /// The answers of a table that has the form and the query's sizes.
    pub fn new(query: &'q Query, table: &'q Table) -> Self {
        Self {
            query,
            table,
            words: BTreeMap::new(),
        }
    }

    /// The held words after an entry and a run of sets: the model's and the table's.
    fn words(&mut self, produced: usize, run: &[u8]) -> [u16; 2] {
        let word = self.words.entry((produced, choice(run)));
        let word = *word.or_insert_with(|| word_after(self.query, produced, run));
        let state = state_after(self.table, produced, run);
        [word, self.table.states[state].held]
    }

    /// What is wrong with the answers after an entry and a run of sets.
    pub fn wrong(&mut self, produced: usize, run: &[u8]) -> Vec<String> {
        let [right, said] = self.words(produced, run);
        let orders = self.query.interesting().enumerate();
        let wrong = orders.filter(|(number, _)| (right ^ said) >> number & 1 == 1);
        let wrong = wrong.map(|(number, order)| {
            let order = order_text(order);
            match said >> number & 1 {
                1 => format!("that {order} is held, which it is not"),
                _ => format!("that {order} is not held, which it is"),
            }
        });
        wrong.collect()
    }

    /// The first wrong answer: that of a shortest run, of equally short ones the one with
    /// the smaller set numbers, and then the one from the first produced order. What comes
    /// behind a run depends on the state that it leads to and on the sets that it takes,
    /// so of runs alike in both the first one is enough.
    pub fn first_wrong(&mut self) -> Option<(usize, Vec<u8>)> {
        let mut runs: Vec<(Vec<u8>, usize)> = (0..self.query.produced.len())
            .map(|produced| (Vec::new(), produced))
            .collect();
        let mut seen = HashSet::new();
        while !runs.is_empty() {
            runs.sort();
            runs.retain(|(run, produced)| {
                let state = state_after(self.table, *produced, run);
                seen.insert((*produced, state, choice(run)))
            });
            for (run, produced) in &runs {
                let [right, said] = self.words(*produced, run);
                if right != said {
                    return Some((*produced, run.clone()));
                }
            }
            let sets = 0..self.query.sets;
            let longer = |(run, produced): (Vec<u8>, usize)| {
                let sets = sets.clone();
                sets.map(move |set| ([&run[..], &[set]].concat(), produced))
            };
            runs = runs.into_iter().flat_map(longer).collect();
        }
        None
    }

    /// The first wrong answer by trying all runs, one after the other; nothing where they
    /// are too many.
    pub fn first_wrong_of_all_runs(&mut self) -> Option<(usize, Vec<u8>)> {
        let sets = usize::from(self.query.sets);
        let mut tried = 0;
        for length in 0..MOST_TAKEN {
            let runs = sets.pow(length);
            tried += runs;
            if tried > MOST_RUNS {
                return None;
            }
            for number in 0..runs {
                let places = (0..length).rev();
                let run = places.map(|place| (number / sets.pow(place) % sets) as u8);
                let run: Vec<u8> = run.collect();
                for produced in 0..self.query.produced.len() {
                    let [right, said] = self.words(produced, &run);
                    if right != said {
                        return Some((produced, run));
                    }
                }
            }
        }
        None
    }
}

/// The sets that a run takes, bit i for set i.
fn choice(run: &[u8]) -> u32 {
    run.iter().fold(0, |choice, set| choice | 1 << set)
}
