//! Two rows that show why an order is not held: rows of 0 and 1 that stand in a
//! produced order, obey the dependencies of a choice of sets and do not stand in the
//! order looked for.
//!
//! Of few columns all pairs of rows are tried. Of more columns there are too many;
//! there two rows are made from where the closure test stops. Which two are given is
//! a program's own choice, so [`check`] takes any two that show it.

use crate::buffers;
use crate::listing;
use crate::query::{columns_of, Dependency, Order, Query};
use crate::refusal;
use crate::rows::{obey_all, stand_in, Row};
use crate::settled::InForce;

/// The most columns of which all pairs of rows are tried.
pub const FEW_COLUMNS: u8 = 6;

/// What is asked of a query.
#[derive(Clone, Copy, Debug, Default, PartialEq, Eq)]
pub struct Asked {
    /// The produced order that the rows stand in.
    pub produced: u8,
    /// The choice of sets in force, bit i for set i.
    pub sets: u8,
    /// The interesting order looked for.
    pub order: u8,
}

impl From<[u8; 3]> for Asked {
    fn from([produced, sets, order]: [u8; 3]) -> Self {
        Self {
            produced,
            sets,
            order,
        }
    }
}

/// A question: what is asked, read from the query.
#[derive(Clone, Debug, PartialEq, Eq)]
pub struct Question {
    columns: u8,
    in_force: Vec<Dependency>,
    produced: Order,
    order: Order,
}

impl Question {
    /// Reads what is asked of a query's bytes. Refuses with 1 to 6 as reading the
    /// query does, then with 10 for a produced order, an interesting order or a set
    /// that is not in the query.
    pub fn read(query: &[u8], asked: Asked) -> Result<Self, u8> {
        let query = Query::read(query)?;
        let choice = usize::from(asked.sets);
        let produced = query.produced.get(usize::from(asked.produced));
        let order = query.interesting().nth(usize::from(asked.order));
        let (Some(produced), Some(order), 0) = (produced, order, choice >> query.sets) else {
            return Err(refusal::HANDLE);
        };
        let chosen = query.chosen(choice);
        Ok(Self {
            columns: query.columns,
            in_force: query.dependencies_of(&chosen).cloned().collect(),
            produced: produced.clone(),
            order: order.clone(),
        })
    }

    /// How many bytes two rows take.
    pub fn bytes(&self) -> usize {
        2 * usize::from(self.columns)
    }

    /// Whether the order is held, by the closure test.
    pub fn is_held(&self) -> bool {
        self.closure_test().holds(&self.produced, &self.order)
    }

    /// Two rows that show that the order is not held, if there are two.
    pub fn two_rows(&self) -> Option<[Row; 2]> {
        if self.columns <= FEW_COLUMNS {
            self.searched()
        } else {
            self.made()
        }
    }

    /// The first two rows that show it, of all pairs of rows of 0 and 1.
    pub fn searched(&self) -> Option<[Row; 2]> {
        let columns = usize::from(self.columns);
        let row = |bits: usize| (0..columns).map(|c| (bits >> c & 1) as i64).collect();
        (0..1 << (2 * columns))
            .map(|bits: usize| [bits, bits >> columns].map(row))
            .find(|rows| self.is_shown_by(rows) == Ok(()))
    }

    /// Two rows made from where the closure test stops: behind the longest beginning
    /// of the order that is held, unless that is the whole order. Both rows are 0 in
    /// the columns that this beginning settles. In the class of the entry behind it the
    /// second row comes first by that entry's direction. In all other columns the first
    /// row does, by that of the produced order's first entry that is not settled, or
    /// ascending where there is none.
    pub fn made(&self) -> Option<[Row; 2]> {
        let test = self.closure_test();
        let beginnings = (0..=self.order.len()).rev();
        let mut held = beginnings.map(|length| &self.order[..length]);
        let held = held.find(|beginning| test.holds(&self.produced, beginning))?;
        let behind = self.order.get(held.len())?;
        let settled = test.settled_by(&columns_of(held));
        let class = test.class(behind.column);
        let mut produced = self.produced.iter();
        let left = produced.find(|entry| !settled.contains(&entry.column));
        let elsewhere_descends = left.is_some_and(|entry| entry.descends);
        let row = |is_first: bool| {
            let value = |column: u8| match (settled.contains(&column), class.contains(&column)) {
                (true, _) => 0,
                (false, true) => i64::from(is_first != behind.descends),
                (false, false) => i64::from(is_first == elsewhere_descends),
            };
            (0..self.columns).map(value).collect()
        };
        Some([row(true), row(false)])
    }

    /// Whether two rows show that the order is not held, or what is wrong with them.
    pub fn is_shown_by(&self, rows: &[Row; 2]) -> Result<(), Wrong> {
        if rows.iter().flatten().any(|value| ![0, 1].contains(value)) {
            Err(Wrong::Value)
        } else if !stand_in(rows, &self.produced) {
            Err(Wrong::Standing)
        } else if !obey_all(rows, &self.in_force) {
            Err(Wrong::Obeying)
        } else if stand_in(rows, &self.order) {
            Err(Wrong::Breaking)
        } else {
            Ok(())
        }
    }

    fn closure_test(&self) -> InForce {
        InForce::new(self.columns, &self.in_force)
    }
}

/// What is wrong with an answer.
#[derive(Clone, Copy, Debug, PartialEq, Eq)]
pub enum Wrong {
    /// It is another refusal, or it is two rows or none where the other has to come.
    Answer,
    /// A byte is changed that is not one of two rows that are given.
    Byte,
    /// A value is neither 0 nor 1.
    Value,
    /// The rows do not stand in the produced order.
    Standing,
    /// The rows do not obey a dependency in force.
    Obeying,
    /// The rows stand in the order looked for.
    Breaking,
}

/// Checks an answer to what is asked of a query: whether two rows are given, or the
/// refusal. Then what was in the buffer before, and what is in it after.
pub fn check(
    query: &[u8],
    asked: Asked,
    answer: Result<bool, u8>,
    before: &[u8],
    after: &[u8],
) -> Result<(), Wrong> {
    let question = Question::read(query, asked);
    if answer != buffers::counterexample(&question, &mut before.to_vec()) {
        return Err(Wrong::Answer);
    }
    match question {
        Ok(question) if answer == Ok(true) => {
            let (rows, rest) = after.split_at(question.bytes());
            let (first, second) = rows.split_at(rows.len() / 2);
            let row = |bytes: &[u8]| bytes.iter().copied().map(i64::from).collect();
            match rest == &before[rows.len()..] {
                true => question.is_shown_by(&[first, second].map(row)),
                false => Err(Wrong::Byte),
            }
        }
        _ if after == before => Ok(()),
        _ => Err(Wrong::Byte),
    }
}

/// Checks what a program prints to what is asked of a query: two rows, a line each of
/// values with one space between, or the line `none`, or that of the refusal.
pub fn check_printed(query: &[u8], asked: Asked, text: &str) -> Result<(), Wrong> {
    let line = match Question::read(query, asked) {
        Err(refusal) => listing::printed(&Err(refusal)),
        Ok(question) => match question.two_rows() {
            None => "none\n".to_owned(),
            Some(_) => {
                let rows = printed_rows(text, question.columns).ok_or(Wrong::Answer)?;
                return question.is_shown_by(&rows);
            }
        },
    };
    if text == line {
        Ok(())
    } else {
        Err(Wrong::Answer)
    }
}

/// Two rows of so many columns, read from their lines.
fn printed_rows(text: &str, columns: u8) -> Option<[Row; 2]> {
    let value = |word: &str| match word {
        "0" => Some(0),
        "1" => Some(1),
        _ => None,
    };
    let row = |line: &str| line.split(' ').map(value).collect();
    let lines = text.strip_suffix('\n')?.split('\n');
    let rows: Vec<Row> = lines.map(row).collect::<Option<_>>()?;
    let rows: [Row; 2] = rows.try_into().ok()?;
    let wide = |row: &Row| row.len() == usize::from(columns);
    rows.iter().all(wide).then_some(rows)
}
