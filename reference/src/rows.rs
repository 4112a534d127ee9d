//! What orders and dependencies mean for rows.

use crate::query::{Dependency, Entry, Rule};

/// A row: one whole number per column.
pub type Row = Vec<i64>;

/// Whether rows stand in an order: no row compares below an earlier one, the
/// order's columns taken in turn and each in its direction.
pub fn stand_in(rows: &[Row], order: &[Entry]) -> bool {
    rows.iter().enumerate().all(|(place, later)| {
        rows[..place]
            .iter()
            .all(|earlier| sort_key(later, order) >= sort_key(earlier, order))
    })
}

/// Whether rows obey a rule: for a fix, any two rows alike in all its left
/// columns are alike in the right one; for an equal, each row has one value in
/// both columns.
pub fn obey(rows: &[Row], rule: &Rule) -> bool {
    match rule {
        Rule::Fix { left, right } => rows.iter().enumerate().all(|(place, one)| {
            rows[..place]
                .iter()
                .all(|other| !alike(one, other, left) || alike(one, other, &[*right]))
        }),
        Rule::Equal(one, other) => rows
            .iter()
            .all(|row| row[usize::from(*one)] == row[usize::from(*other)]),
    }
}

/// Whether rows obey all of some dependencies.
pub fn obey_all<'d>(rows: &[Row], dependencies: impl IntoIterator<Item = &'d Dependency>) -> bool {
    let mut dependencies = dependencies.into_iter();
    dependencies.all(|dependency| obey(rows, &dependency.rule))
}

/// A row's values in an order's columns, which compare as rows do in the order. Where
/// one descends, its bits are turned over, and with them the order of whole numbers.
pub fn sort_key(row: &Row, order: &[Entry]) -> Vec<i64> {
    let keys = order.iter().map(|entry| {
        let value = row[usize::from(entry.column)];
        match entry.descends {
            true => !value,
            false => value,
        }
    });
    keys.collect()
}

/// Whether two rows are alike in all of some columns.
pub fn alike(one: &Row, other: &Row, columns: &[u8]) -> bool {
    columns
        .iter()
        .all(|&column| one[usize::from(column)] == other[usize::from(column)])
}
