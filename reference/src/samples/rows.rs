//! Random rows.

use crate::query::{Entry, Query, Rule};
use crate::random::Random;
use crate::rows::{alike, obey, sort_key, Row};

/// Random rows that stand in an order and obey the dependencies of some sets.
/// Rows that can't be made to obey are left out, so there may be fewer.
pub fn rows(
    random: &mut Random,
    query: &Query,
    order: &[Entry],
    sets: &[u8],
    count: usize,
) -> Vec<Row> {
    let rules: Vec<&Rule> = query
        .dependencies_of(sets)
        .map(|dependency| &dependency.rule)
        .collect();
    let mut rows: Vec<Row> = Vec::new();
    for _ in 0..count {
        let mut row: Row = (0..query.columns)
            .map(|_| random.below(4) as i64 - 1)
            .collect();
        for _ in 0..=rules.len() {
            for rule in &rules {
                amend(&mut row, rule, &rows);
            }
        }
        rows.push(row);
        if !rules.iter().all(|rule| obey(&rows, rule)) {
            rows.pop();
        }
    }
    random.shuffle(&mut rows);
    rows.sort_by_key(|row| sort_key(row, order));
    rows
}

/// Changes one value of a row so that it obeys a rule next to earlier rows.
fn amend(row: &mut Row, rule: &Rule, earlier: &[Row]) {
    match rule {
        Rule::Fix { left, right } => {
            let right = usize::from(*right);
            if let Some(other) = earlier.iter().find(|other| alike(row, other, left)) {
                row[right] = other[right];
            }
        }
        Rule::Equal(one, other) => row[usize::from(*other)] = row[usize::from(*one)],
    }
}
