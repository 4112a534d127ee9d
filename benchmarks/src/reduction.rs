//! Asking without a table, by reduction, as document 000 sketches it in section
//! 3: a plan node has its produced order and the dependencies of the sets taken.
//! To ask for an order, both orders are reduced: every column that a dependency
//! settles from columns before it is removed, whatever its direction. The order
//! asked for is held when its reduction is a prefix of the other's, the directions
//! of its entries included.
//!
//! Columns that an equal joins stand for one another, so the smallest of them
//! takes their place. The dependencies are tried in turn until none applies.
//! This is not the answer of a table: what it finds depends on the sequence in
//! which it tries the dependencies, and so on that in which sets are taken.

use reference::query::{column_set, ColumnSet, Order};
use reference::{Entry, Query, Rule};

/// A fix as column sets.
#[derive(Clone, Copy)]
struct Fix {
    left: ColumnSet,
    right: u8,
}

/// A plan node: its produced order, and what the sets taken bring.
#[derive(Clone)]
pub struct PlanNode {
    order: Order,
    fixes: Vec<Fix>,
    standing_for: [u8; 12],
}

impl PlanNode {
    /// A plan node that makes a produced order, before any set.
    pub fn new(order: &Order) -> Self {
        Self {
            order: order.clone(),
            fixes: Vec::new(),
            standing_for: std::array::from_fn(|column| column as u8),
        }
    }

    /// Takes a set: its dependencies join those of the node.
    pub fn take(&mut self, query: &Query, set: u8) {
        for dependency in query.dependencies_of(&[set]) {
            match &dependency.rule {
                Rule::Fix { left, right } => self.fixes.push(Fix {
                    left: column_set(left),
                    right: *right,
                }),
                Rule::Equal(one, other) => {
                    let pair = [one, other].map(|&column| self.standing_for[usize::from(column)]);
                    let (kept, gone) = (pair[0].min(pair[1]), pair[0].max(pair[1]));
                    for column in &mut self.standing_for {
                        if *column == gone {
                            *column = kept;
                        }
                    }
                }
            }
        }
        for fix in &mut self.fixes {
            fix.right = self.standing_for[usize::from(fix.right)];
            let left = (0..12).filter(|column| fix.left >> column & 1 == 1);
            fix.left = left.fold(0, |columns, column| {
                columns | 1 << self.standing_for[usize::from(column as u8)]
            });
        }
    }

    /// Whether an order is held, by reduction.
    pub fn ask(&self, order: &[Entry]) -> bool {
        let (own, own_length) = self.reduced(&self.order);
        let (asked, asked_length) = self.reduced(order);
        asked_length <= own_length && own[..asked_length] == asked[..asked_length]
    }

    /// The reduction of an order of at most four entries: its entries and how
    /// many they are.
    fn reduced(&self, order: &[Entry]) -> ([Entry; 4], usize) {
        let mut entries = [Entry::from(0); 4];
        let mut length = 0;
        for entry in order {
            let column = self.standing_for[usize::from(entry.column)];
            if place_of(&entries[..length], column).is_none() {
                entries[length] = Entry { column, ..*entry };
                length += 1;
            }
        }
        while let Some(place) = self.settled(&entries[..length]) {
            entries.copy_within(place + 1..length, place);
            length -= 1;
        }
        (entries, length)
    }

    /// The place of an entry whose column a dependency settles from columns before
    /// it.
    fn settled(&self, entries: &[Entry]) -> Option<usize> {
        self.fixes.iter().find_map(|fix| {
            let place = place_of(entries, fix.right)?;
            let before = entries[..place].iter();
            let before = before.fold(0, |columns, entry| columns | 1 << entry.column);
            (fix.left & !before == 0).then_some(place)
        })
    }
}

/// Where a column stands, in whichever direction.
fn place_of(entries: &[Entry], column: u8) -> Option<usize> {
    entries.iter().position(|entry| entry.column == column)
}
