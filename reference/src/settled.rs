//! Whether an order is held, by the closure test: from the columns that columns
//! settle, without deriving an ordering.
//!
//! Columns are settled by some columns when rows alike in these are alike in them:
//! the columns themselves, the right column of a fix whose left columns are all
//! settled, and a column equal to a settled one. Columns that equals join are a
//! class, and are settled together. So each column is replaced by the least one of
//! its class, and then there are only fixes left to follow.
//!
//! An order is held when its entries, but for those whose columns the entries before
//! settle, are met one after the other in the produced order, an entry of their class
//! and of their direction each. Entries of the produced order whose columns are settled
//! by what is met already are passed over, and no others. The direction of an entry
//! that is passed over counts for nothing.

use std::collections::BTreeSet;

use crate::query::{Dependency, Entry, Rule};

/// The dependencies in force, over classes of equal columns. A class goes by the
/// least of its columns.
#[derive(Clone, Debug)]
pub struct InForce {
    /// Per column, its class.
    class_of: Vec<u8>,
    /// Per fix, the classes of its left columns and that of its right one.
    fixes: Vec<(Vec<u8>, u8)>,
    /// The classes that need no column to be settled.
    constants: BTreeSet<u8>,
}

impl InForce {
    /// These dependencies, over so many columns.
    pub fn new<'d>(
        columns: u8,
        dependencies: impl IntoIterator<Item = &'d Dependency> + Clone,
    ) -> Self {
        let mut class_of: Vec<u8> = (0..columns).collect();
        for dependency in dependencies.clone() {
            if let Rule::Equal(one, other) = dependency.rule {
                join(&mut class_of, one, other);
            }
        }
        let class = |column: &u8| class_of[usize::from(*column)];
        let fixes = dependencies
            .into_iter()
            .filter_map(|dependency| match &dependency.rule {
                Rule::Fix { left, right } => Some((left.iter().map(class).collect(), class(right))),
                Rule::Equal(..) => None,
            });
        let mut in_force = Self {
            fixes: fixes.collect(),
            class_of,
            constants: BTreeSet::new(),
        };
        in_force.constants = in_force.closed(BTreeSet::new());
        in_force
    }

    /// Whether rows that stand in a produced order and obey these dependencies stand in
    /// this order too.
    pub fn holds(&self, produced: &[Entry], order: &[Entry]) -> bool {
        let mut settled = self.constants.clone();
        let mut produced = self.of_classes(produced);
        for entry in self.of_classes(order) {
            if settled.contains(&entry.column) {
                continue;
            }
            let met = produced.find(|entry| !settled.contains(&entry.column));
            if met != Some(entry) {
                return false;
            }
            settled.insert(entry.column);
            settled = self.closed(settled);
        }
        true
    }

    /// The columns that some columns settle.
    pub fn settled_by(&self, columns: &[u8]) -> BTreeSet<u8> {
        let classes = columns
            .iter()
            .map(|column| self.class_of[usize::from(*column)]);
        let settled = self.closed(classes.collect());
        let all = 0..self.class_of.len() as u8;
        let is_settled = |column: &u8| settled.contains(&self.class_of[usize::from(*column)]);
        all.filter(is_settled).collect()
    }

    /// The columns of a column's class: those that the equals in force join to it.
    pub fn class(&self, column: u8) -> BTreeSet<u8> {
        let class_of = |column: &u8| self.class_of[usize::from(*column)];
        let all = 0..self.class_of.len() as u8;
        all.filter(|other| class_of(other) == class_of(&column))
            .collect()
    }

    /// The entries of an order, each with its column's class in the column's stead.
    fn of_classes<'o>(&'o self, order: &'o [Entry]) -> impl Iterator<Item = Entry> + 'o {
        order.iter().map(|entry| Entry {
            column: self.class_of[usize::from(entry.column)],
            ..*entry
        })
    }

    /// Some classes, and those that they settle.
    fn closed(&self, mut settled: BTreeSet<u8>) -> BTreeSet<u8> {
        let mut waiting: Vec<&(Vec<u8>, u8)> = self.fixes.iter().collect();
        loop {
            let before = waiting.len();
            waiting.retain(|(left, right)| {
                let applies = left.iter().all(|class| settled.contains(class));
                if applies {
                    settled.insert(*right);
                }
                !applies
            });
            if waiting.len() == before {
                return settled;
            }
        }
    }
}

/// Makes one class of the classes of two columns.
fn join(class_of: &mut [u8], one: u8, other: u8) {
    let [one, other] = [one, other].map(|column| class_of[usize::from(column)]);
    let (least, gone) = (one.min(other), one.max(other));
    for class in class_of {
        if *class == gone {
            *class = least;
        }
    }
}
