//! Queries with much to check, to settle and to merge.

use reference::query::{order, Dependency, Order, Query, DESCENDING};

/// The most produced orders.
pub const MOST_PRODUCED: usize = 8;
/// The most columns.
const MOST_COLUMNS: u8 = 12;
/// The most dependencies.
const MOST_DEPENDENCIES: u8 = 16;

/// Produced orders, tested orders and sets: all that a merge sees of a query.
#[derive(Clone, Copy, Debug, PartialEq, Eq)]
pub struct Sizes {
    /// Produced orders.
    pub produced: u8,
    /// Tested orders.
    pub tested: u8,
    /// Sets.
    pub sets: u8,
}

impl Sizes {
    /// The most of each.
    pub const LARGEST: Self = Self {
        produced: MOST_PRODUCED as u8,
        tested: 8,
        sets: 8,
    };

    /// How many pairs there are.
    pub fn pairs(self) -> usize {
        usize::from(self.produced) << self.sets
    }

    /// A query of these sizes with long checks: orders of four columns that are alike in
    /// the first three, and the most fixes with three left columns.
    pub fn long_checks(self) -> Query {
        let fixes = (0..MOST_DEPENDENCIES).filter(|_| self.sets > 0);
        let fixes = fixes.map(|i| {
            let [left @ .., right] = [0, 1, 2, 3].map(|place| (i + place) % MOST_COLUMNS);
            Dependency::fix(i % self.sets, &left, right)
        });
        self.with(fixes.collect())
    }

    /// A query of these sizes with these dependencies, and with orders of four columns
    /// that are alike in the first three.
    fn with(self, dependencies: Vec<Dependency>) -> Query {
        let mut orders: Vec<Order> = (0..self.produced + self.tested)
            .map(|i| match i {
                0..9 => order(&[0, 1, 2, 3 + i]),
                _ => order(&[0, 1, 2, i - 6 + DESCENDING]),
            })
            .collect();
        let tested = orders.split_off(self.produced.into());
        Query {
            columns: MOST_COLUMNS,
            produced: orders,
            tested,
            sets: self.sets,
            dependencies,
        }
    }
}

/// A query of the largest sizes that is slow to settle: a chain of equals joins all
/// columns, and lies so that a closure from the first column gets one column further in
/// each pass over the dependencies. The equal of the first two columns comes again until
/// there are the most dependencies.
pub fn slow_to_settle() -> Query {
    let sizes = Sizes::LARGEST;
    let links = (0..MOST_COLUMNS - 1).rev().chain([0; 5]);
    let equals = (0..).zip(links);
    let equals = equals.map(|(i, link)| Dependency::equal(i % sizes.sets, link, link + 1));
    sizes.with(equals.collect())
}
