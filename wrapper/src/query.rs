//! A query's items as types, as the proved library reads them.

use std::ops::Deref;

use crate::raw;
use crate::refusal::{granted, item, Refusal};
use crate::{OrderHandle, SetHandle};

/// The most entries of an order, and the most columns of a dependency.
const MOST_LISTED: usize = 4;
/// The kind of an equal; smaller kinds are fixes with so many left columns.
const EQUAL_KIND: u8 = 4;
/// What is added to a column in an order's bytes where it is descending.
pub const DESCENDING: u8 = 128;

/// Which way a column of an order compares.
#[derive(Clone, Copy, Debug, Default, PartialEq, Eq, Hash)]
pub enum Direction {
    /// The smaller value comes first.
    #[default]
    Ascending,
    /// The larger value comes first.
    Descending,
}

/// An entry of an order: a column with a direction.
#[derive(Clone, Copy, Debug, Default, PartialEq, Eq, Hash)]
pub struct Entry {
    /// The column.
    pub column: u8,
    /// Which way it compares.
    pub direction: Direction,
}

impl Entry {
    /// The entry that a byte of an order is: its column, or [`DESCENDING`] and its
    /// column.
    fn of(byte: u8) -> Self {
        match byte.checked_sub(DESCENDING) {
            Some(column) => Self {
                column,
                direction: Direction::Descending,
            },
            None => Self {
                column: byte,
                direction: Direction::Ascending,
            },
        }
    }
}

/// Up to four entries or columns.
#[derive(Clone, Copy, Debug, PartialEq, Eq)]
pub struct Listed<T> {
    listed: [T; MOST_LISTED],
    count: u8,
}

/// An order: its entries, the most significant first.
pub type Order = Listed<Entry>;
/// The left columns of a fix.
pub type Columns = Listed<u8>;

impl<T: Copy + Default> Listed<T> {
    /// The first ones of four. In place of the others is the default, so that equal
    /// lists are equal.
    fn first(mut listed: [T; MOST_LISTED], count: u8) -> Self {
        listed[count.into()..].fill(T::default());
        Self { listed, count }
    }
}

impl<T> Deref for Listed<T> {
    type Target = [T];

    fn deref(&self) -> &[T] {
        &self.listed[..self.count.into()]
    }
}

/// What a dependency says about rows.
#[derive(Clone, Copy, Debug, PartialEq, Eq)]
pub enum Rule {
    /// Rows alike in all left columns are alike in the right one. Without left columns
    /// the right one is a constant.
    Fix {
        /// The 0 to 3 left columns.
        left: Columns,
        /// The right column.
        right: u8,
    },
    /// Each row has one value in both columns.
    Equal(u8, u8),
}

/// A dependency, and the set that brings it.
#[derive(Clone, Copy, Debug, PartialEq, Eq)]
pub struct Dependency {
    /// The set.
    pub set: SetHandle,
    /// What the dependency says.
    pub rule: Rule,
}

/// A query's bytes that pass the checks 1 to 6. It may still be refused with
/// [`Refusal::States`] when its table is built.
///
/// ```
/// use order_tables::{Direction, OrderHandle, Query, DESCENDING};
///
/// // Two columns, time and axis, and one produced order, (time desc, axis).
/// let bytes = [2, 1, 0, 0, 0, 2, DESCENDING, 1, 255, 255];
/// let order = Query::new(&bytes)?.order(OrderHandle(0))?;
/// assert_eq!(order.len(), 2);
/// assert_eq!((order[0].column, order[0].direction), (0, Direction::Descending));
/// assert_eq!((order[1].column, order[1].direction), (1, Direction::Ascending));
/// # Ok::<(), order_tables::Refusal>(())
/// ```
#[derive(Clone, Copy, Debug, PartialEq, Eq)]
pub struct Query<'a> {
    bytes: &'a [u8],
}

impl<'a> Query<'a> {
    /// The query that some bytes are, or which of the checks 1 to 6 refuses them.
    pub fn new(bytes: &'a [u8]) -> Result<Self, Refusal> {
        granted(raw::query_check(bytes)).map(|()| Self { bytes })
    }

    /// How many columns there are.
    pub fn columns(self) -> u8 {
        self.bytes[0]
    }

    /// The orders that an operator can make.
    pub fn produced(self) -> impl Iterator<Item = Order> + 'a {
        self.interesting(0, self.bytes[1])
    }

    /// The orders that are only looked for.
    pub fn tested(self) -> impl Iterator<Item = Order> + 'a {
        self.interesting(self.bytes[1], self.bytes[2])
    }

    /// How many sets there are, empty ones included.
    pub fn sets(self) -> u8 {
        self.bytes[3]
    }

    /// The dependencies of all sets.
    pub fn dependencies(self) -> impl Iterator<Item = Dependency> + 'a {
        // None of them is refused, since the query passes the checks 1 to 6.
        (0..self.bytes[4]).flat_map(move |i| self.dependency(i))
    }

    /// An interesting order, or [`Refusal::Handle`] where the query has none of this
    /// number.
    pub fn order(self, order: OrderHandle) -> Result<Order, Refusal> {
        let [length, a, b, c, d, _] = item(raw::query_order(self.bytes, order.0))?;
        Ok(Order::first([a, b, c, d].map(Entry::of), length))
    }

    /// Dependency i, counted from 0, or [`Refusal::Handle`] where the query has none of
    /// this number.
    pub fn dependency(self, i: u8) -> Result<Dependency, Refusal> {
        let [set, kind, a, b, c, d] = item(raw::query_dependency(self.bytes, i))?;
        let columns = [a, b, c, d];
        let rule = match kind {
            EQUAL_KIND => Rule::Equal(a, b),
            lefts => Rule::Fix {
                left: Columns::first(columns, lefts),
                right: columns[usize::from(lefts)],
            },
        };
        let set = SetHandle(set);
        Ok(Dependency { set, rule })
    }

    /// So many interesting orders from the first on. None of them is refused, since the
    /// query passes the checks 1 to 6.
    fn interesting(self, first: u8, count: u8) -> impl Iterator<Item = Order> + 'a {
        (first..first + count).flat_map(move |i| self.order(OrderHandle(i)))
    }
}
