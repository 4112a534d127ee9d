//! The items of a query in bytes, and which of them is refused.
//!
//! No check stands here: the proved library is asked about the first items alone until it
//! refuses them.

use order_tables::Refusal;

use crate::names::Names;
use crate::query::ITEM_COLUMNS;
use crate::sizes::{query_check, Size};

/// The items of a query that has the length that its sizes imply.
#[derive(Clone, Copy)]
pub struct Items<'q> {
    /// How many columns, produced orders, tested orders, sets and dependencies there are.
    sizes: [u8; 5],
    /// The heads of all items.
    heads: &'q [u8],
    /// The columns' bytes of all items.
    columns: &'q [u8],
}

impl<'q> Items<'q> {
    /// The items of a query, or nothing where its length is another.
    pub fn of(query: &'q [u8]) -> Option<Self> {
        let (&sizes, arrays) = query.split_first_chunk()?;
        let [_, produced, tested, _, dependencies] = sizes;
        let items = [produced, tested, dependencies].map(usize::from);
        let (heads, columns) = arrays.split_at_checked(items.iter().sum())?;
        let items = Self {
            sizes,
            heads,
            columns,
        };
        (columns.len() == heads.len() * ITEM_COLUMNS).then_some(items)
    }

    /// What the checks 3 to 6 refuse, of the first item that they refuse so.
    pub fn refused(self, refusal: Refusal, names: &impl Names) -> Option<String> {
        let item = (0..self.heads.len()).find(|&item| {
            let up_to_it = self.first(item + 1);
            query_check(&up_to_it) == Some(refusal)
        })?;
        let this = names.item(self, item);
        let [columns, _, _, sets, _] = self.sizes;
        let unused = "an unused byte other than 255";
        Some(match refusal {
            Refusal::Item if item < self.orders() => {
                format!("{this} has a length above 4 or {unused}")
            }
            Refusal::Item => {
                format!("{this} has a kind above 4, a set not below {sets} or {unused}")
            }
            Refusal::Column => format!("{this} has a column not below {columns}"),
            Refusal::Repeat => format!("{this} has a column twice"),
            _ => {
                let same = |&other: &usize| self.bytes(other) == self.bytes(item);
                let other = (0..item).find(same).map(|other| names.item(self, other));
                match other {
                    Some(other) if other != this => format!("{this} is the same as {other}"),
                    _ => format!("{this} is there twice"),
                }
            }
        })
    }

    /// What an item is called that has no name: its kind, its number and its bytes.
    pub fn numbered(self, item: usize) -> String {
        let [_, produced, ..] = self.sizes;
        let orders = self.orders();
        let (size, number) = match item {
            _ if item < produced.into() => (Size::Produced, item),
            _ if item < orders => (Size::Tested, item),
            _ => (Size::Dependencies, item - orders),
        };
        let (head, columns) = self.bytes(item);
        let columns: Vec<String> = columns.iter().map(u8::to_string).collect();
        let columns = columns.join(" ");
        format!("{} {number} (head {head}, bytes {columns})", size.one())
    }

    /// How many interesting orders there are, which are the first items.
    fn orders(self) -> usize {
        let [_, produced, tested, ..] = self.sizes;
        usize::from(produced) + usize::from(tested)
    }

    /// The head of an item and its columns' bytes.
    fn bytes(self, item: usize) -> (u8, &'q [u8]) {
        let columns = &self.columns[item * ITEM_COLUMNS..];
        (self.heads[item], &columns[..ITEM_COLUMNS])
    }

    /// The query with its first items alone, of which there are so many.
    fn first(self, items: usize) -> Vec<u8> {
        let [columns, produced, tested, sets, dependencies] = self.sizes;
        let mut left = items;
        let [produced, tested, dependencies] = [produced, tested, dependencies].map(|size| {
            let kept = left.min(size.into());
            left -= kept;
            kept as u8
        });
        let sizes = [columns, produced, tested, sets, dependencies];
        let parts = [
            &sizes,
            &self.heads[..items],
            &self.columns[..items * ITEM_COLUMNS],
        ];
        parts.concat()
    }
}
