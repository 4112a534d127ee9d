//! How refusals call what they speak of.

use crate::items::Items;
use crate::sizes::Size;
use crate::text::Text;

/// What the items of a query are called, and what its sizes count by their numbers.
pub trait Names {
    /// What an item is called.
    fn item(&self, items: Items, item: usize) -> String;

    /// What one of those is called that a size counts, by its number, if it has a name.
    fn counted(&self, size: Size, number: usize) -> Option<String>;
}

/// A query in bytes has no names but numbers.
pub struct Numbers;

impl Names for Numbers {
    fn item(&self, items: Items, item: usize) -> String {
        items.numbered(item)
    }

    fn counted(&self, _: Size, _: usize) -> Option<String> {
        None
    }
}

/// A text has its own names and lines.
impl Names for Text {
    fn item(&self, _: Items, item: usize) -> String {
        self.item_in_line(item)
    }

    fn counted(&self, size: Size, number: usize) -> Option<String> {
        let [columns, produced, tested, sets, dependencies] = self.query.sizes();
        let item = |before: usize| self.item_in_line(before + number);
        match size {
            Size::Columns => (number < columns).then(|| self.query.columns[number].clone()),
            Size::Produced => (number < produced).then(|| item(0)),
            Size::Tested => (number < tested).then(|| item(produced)),
            Size::Sets => (number < sets).then(|| self.query.sets[number].clone()),
            Size::Dependencies => (number < dependencies).then(|| item(produced + tested)),
        }
    }
}
