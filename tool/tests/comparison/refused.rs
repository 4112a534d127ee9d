//! What has to be said of a query in bytes that is refused, and of the sizes and the length
//! of a table.

use order_tables_tool::failure::Failure;
use reference::refusal::{COLUMN, ITEM, LENGTH, REPEAT, SIZE, STATES};
use reference::Query;

use crate::words::{counted, listed, order_texts, set_names};
use crate::WORDS;

/// What the sizes of a query count, and their limits.
const QUERY_LIMITS: [(&str, u8, u8); 5] = [
    ("column", 1, 12),
    ("produced order", 1, 8),
    ("tested order", 0, 8),
    ("set", 0, 8),
    ("dependency", 0, 16),
];
/// What the sizes of a table count, and their limits.
pub const TABLE_LIMITS: [(&str, u8, u8); 4] = [
    ("state", 1, 128),
    ("produced order", 1, 8),
    ("tested order", 0, 8),
    ("set", 0, 8),
];
/// The kind of an equal.
const EQUAL_KIND: u8 = 4;

/// Checks that what is given is the refusal of a query in a file of this name.
pub fn check_query_refused(file: &str, query: &[u8], refusal: u8, given: &Result<String, Failure>) {
    let what = match refusal {
        LENGTH => wrong_length(query, 5, |sizes| 5 + 5 * (sizes[1] + sizes[2] + sizes[4])),
        SIZE => wrong_sizes(query, &QUERY_LIMITS),
        STATES => too_many_states(query),
        _ => refused_item(query, refusal),
    };
    let word = WORDS[usize::from(refusal)];
    let words = format!("{file}: refused {refusal}, {word}: {what}");
    let refused = Failure::Refused(words);
    assert_eq!(refused.status(), 1);
    assert_eq!(given, &Err(refused), "query {query:?}");
}

/// That bytes have another length than their sizes imply, or too few for so many sizes.
pub fn wrong_length(bytes: &[u8], sizes: usize, implied: impl Fn(&[usize]) -> usize) -> String {
    let length = counted(bytes.len(), "byte");
    let first: Vec<usize> = bytes.iter().take(sizes).map(|&size| size.into()).collect();
    match bytes.len() {
        0 => format!("it is empty, and {sizes} sizes come first"),
        few if few < sizes => format!("{length} where {sizes} sizes come first"),
        _ => format!("{length} where {} would do by the sizes", implied(&first)),
    }
}

/// The sizes with which bytes begin that are outside their limits.
pub fn wrong_sizes(bytes: &[u8], limits: &[(&str, u8, u8)]) -> String {
    let sizes = bytes.iter().zip(limits);
    let outside = sizes.filter(|(&size, (_, least, most))| size < *least || size > *most);
    let outside = outside.map(|(&size, (what, least, most))| {
        format!("{} where {least} to {most} would do", counted(size, what))
    });
    listed(outside.collect(), "and")
}

/// That the table would have too many states.
fn too_many_states(query: &[u8]) -> String {
    let query = Query::read(query).expect("only its states are refused");
    let produced = listed(order_texts(&query.produced), "and");
    let sets = listed(set_names(0..query.sets), "and");
    format!(
        "the smallest table has more than 128 states, for rows in {produced} and the sets {sets}"
    )
}

/// An item of a query in bytes.
struct Item<'q> {
    /// What is counted so: produced orders, tested orders or dependencies.
    kind: &'static str,
    number: usize,
    head: u8,
    bytes: &'q [u8],
}

impl Item<'_> {
    /// What the item is called.
    fn called(&self) -> String {
        let bytes: Vec<String> = self.bytes.iter().map(u8::to_string).collect();
        let (kind, number, head) = (self.kind, self.number, self.head);
        format!("{kind} {number} (head {head}, bytes {})", bytes.join(" "))
    }

    fn is_order(&self) -> bool {
        self.kind != "dependency"
    }

    /// How many of its bytes are columns, if its head may be.
    fn columns(&self, sets: u8) -> Option<usize> {
        let (kind, set) = (self.head / 16, self.head % 16);
        match self.head {
            length if self.is_order() => (length <= 4).then_some(length.into()),
            _ if set >= sets || kind > EQUAL_KIND => None,
            _ if kind == EQUAL_KIND => Some(2),
            _ => Some(usize::from(kind) + 1),
        }
    }

    /// Which of 3, 4 and 5 the item is refused with in a query of so many columns and sets.
    fn refusal(&self, columns: u8, sets: u8) -> Option<u8> {
        let used = self.columns(sets);
        let Some((used, unused)) = used.and_then(|used| self.bytes.split_at_checked(used)) else {
            return Some(ITEM);
        };
        // Only in an order 128 is added to a column, where it descends.
        let modulus = if self.is_order() { 128 } else { 256 };
        let named: Vec<u16> = used.iter().map(|&byte| u16::from(byte) % modulus).collect();
        let is_twice = |place: usize| named[..place].contains(&named[place]);
        match () {
            _ if unused.iter().any(|&byte| byte != 255) => Some(ITEM),
            _ if named.iter().any(|&column| column >= columns.into()) => Some(COLUMN),
            _ if (0..named.len()).any(is_twice) => Some(REPEAT),
            _ => None,
        }
    }
}

/// The items of a query in bytes.
fn items(query: &[u8]) -> Vec<Item<'_>> {
    let [produced, tested, dependencies] = [query[1], query[2], query[4]].map(usize::from);
    let kinds = [
        vec![("produced order", 0); produced],
        vec![("tested order", 0); tested],
        vec![("dependency", produced + tested); dependencies],
    ];
    let (heads, bytes) = query[5..].split_at(produced + tested + dependencies);
    let items = kinds.concat().into_iter().zip(heads).zip(bytes.chunks(4));
    let items = items
        .enumerate()
        .map(|(item, (((kind, before), &head), bytes))| Item {
            kind,
            number: item - before,
            head,
            bytes,
        });
    items.collect()
}

/// What is refused of the first item that is refused with 3, 4 or 5; or else of the first
/// order that is there a second time.
fn refused_item(query: &[u8], refusal: u8) -> String {
    let (columns, sets) = (query[0], query[3]);
    let items = items(query);
    let mut refused = items.iter().filter_map(|item| {
        let refusal = item.refusal(columns, sets)?;
        Some((item, refusal))
    });
    let Some((item, first_refusal)) = refused.next() else {
        return twin(&items);
    };
    assert_eq!(first_refusal, refusal, "{query:?}");
    let unused = "an unused byte other than 255";
    let fault = match refusal {
        ITEM if item.is_order() => format!("a length above 4 or {unused}"),
        ITEM => format!("a kind above 4, a set not below {sets} or {unused}"),
        COLUMN => format!("a column not below {columns}"),
        _ => "a column twice".to_owned(),
    };
    format!("{} has {fault}", item.called())
}

/// The first order that is there a second time.
fn twin(items: &[Item]) -> String {
    let orders: Vec<&Item> = items.iter().filter(|item| item.is_order()).collect();
    for (place, order) in orders.iter().enumerate() {
        let mut earlier = orders[..place].iter();
        let same = |other: &&&Item| (other.head, other.bytes) == (order.head, order.bytes);
        if let Some(other) = earlier.find(same) {
            return format!("{} is the same as {}", order.called(), other.called());
        }
    }
    panic!("no item is refused and no order is there twice");
}
