//! Refusals in words: the file that they speak of, the number, the word, and what is
//! refused, in the names of the query.
//!
//! The proved library refuses with a number alone. Which size or item it refuses is found
//! by asking it about each, so that no check stands here a second time; the lengths that
//! sizes imply are reckoned here, for the words alone.

use order_tables::Refusal;

use crate::failure::Failure;
use crate::items::Items;
use crate::names::Names;
use crate::query::ITEM_COLUMNS;
use crate::sizes::{Size, QUERY, TABLE};
use crate::text::{looks_like_text, MOST_BYTES};
use crate::words::counted;

/// A refusal of a file: its number, its word and what is refused.
pub fn refused(file: &str, refusal: Refusal, what: &str) -> Failure {
    let word = refusal.word();
    Failure::Refused(format!("{file}: {refusal}, {word}: {what}"))
}

/// What the checks 1 to 6 refuse of a query, in these names.
pub fn of_query(refusal: Refusal, query: &[u8], names: &impl Names) -> String {
    match (refusal, query) {
        (Refusal::Length, [_, produced, tested, _, dependencies, ..]) => {
            let items = [produced, tested, dependencies].map(|&size| usize::from(size));
            let items: usize = items.iter().sum();
            wrong_total(query, QUERY.count() + items * (1 + ITEM_COLUMNS))
        }
        (Refusal::Length, _) => too_few(query, QUERY.count()),
        (Refusal::Size, _) => QUERY.outside(query, |place, number| {
            let size = Size::ALL.get(place);
            size.and_then(|&size| names.counted(size, number))
        }),
        _ => {
            let refused = Items::of(query).and_then(|items| items.refused(refusal, names));
            refused.expect("an item is refused where the sizes and the length are not")
        }
    }
}

/// What the table check refuses of a table with 1 or 2.
pub fn of_table(refusal: Refusal, table: &[u8]) -> String {
    match (refusal, table) {
        _ if looks_like_text(table) => "it looks like text, and a table is bytes".to_owned(),
        (Refusal::Length, [states, produced, _, sets, ..]) => {
            let [states, produced, sets] = [states, produced, sets].map(|&size| usize::from(size));
            let implied = TABLE.count() + produced + states * sets + states * 2;
            wrong_total(table, implied)
        }
        (Refusal::Length, _) => too_few(table, TABLE.count()),
        _ => TABLE.outside(table, |_, _| None),
    }
}

/// That there are fewer bytes than the sizes take.
fn too_few(bytes: &[u8], sizes: usize) -> String {
    match bytes {
        [] => format!("it is empty, and {sizes} sizes come first"),
        _ => format!("{} where {sizes} sizes come first", length(bytes)),
    }
}

/// That there are so many bytes where the sizes imply others.
fn wrong_total(bytes: &[u8], implied: usize) -> String {
    format!("{} where {implied} would do by the sizes", length(bytes))
}

/// How many bytes there are, of which one more than of a text was read at the most.
fn length(bytes: &[u8]) -> String {
    match bytes.len() {
        long if long > MOST_BYTES => format!("more than {MOST_BYTES} bytes"),
        length => counted(length, ["byte", "bytes"]),
    }
}
