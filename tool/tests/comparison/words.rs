//! Names and sentences, as the tool has them for a query in bytes.

use reference::{Entry, Query};

/// The name of a column.
pub fn column_name(column: u8) -> String {
    char::from(b'a' + column).to_string()
}

/// An order, as it is written.
pub fn order_text(order: &[Entry]) -> String {
    let entries = order.iter().map(|entry| {
        let direction = if entry.descends { " desc" } else { "" };
        column_name(entry.column) + direction
    });
    format!("({})", entries.collect::<Vec<String>>().join(", "))
}

/// Some orders, as they are written.
pub fn order_texts<'o>(orders: impl IntoIterator<Item = &'o Vec<Entry>>) -> Vec<String> {
    orders.into_iter().map(|order| order_text(order)).collect()
}

/// The names of some sets.
pub fn set_names(sets: impl IntoIterator<Item = u8>) -> Vec<String> {
    sets.into_iter().map(|set| format!("s{set}")).collect()
}

/// Some words in a list, with this one before the last.
pub fn listed(mut words: Vec<String>, by: &str) -> String {
    let last = words.pop().unwrap_or_default();
    match words.is_empty() {
        true => last,
        false => format!("{} {by} {last}", words.join(", ")),
    }
}

/// So many things of a kind.
pub fn counted(count: impl Into<usize>, what: &str) -> String {
    match (count.into(), what.strip_suffix('y')) {
        (1, _) => format!("1 {what}"),
        (count, Some(stem)) => format!("{count} {stem}ies"),
        (count, None) => format!("{count} {what}s"),
    }
}

/// How many produced orders, tested orders and sets there are.
pub fn sizes_text(produced: usize, tested: usize, sets: usize) -> String {
    let produced = counted(produced, "produced order");
    let tested = counted(tested, "tested order");
    listed(vec![produced, tested, counted(sets, "set")], "and")
}

/// The sizes of a query, as far as a table has them too.
pub fn query_sizes_text(query: &Query) -> String {
    sizes_text(query.produced.len(), query.tested.len(), query.sets.into())
}

/// The interesting orders whose bits are 1 in a word.
pub fn orders_in(query: &Query, word: u16) -> Vec<String> {
    let orders = query.interesting().enumerate();
    let held = orders.filter(|(number, _)| word >> number & 1 == 1);
    order_texts(held.map(|(_, order)| order))
}

/// The number behind a beginning, written as numbers are.
pub fn number(text: &str, beginning: &str) -> Option<usize> {
    let number = text.strip_prefix(beginning)?.parse().ok()?;
    (text == format!("{beginning}{number}")).then_some(number)
}
