//! Writing a text.

use crate::query::Query;

/// The text of a query that passes the checks 1 to 6. It has a line `sets` where the
/// sets, numbered as the lines `set` come to them, would not have their numbers.
pub fn write(query: &Query) -> String {
    let mut lines = vec![format!("columns {}", query.columns.join(" "))];
    for (word, orders) in [("produced", &query.produced), ("tested", &query.tested)] {
        if !orders.is_empty() {
            lines.push(format!("{word} {}", query.order_texts(orders).join(" ")));
        }
    }
    if numbered_by_use(query) != query.sets.len() {
        lines.push(format!("sets {}", query.sets.join(" ")));
    }
    for dependency in &query.dependencies {
        let rule = query.rule_text(&dependency.rule);
        lines.push(format!("set {}: {rule}", query.sets[dependency.set]));
    }
    lines.iter().flat_map(|line| [line, "\n"]).collect()
}

/// How many of the first sets have their numbers by first use.
fn numbered_by_use(query: &Query) -> usize {
    let mut numbered = 0;
    for dependency in &query.dependencies {
        if dependency.set > numbered {
            return numbered;
        }
        numbered = numbered.max(dependency.set + 1);
    }
    numbered
}
