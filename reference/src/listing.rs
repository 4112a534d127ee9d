//! The listing: a query's table as text. Every line ends in a newline.

use crate::builder::table_of;

/// The listing of a query's bytes, or one line with the refusal's number. Space
/// never runs short, so 9 never comes.
pub fn listing(query: &[u8]) -> String {
    printed(&lines(query))
}

/// What is printed: a listing's lines, or the line of a refusal.
pub fn printed(lines: &Result<String, u8>) -> String {
    match lines {
        Ok(lines) => lines.clone(),
        Err(refusal) => format!("refused {refusal}\n"),
    }
}

/// The lines of the listing of a query's bytes, or the refusal's number.
pub fn lines(query: &[u8]) -> Result<String, u8> {
    let table = table_of(query)?;
    let count = format!("states {}\n", table.states.len());
    let starts = table.starts.iter().enumerate();
    let starts = starts.map(|(order, state)| format!("start {order} {state}\n"));
    let rows = table.states.iter().enumerate().map(|(number, state)| {
        let next = state.successors.iter().map(|next| format!(" {next}"));
        let next: String = next.collect();
        format!("state {number} next{next} held {}\n", state.held)
    });
    Ok([count].into_iter().chain(starts).chain(rows).collect())
}
