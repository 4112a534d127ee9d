//! Printing what was measured, as Markdown.

use std::fs;

/// Prints a table: its head, then its rows.
pub fn table<const COLUMNS: usize>(head: [&str; COLUMNS], rows: &[[String; COLUMNS]]) {
    println!("| {} |", head.join(" | "));
    println!("|{}", "---|".repeat(COLUMNS));
    for row in rows {
        println!("| {} |", row.join(" | "));
    }
    println!();
}

/// A time and a ratio to another one, with the digits that mean something.
pub fn number(number: f64) -> String {
    match number {
        ..10.0 => format!("{number:.2}"),
        10.0..100.0 => format!("{number:.1}"),
        _ => format!("{number:.0}"),
    }
}

/// A count of instructions, with a comma before every three digits.
pub fn instructions(count: u64) -> String {
    let digits = count.to_string();
    let groups: Vec<&str> = digits
        .as_bytes()
        .rchunks(3)
        .rev()
        .filter_map(|group| str::from_utf8(group).ok())
        .collect();
    groups.join(",")
}

/// A count in percent of another one.
pub fn share(count: u64, of: u64) -> String {
    number(100.0 * count as f64 / of as f64)
}

/// What came of a build: the table's rows, or the refusal.
pub fn outcome(built: Result<u8, u32>) -> String {
    match built {
        Ok(rows) => format!("{rows} rows"),
        Err(refusal) => format!("refused {refusal}"),
    }
}

/// Says on what and how was measured.
pub fn setting() {
    let processors = fs::read_to_string("/proc/cpuinfo").unwrap_or_default();
    let model = processors
        .lines()
        .find_map(|line| line.strip_prefix("model name"))
        .map_or("unknown", |model| {
            model.trim_start_matches([' ', '\t', ':'])
        });
    println!("Machine: {model}.");
    println!(
        "Rust: {}, release. C: {}, -O2.",
        env!("RUST_COMPILER"),
        env!("C_COMPILER")
    );
    println!("Ways that are compared take turns in one run; the least time of each counts.");
    println!();
}

/// A query's bytes as a trial has them.
pub fn bytes(query: &[u8]) -> String {
    let bytes: Vec<String> = query.iter().map(u8::to_string).collect();
    bytes.join(" ")
}
