//! An error in a text.

use std::fmt;

use crate::words::printable;

/// The most characters of a line that are shown before what was found.
const SHOWN_BEFORE: usize = 60;
/// The most characters of a line that are shown.
const SHOWN: usize = 100;
/// What stands for the part of a line that is not shown.
const LEFT_OUT: &str = "..";

/// An error in a text: where it is, what was found there, and what would do.
#[derive(Clone, Debug, PartialEq, Eq)]
pub struct TextError {
    /// The line, from 1.
    pub line: usize,
    /// The column of the line, from 1: that of the first character found.
    pub column: usize,
    /// How many characters were found, or 1 for none.
    pub width: usize,
    /// What was found.
    pub found: String,
    /// What would do.
    pub would_do: String,
}

impl fmt::Display for TextError {
    fn fmt(&self, f: &mut fmt::Formatter<'_>) -> fmt::Result {
        write!(f, "found {}; {} would do", self.found, self.would_do)
    }
}

impl std::error::Error for TextError {}

impl TextError {
    /// The error of a file, with its line of the text, or the part of it around the error,
    /// and marks under what was found.
    pub fn shown(&self, file: &str, text: &[u8]) -> String {
        let Self { line, column, .. } = self;
        let bytes = text.split(|&byte| byte == b'\n').nth(line - 1);
        let bytes = bytes.unwrap_or_default();
        let bytes = bytes.strip_suffix(b"\r").unwrap_or(bytes);
        let (before, behind) = bytes.split_at(bytes.len().min(column - 1));
        let [before, behind] = [before, behind].map(|part| {
            let part = String::from_utf8_lossy(part).replace('\t', " ");
            printable(&part).chars().collect::<Vec<char>>()
        });
        let cut = before.len().saturating_sub(SHOWN_BEFORE);
        let left_out = if cut > 0 { LEFT_OUT } else { "" };
        let before = &before[cut..];
        let room = SHOWN - before.len();
        let right_out = if behind.len() > room { LEFT_OUT } else { "" };
        let behind = &behind[..behind.len().min(room)];

        let excerpt: String = before.iter().chain(behind).collect();
        let excerpt = [left_out, &excerpt, right_out].concat();
        let indent = " ".repeat(left_out.len() + before.len());
        let marks = "^".repeat(self.width.clamp(1, room));
        let excerpt = excerpt.trim_end();
        format!("{file}:{line}:{column}: {self}\n{excerpt}\n{indent}{marks}")
    }
}
