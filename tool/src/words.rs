//! Words and lists of words, as sentences have them.

/// Some words one behind the other: none, one, "a and b", "a, b and c", with the last
/// two joined by this word.
pub fn joined(words: &[String], by: &str) -> String {
    match words {
        [] => String::new(),
        [word] => word.clone(),
        [before @ .., last] => format!("{} {by} {last}", before.join(", ")),
    }
}

/// A number and what it counts, in its one form or the other.
pub fn counted(count: usize, [one, many]: [&str; 2]) -> String {
    let what = if count == 1 { one } else { many };
    format!("{count} {what}")
}

/// A word as it is quoted.
pub fn quoted(word: impl AsRef<str>) -> String {
    format!("`{}`", printable(word.as_ref()))
}

/// Whether a character shows as itself and moves nothing on a terminal.
pub fn is_shown(character: char) -> bool {
    matches!(character, ' '..='~') || !character.is_ascii() && character.is_alphanumeric()
}

/// A text with another sign in place of each character that does not show as itself.
pub fn printable(text: &str) -> String {
    let shown = |character| match is_shown(character) {
        true => character,
        false => char::REPLACEMENT_CHARACTER,
    };
    text.chars().map(shown).collect()
}
