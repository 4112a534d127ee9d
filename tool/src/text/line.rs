//! A line of a text, token by token.

use order_tables::Direction;

use super::TextError;
use crate::query::{ASCENDING, DESCENDING};
use crate::words::{is_shown, quoted};

/// What begins a comment, which goes to the line's end.
const COMMENT: u8 = b'#';
/// The tokens that are no names.
const SIGNS: [&str; 6] = ["(", ")", ",", ":", "->", "="];
/// The most characters of a name.
const MOST_CHARACTERS: usize = 64;

/// What a token is.
#[derive(Clone, Copy, Debug, PartialEq, Eq)]
enum Kind {
    Name,
    Sign,
    /// Behind the last token. It is called so.
    End(&'static str),
    /// What would be a name if it did not begin with a digit or a dot.
    NoName,
    /// A character that is in no token.
    Character(char),
    /// A byte that is in no character, or is one that is not shown.
    Byte(u8),
}

/// A token of a line, or what is there and is none.
#[derive(Clone, Copy, Debug, PartialEq, Eq)]
pub struct Token<'t> {
    /// The text of a name, a sign or what would be a name, and otherwise empty.
    pub text: &'t str,
    kind: Kind,
    width: usize,
    line: usize,
    column: usize,
}

impl Token<'_> {
    /// Whether this is the end.
    pub fn is_end(self) -> bool {
        matches!(self.kind, Kind::End(_))
    }

    /// The direction that this is a word for, in any case. Such a word is reserved: it is
    /// no name of a column or a set.
    pub fn direction(self) -> Option<Direction> {
        let is = |word: &str| self.text.eq_ignore_ascii_case(word);
        match () {
            _ if is(ASCENDING) => Some(Direction::Ascending),
            _ if is(DESCENDING) => Some(Direction::Descending),
            _ => None,
        }
    }

    /// That this was found where something else would do.
    pub fn instead_of(self, would_do: impl Into<String>) -> TextError {
        let found = match self.kind {
            Kind::Name | Kind::NoName if self.text.len() > MOST_CHARACTERS => {
                format!("a word of {} characters", self.text.len())
            }
            Kind::Name if self.direction().is_some() => {
                format!("{}, which is reserved", quoted(self.text))
            }
            Kind::Name | Kind::Sign => quoted(self.text),
            Kind::End(called) => called.to_owned(),
            Kind::NoName => format!("{}, which begins with no letter", quoted(self.text)),
            Kind::Character(shown) if is_shown(shown) => quoted(shown.to_string()),
            Kind::Character(other) => format!("the character U+{:04X}", u32::from(other)),
            Kind::Byte(byte) => format!("the byte {byte}"),
        };
        self.error(found, would_do)
    }

    /// That this was found and is something that is said of it, where something else would
    /// do.
    pub fn which(self, is: &str, would_do: impl Into<String>) -> TextError {
        self.error(format!("{}, {is}", quoted(self.text)), would_do)
    }

    fn error(self, found: String, would_do: impl Into<String>) -> TextError {
        TextError {
            line: self.line,
            column: self.column,
            width: self.width.max(1),
            found,
            would_do: would_do.into(),
        }
    }
}

/// A line of a text, of which some tokens have been read.
#[derive(Clone, Debug)]
pub struct Line<'t> {
    number: usize,
    bytes: &'t [u8],
    end: &'static str,
    at: usize,
}

impl<'t> Line<'t> {
    /// A line of this number with these bytes, its comment left out.
    pub fn of_text(number: usize, bytes: &'t [u8]) -> Self {
        let bytes = bytes.strip_suffix(b"\r").unwrap_or(bytes);
        let said = bytes.split(|&byte| byte == COMMENT).next();
        Self {
            number,
            bytes: said.unwrap_or_default(),
            end: "the end of the line",
            at: 0,
        }
    }

    /// An argument as a line of its own.
    pub fn of_argument(bytes: &'t [u8]) -> Self {
        Self {
            number: 1,
            bytes,
            end: "the end",
            at: 0,
        }
    }

    /// The next token, which is not read yet.
    pub fn token(&self) -> Token<'t> {
        let rest = &self.bytes[self.at..];
        let blank = rest.iter().take_while(|&&byte| is_blank(byte)).count();
        let token = first_token(&rest[blank..]).unwrap_or((Kind::End(self.end), 0));
        let (kind, width) = token;
        // The end is directly behind the last token.
        let before = if width == 0 { 0 } else { blank };
        let text = match kind {
            Kind::Name | Kind::Sign | Kind::NoName => &rest[before..][..width],
            _ => &[],
        };
        Token {
            text: std::str::from_utf8(text).unwrap_or_default(),
            kind,
            width,
            line: self.number,
            column: self.at + before + 1,
        }
    }

    /// Goes behind a token.
    pub fn pass(&mut self, token: Token) {
        self.at = token.column - 1 + token.width;
    }

    /// Reads the next token, if it is this sign or name.
    pub fn takes(&mut self, text: &str) -> bool {
        let token = self.token();
        let taken = token.text == text;
        if taken {
            self.pass(token);
        }
        taken
    }

    /// Reads the next token, which must be this sign. Otherwise what would do is said.
    pub fn sign(&mut self, sign: &str, would_do: &str) -> Result<(), TextError> {
        match self.takes(sign) {
            true => Ok(()),
            false => Err(self.token().instead_of(would_do)),
        }
    }

    /// Reads the next token, which must be a name. Otherwise what would do is said.
    pub fn name(&mut self, would_do: &str) -> Result<Token<'t>, TextError> {
        let token = self.token();
        if token.kind != Kind::Name || token.direction().is_some() {
            return Err(token.instead_of(would_do));
        }
        if token.text.len() > MOST_CHARACTERS {
            let found = format!("a name of {} characters", token.text.len());
            return Err(token.error(found, format!("at most {MOST_CHARACTERS}")));
        }
        self.pass(token);
        Ok(token)
    }

    /// Reads the next token, if it is a word for a direction.
    pub fn direction(&mut self) -> Option<Direction> {
        let token = self.token();
        let direction = token.direction();
        if direction.is_some() {
            self.pass(token);
        }
        direction
    }

    /// Says this of a direction and what would do, if a direction comes next.
    pub fn no_direction(&self, is: &str, would_do: &str) -> Result<(), TextError> {
        match self.token() {
            word if word.direction().is_some() => Err(word.which(is, would_do)),
            _ => Ok(()),
        }
    }

    /// Says what would do, if the end does not come next.
    pub fn end(&self, would_do: &str) -> Result<(), TextError> {
        match self.token() {
            end if end.is_end() => Ok(()),
            token => Err(token.instead_of(would_do)),
        }
    }
}

/// What bytes begin with, which is no blank, and how many bytes that takes; nothing where
/// there are none.
fn first_token(bytes: &[u8]) -> Option<(Kind, usize)> {
    let &first = bytes.first()?;
    if let Some(sign) = SIGNS.iter().find(|sign| bytes.starts_with(sign.as_bytes())) {
        return Some((Kind::Sign, sign.len()));
    }
    let letters = bytes.iter().take_while(|&&byte| is_in_name(byte)).count();
    if letters > 0 {
        let is_name = first.is_ascii_alphabetic() || first == b'_';
        let kind = if is_name { Kind::Name } else { Kind::NoName };
        return Some((kind, letters));
    }
    let chunk = bytes.utf8_chunks().next();
    let character = chunk.and_then(|chunk| chunk.valid().chars().next());
    let character = character.filter(|character| !character.is_ascii_control());
    Some((character.map_or(Kind::Byte(first), Kind::Character), 1))
}

/// Whether a byte is nothing but a space between tokens.
fn is_blank(byte: u8) -> bool {
    matches!(byte, b' ' | b'\t')
}

/// Whether a byte may stand in a name.
fn is_in_name(byte: u8) -> bool {
    byte.is_ascii_alphanumeric() || matches!(byte, b'_' | b'.')
}
