//! Reading a text.

use super::line::{Line, Token};
use super::{TextError, MOST_BYTES};
use crate::near::one_of;
use crate::query::{Dependency, Entry, Order, Query, Rule, ITEM_COLUMNS};
use crate::sizes::Size;

/// What is said for no sets, so that no set has this name.
const NO_SETS: &str = "none";
/// The most left columns of a fix, beside which the right one has room.
const MOST_LEFT: usize = ITEM_COLUMNS - 1;
/// The most columns, orders of a kind, sets or dependencies that a size can count. A query
/// may have fewer, of which the proved library judges.
const MOST_COUNTED: usize = u8::MAX as usize;
/// What is said of a direction behind a dependency's column.
const IN_DEPENDENCY: &str = "but a dependency has no direction";
/// The words that a line begins with, but for `columns` before the others.
const STATEMENTS: [&str; 4] = ["produced", "tested", "sets", "set"];

/// A query as its text says it, and where.
#[derive(Clone, Debug, PartialEq, Eq)]
pub struct Text {
    /// The query.
    pub query: Query,
    /// The line of each item: of the produced orders, the tested orders, the
    /// dependencies.
    pub lines: Vec<usize>,
}

impl Text {
    /// An item as the text has it, and its line.
    pub fn item_in_line(&self, item: usize) -> String {
        let line = self.lines[item];
        format!("{} in line {line}", self.query.item_text(item))
    }
}

/// Reads a text, or gives the first error in it. What is read is no query yet: the
/// proved library's checks come after this.
pub fn read(text: &[u8]) -> Result<Text, TextError> {
    let mut reader = Reader::default();
    let mut begin = 0;
    for (number, bytes) in (1..).zip(text.split(|&byte| byte == b'\n')) {
        if text.len() > MOST_BYTES && begin + bytes.len() >= MOST_BYTES {
            return Err(too_long(number, MOST_BYTES - begin + 1));
        }
        reader.statement(number, Line::of_text(number, bytes))?;
        begin += bytes.len() + 1;
    }
    Ok(reader.text())
}

/// The columns that an order names which stands alone, as `(time desc, code)`.
pub fn order_names(argument: &[u8]) -> Result<Vec<Entry<String>>, TextError> {
    let mut line = Line::of_argument(argument);
    let names = order(&mut line, |_, name| Ok(name.text.to_owned()))?;
    line.end("nothing behind the order")?;
    Ok(names)
}

/// The sets that a list names which stands alone, as `filter,join`; nothing for `none`.
pub fn set_names(argument: &[u8]) -> Result<Vec<String>, TextError> {
    let mut line = Line::of_argument(argument);
    if line.takes(NO_SETS) {
        line.end("nothing behind `none`")?;
        return Ok(Vec::new());
    }
    let mut names = vec![set_name(&mut line, "`none` or a set")?];
    while line.takes(",") {
        names.push(set_name(&mut line, "a set")?);
    }
    line.end("`,` or nothing")?;
    Ok(names.iter().map(|name| name.text.to_owned()).collect())
}

/// What has been read of a text: columns, once their line has come, and items, each with
/// its line.
#[derive(Default)]
struct Reader {
    columns: Option<Vec<String>>,
    produced: Vec<(Order, usize)>,
    tested: Vec<(Order, usize)>,
    sets: Vec<String>,
    /// Whether there was a line `sets`.
    has_sets: bool,
    dependencies: Vec<(Dependency, usize)>,
}

impl Reader {
    /// Reads a line, with nothing in it or one statement.
    fn statement(&mut self, number: usize, mut line: Line) -> Result<(), TextError> {
        let word = line.token();
        if word.is_end() {
            return Ok(());
        }
        line.pass(word);
        let Some(columns) = &self.columns else {
            self.columns = Some(all_columns(word, line)?);
            return Ok(());
        };
        match word.text {
            "columns" => Err(word.which("a second time", "one line with all columns")),
            "produced" => orders(number, line, columns, &mut self.produced, Size::Produced),
            "tested" => orders(number, line, columns, &mut self.tested, Size::Tested),
            "sets" => self.all_sets(word, line),
            "set" => {
                room(&self.dependencies, word, Size::Dependencies)?;
                let dependency = self.dependency(line)?;
                self.dependencies.push((dependency, number));
                Ok(())
            }
            other => Err(word.instead_of(one_of(other, &STATEMENTS, None))),
        }
    }

    /// The names behind `sets`.
    fn all_sets(&mut self, word: Token, mut line: Line) -> Result<(), TextError> {
        if self.has_sets {
            return Err(word.which("a second time", "one line with all sets"));
        }
        if !self.sets.is_empty() {
            return Err(word.which("below a line `set`", "a place above all of them"));
        }
        self.has_sets = true;
        while !line.token().is_end() {
            let name = set_name(&mut line, "a name or the end of the line")?;
            new_name(name, &mut self.sets, Size::Sets)?;
        }
        Ok(())
    }

    /// The set and the dependency behind `set`.
    fn dependency(&mut self, mut line: Line) -> Result<Dependency, TextError> {
        let name = set_name(&mut line, "the name of a set")?;
        let set = self.set(name)?;
        line.sign(":", "`:`")?;
        let columns = self.columns.as_deref().unwrap_or_default();
        let rule = rule(&mut line, columns)?;
        let would_do = "the end of the line";
        line.no_direction(IN_DEPENDENCY, would_do)?;
        line.end(would_do)?;
        Ok(Dependency { set, rule })
    }

    /// The set that a name is: one that is known, or a new one where no line has named
    /// all.
    fn set(&mut self, name: Token) -> Result<usize, TextError> {
        match place(name, &self.sets) {
            Some(set) => Ok(set),
            None if self.has_sets => {
                let would_do = one_of(name.text, &self.sets, Some("a new name in the line `sets`"));
                Err(name.which("which is not in the line `sets`", would_do))
            }
            None => {
                new_name(name, &mut self.sets, Size::Sets)?;
                Ok(self.sets.len() - 1)
            }
        }
    }

    /// The text that has been read.
    fn text(self) -> Text {
        let (produced, produced_lines): (Vec<Order>, Vec<usize>) =
            self.produced.into_iter().unzip();
        let (tested, tested_lines): (Vec<Order>, Vec<usize>) = self.tested.into_iter().unzip();
        let (dependencies, dependency_lines): (Vec<Dependency>, Vec<usize>) =
            self.dependencies.into_iter().unzip();
        let query = Query {
            columns: self.columns.unwrap_or_default(),
            produced,
            tested,
            sets: self.sets,
            dependencies,
        };
        let lines = [produced_lines, tested_lines, dependency_lines].concat();
        Text { query, lines }
    }
}

/// The names behind a line's first word, which must be `columns`.
fn all_columns(word: Token, mut line: Line) -> Result<Vec<String>, TextError> {
    if word.text != "columns" {
        return Err(word.instead_of("`columns` with the names of all columns"));
    }
    let mut columns = Vec::new();
    while !line.token().is_end() {
        let name = line.name("a name or the end of the line")?;
        new_name(name, &mut columns, Size::Columns)?;
    }
    Ok(columns)
}

/// Puts the orders of a line behind others.
fn orders(
    number: usize,
    mut line: Line,
    columns: &[String],
    orders: &mut Vec<(Order, usize)>,
    size: Size,
) -> Result<(), TextError> {
    while !line.token().is_end() {
        room(orders, line.token(), size)?;
        let order = order(&mut line, |place, name| match place {
            ITEM_COLUMNS => Err(name.which("a fifth column", "at most four")),
            _ => column(name, columns),
        })?;
        orders.push((order, number));
    }
    Ok(())
}

/// An order: columns between parentheses, each read from its place and its name, and its
/// direction behind it.
fn order<'t, C>(
    line: &mut Line<'t>,
    column: impl Fn(usize, Token<'t>) -> Result<C, TextError>,
) -> Result<Vec<Entry<C>>, TextError> {
    line.sign("(", "an order in parentheses")?;
    let mut entries = Vec::new();
    if line.takes(")") {
        return Ok(entries);
    }
    let mut a_column = "a column or `)`";
    loop {
        let column = column(entries.len(), line.name(a_column)?)?;
        let said = line.direction();
        let direction = said.unwrap_or_default();
        entries.push(Entry { column, direction });
        if !line.takes(",") {
            let would_do = match said {
                None => "`desc`, `,` or `)`",
                Some(_) => "`,` or `)`",
            };
            line.no_direction("a second direction", would_do)?;
            line.sign(")", would_do)?;
            return Ok(entries);
        }
        a_column = "a column";
    }
}

/// A dependency: a fix or an equal.
fn rule(line: &mut Line, columns: &[String]) -> Result<Rule, TextError> {
    let mut left = Vec::new();
    if !line.takes("->") {
        left.push(column(line.name("a column or `->`")?, columns)?);
        if line.takes("=") {
            let other = column(line.name("a column")?, columns)?;
            return Ok(Rule::Equal(left[0], other));
        }
        while line.takes(",") {
            let name = line.name("a column")?;
            if left.len() == MOST_LEFT {
                return Err(name.which("a fourth left column", "at most three"));
            }
            left.push(column(name, columns)?);
        }
        let would_do = match left.len() {
            1 => "`->`, `=` or `,`",
            MOST_LEFT => "`->`",
            _ => "`->` or `,`",
        };
        line.no_direction(IN_DEPENDENCY, would_do)?;
        line.sign("->", would_do)?;
    }
    let right = column(line.name("a column")?, columns)?;
    Ok(Rule::Fix { left, right })
}

/// The column that a name is.
fn column(name: Token, columns: &[String]) -> Result<usize, TextError> {
    place(name, columns).ok_or_else(|| {
        let would_do = one_of(name.text, columns, Some("a new name in the line `columns`"));
        name.which("which is no column", would_do)
    })
}

/// The name of a set, known or not.
fn set_name<'t>(line: &mut Line<'t>, would_do: &str) -> Result<Token<'t>, TextError> {
    let name = line.name(would_do)?;
    match name.text {
        NO_SETS => Err(name.which("which stands for no set", "another name")),
        _ => Ok(name),
    }
}

/// The place of a name among others.
fn place(name: Token, names: &[String]) -> Option<usize> {
    names.iter().position(|other| other == name.text)
}

/// Puts the name of a column or a set behind others, which must be another one than these.
fn new_name(name: Token, names: &mut Vec<String>, size: Size) -> Result<(), TextError> {
    if place(name, names).is_some() {
        let is = format!("which is a {} already", size.one());
        return Err(name.which(&is, "another name"));
    }
    room(names, name, size)?;
    names.push(name.text.to_owned());
    Ok(())
}

/// That a byte can count one more, or that it is one too many.
fn room<T>(counted: &[T], one_more: Token, size: Size) -> Result<(), TextError> {
    match counted.len() {
        MOST_COUNTED => {
            let is = format!("a {} too many", size.one());
            Err(one_more.which(&is, format!("at most {}", size.most())))
        }
        _ => Ok(()),
    }
}

/// That a text is too long, from this place on.
fn too_long(line: usize, column: usize) -> TextError {
    TextError {
        line,
        column,
        width: 1,
        found: format!("more than {MOST_BYTES} bytes"),
        would_do: "fewer".to_owned(),
    }
}
