//! The query description: what it says, and its bytes.

use std::collections::HashSet;
use std::fmt;

use crate::refusal;

/// What is added to a column in an order's bytes where it descends.
pub const DESCENDING: u8 = 128;

/// An entry of an order.
#[derive(Clone, Copy, PartialEq, Eq, Hash)]
pub struct Entry {
    /// The column.
    pub column: u8,
    /// Whether larger values come first.
    pub descends: bool,
}

impl Entry {
    /// The entries of a column: ascending, then descending.
    pub fn either(column: u8) -> [Self; 2] {
        [false, true].map(|descends| Self { column, descends })
    }

    /// The byte that stands for it in an order.
    pub fn byte(self) -> u8 {
        match self.descends {
            true => self.column + DESCENDING,
            false => self.column,
        }
    }
}

impl From<u8> for Entry {
    fn from(byte: u8) -> Self {
        Self {
            column: byte % DESCENDING,
            descends: byte >= DESCENDING,
        }
    }
}

impl fmt::Debug for Entry {
    fn fmt(&self, f: &mut fmt::Formatter<'_>) -> fmt::Result {
        let direction = if self.descends { " desc" } else { "" };
        write!(f, "{}{direction}", self.column)
    }
}

/// An order: 0 to 4 entries of different columns, most significant first.
pub type Order = Vec<Entry>;

/// The order that these bytes stand for.
pub fn order(bytes: &[u8]) -> Order {
    bytes.iter().copied().map(Entry::from).collect()
}

/// The columns of an order's entries.
pub fn columns_of(order: &[Entry]) -> Vec<u8> {
    order.iter().map(|entry| entry.column).collect()
}

/// A set of columns, bit c for column c.
pub type ColumnSet = u16;

/// Sizes before the two arrays of a query.
const SIZES: usize = 5;
/// Bytes per item in the second array of a query.
const ITEM_BYTES: usize = 4;
/// What unused bytes of an item hold.
const UNUSED: u8 = 255;
/// The kind of an equal; smaller kinds are fixes with so many left columns.
const EQUAL_KIND: u8 = 4;

/// What a dependency says about rows.
#[derive(Clone, Debug, PartialEq, Eq)]
pub enum Rule {
    /// Rows alike in all left columns are alike in the right one. Without left
    /// columns the right one is a constant.
    Fix {
        /// The 0 to 3 left columns.
        left: Vec<u8>,
        /// The right column.
        right: u8,
    },
    /// Each row has one value in both columns.
    Equal(u8, u8),
}

impl Rule {
    /// The kind: of a fix how many left columns it has, of an equal 4.
    pub fn kind(&self) -> u8 {
        match self {
            Self::Fix { left, .. } => left.len() as u8,
            Self::Equal(..) => EQUAL_KIND,
        }
    }

    /// The columns: of a fix the left ones, then the right one.
    pub fn columns(&self) -> Vec<u8> {
        match self {
            Self::Fix { left, right } => [left.as_slice(), &[*right]].concat(),
            Self::Equal(one, other) => vec![*one, *other],
        }
    }
}

/// A rule and the number of the set it belongs to.
#[derive(Clone, Debug, PartialEq, Eq)]
pub struct Dependency {
    /// The set that brings this dependency.
    pub set: u8,
    /// What it says.
    pub rule: Rule,
}

impl Dependency {
    /// A fix in a set.
    pub fn fix(set: u8, left: &[u8], right: u8) -> Self {
        let left = left.to_vec();
        Self {
            set,
            rule: Rule::Fix { left, right },
        }
    }

    /// An equal in a set.
    pub fn equal(set: u8, one: u8, other: u8) -> Self {
        Self {
            set,
            rule: Rule::Equal(one, other),
        }
    }
}

/// A query description.
#[derive(Clone, Debug, PartialEq, Eq)]
pub struct Query {
    /// N, the number of columns.
    pub columns: u8,
    /// The orders an operator can make.
    pub produced: Vec<Order>,
    /// The orders that are only looked for.
    pub tested: Vec<Order>,
    /// S, the number of sets.
    pub sets: u8,
    /// The dependencies of all sets.
    pub dependencies: Vec<Dependency>,
}

impl Query {
    /// Reads a query's bytes, or gives the number of the first check that
    /// refuses them, 1 to 6.
    pub fn read(bytes: &[u8]) -> Result<Self, u8> {
        let Some((&[columns, produced, tested, sets, dependencies], arrays)) =
            bytes.split_first_chunk::<SIZES>()
        else {
            return Err(refusal::LENGTH);
        };
        let within_limits = (1..=12).contains(&columns)
            && (1..=8).contains(&produced)
            && tested <= 8
            && sets <= 8
            && dependencies <= 16;
        if !within_limits {
            return Err(refusal::SIZE);
        }
        let (produced, tested) = (usize::from(produced), usize::from(tested));
        let items = produced + tested + usize::from(dependencies);
        if arrays.len() != items * (1 + ITEM_BYTES) {
            return Err(refusal::LENGTH);
        }

        let (heads, fields) = arrays.split_at(items);
        let mut items = heads.iter().zip(fields.chunks_exact(ITEM_BYTES));
        let mut read_orders = |count| {
            items
                .by_ref()
                .take(count)
                .map(|(&head, fields)| read_order(head, fields, columns))
                .collect::<Result<Vec<Order>, u8>>()
        };
        let produced = read_orders(produced)?;
        let tested = read_orders(tested)?;
        let dependencies = items
            .map(|(&head, fields)| read_dependency(head, fields, columns, sets))
            .collect::<Result<Vec<Dependency>, u8>>()?;

        let query = Self {
            columns,
            produced,
            tested,
            sets,
            dependencies,
        };
        let mut seen = HashSet::new();
        if query.interesting().all(|order| seen.insert(order)) {
            Ok(query)
        } else {
            Err(refusal::TWIN)
        }
    }

    /// Writes the query's bytes. Nothing is checked, so that refused queries
    /// can be made too; of an order longer than four columns the four first
    /// are written.
    pub fn write(&self) -> Vec<u8> {
        let orders = self.interesting().map(|order| {
            let bytes = order.iter().map(|entry| entry.byte());
            (order.len() as u8, bytes.collect())
        });
        let dependencies = self.dependencies.iter().map(|Dependency { set, rule }| {
            let head = 16 * rule.kind() + set;
            (head, rule.columns())
        });
        let (heads, fields): (Vec<u8>, Vec<Vec<u8>>) = orders.chain(dependencies).unzip();

        let mut bytes = vec![
            self.columns,
            self.produced.len() as u8,
            self.tested.len() as u8,
            self.sets,
            self.dependencies.len() as u8,
        ];
        bytes.extend(heads);
        for mut used in fields {
            used.resize(ITEM_BYTES, UNUSED);
            bytes.extend(used);
        }
        bytes
    }

    /// The interesting orders: the produced ones, then the tested ones.
    pub fn interesting(&self) -> impl Iterator<Item = &Order> {
        self.produced.iter().chain(&self.tested)
    }

    /// How many pairs of a produced order and a choice of sets in force there are:
    /// P × 2^S.
    pub fn pairs(&self) -> usize {
        self.produced.len() << self.sets
    }

    /// Whether an entry of an order descends.
    pub fn descends(&self) -> bool {
        self.interesting().flatten().any(|entry| entry.descends)
    }

    /// The sets of a choice, a number whose bit i is set i.
    pub fn chosen(&self, choice: usize) -> Vec<u8> {
        (0..self.sets)
            .filter(|set| choice >> set & 1 == 1)
            .collect()
    }

    /// The dependencies of some sets, together.
    pub fn dependencies_of<'q>(
        &'q self,
        sets: &'q [u8],
    ) -> impl Iterator<Item = &'q Dependency> + Clone {
        self.dependencies
            .iter()
            .filter(|dependency| sets.contains(&dependency.set))
    }
}

/// The set of the columns in a list.
pub fn column_set(columns: &[u8]) -> ColumnSet {
    columns.iter().fold(0, |set, column| set | 1 << column)
}

fn read_order(head: u8, fields: &[u8], columns: u8) -> Result<Order, u8> {
    let length = usize::from(head);
    if length > ITEM_BYTES {
        return Err(refusal::ITEM);
    }
    let order = order(used_bytes(length, fields)?);
    check_columns(&columns_of(&order), columns)?;
    Ok(order)
}

fn read_dependency(head: u8, fields: &[u8], columns: u8, sets: u8) -> Result<Dependency, u8> {
    let (kind, set) = (head / 16, head % 16);
    if kind > EQUAL_KIND || set >= sets {
        return Err(refusal::ITEM);
    }
    let rule = if kind == EQUAL_KIND {
        let pair = read_columns(2, fields, columns)?;
        Rule::Equal(pair[0], pair[1])
    } else {
        let lefts = usize::from(kind);
        let named = read_columns(lefts + 1, fields, columns)?;
        Rule::Fix {
            left: named[..lefts].to_vec(),
            right: named[lefts],
        }
    };
    Ok(Dependency { set, rule })
}

/// Reads the columns at the front of a dependency's bytes, which have no direction.
fn read_columns(used: usize, fields: &[u8], columns: u8) -> Result<&[u8], u8> {
    let named = used_bytes(used, fields)?;
    check_columns(named, columns)?;
    Ok(named)
}

/// The bytes at the front of an item that are used, after its head's own part of
/// check 3: the rest of check 3.
fn used_bytes(used: usize, fields: &[u8]) -> Result<&[u8], u8> {
    let (used, unused) = fields.split_at(used);
    match unused.iter().all(|&byte| byte == UNUSED) {
        true => Ok(used),
        false => Err(refusal::ITEM),
    }
}

/// Checks the columns that an item names: 4, then 5.
fn check_columns(named: &[u8], columns: u8) -> Result<(), u8> {
    if named.iter().any(|&column| column >= columns) {
        return Err(refusal::COLUMN);
    }
    if column_set(named).count_ones() as usize != named.len() {
        return Err(refusal::REPEAT);
    }
    Ok(())
}
