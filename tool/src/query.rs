//! A query with the names of its columns and sets, to and from the query's bytes.

use order_tables::{self as proved, Direction};

/// A column of an order, by its place among the names or by its name, and which way it
/// compares.
#[derive(Clone, Debug, PartialEq, Eq)]
pub struct Entry<C> {
    /// The column.
    pub column: C,
    /// Its direction.
    pub direction: Direction,
}

/// An order: its columns, the most significant first. A column is its place among the
/// names.
pub type Order = Vec<Entry<usize>>;

/// The word behind a column of an order, in any case, for the direction that it has
/// anyway.
pub const ASCENDING: &str = "asc";
/// The word behind a column of an order, in any case, for the other direction.
pub const DESCENDING: &str = "desc";
/// How many columns an item has room for, a byte each, behind its head.
pub const ITEM_COLUMNS: usize = 4;
/// What unused bytes of an item hold.
const UNUSED: u8 = 255;
/// The kind of an equal; smaller kinds are fixes with so many left columns.
const EQUAL_KIND: usize = 4;

/// What a dependency says about rows.
#[derive(Clone, Debug, PartialEq, Eq)]
pub enum Rule {
    /// Rows alike in all left columns are alike in the right one.
    Fix {
        /// The left columns.
        left: Vec<usize>,
        /// The right column.
        right: usize,
    },
    /// Each row has one value in both columns.
    Equal(usize, usize),
}

/// A dependency, and the place of its set among the names.
#[derive(Clone, Debug, PartialEq, Eq)]
pub struct Dependency {
    /// The set that brings this dependency.
    pub set: usize,
    /// What it says.
    pub rule: Rule,
}

/// A query with names.
#[derive(Clone, Debug, Default, PartialEq, Eq)]
pub struct Query {
    /// The names of the columns.
    pub columns: Vec<String>,
    /// The orders that an operator can make.
    pub produced: Vec<Order>,
    /// The orders that are only looked for.
    pub tested: Vec<Order>,
    /// The names of the sets.
    pub sets: Vec<String>,
    /// The dependencies of all sets.
    pub dependencies: Vec<Dependency>,
}

impl Query {
    /// A query that was read from bytes. Its columns are called a, b, .. and its sets
    /// s0, s1, ..
    pub fn of(read: proved::Query) -> Self {
        let order = |order: proved::Order| {
            let entries = order.iter().map(|entry| Entry {
                column: entry.column.into(),
                direction: entry.direction,
            });
            entries.collect()
        };
        let dependencies = read.dependencies().map(|dependency| Dependency {
            set: dependency.set.0.into(),
            rule: match dependency.rule {
                proved::Rule::Fix { left, right } => Rule::Fix {
                    left: left.iter().copied().map(usize::from).collect(),
                    right: right.into(),
                },
                proved::Rule::Equal(one, other) => Rule::Equal(one.into(), other.into()),
            },
        });
        Self {
            columns: ('a'..)
                .take(read.columns().into())
                .map(String::from)
                .collect(),
            produced: read.produced().map(order).collect(),
            tested: read.tested().map(order).collect(),
            sets: (0..read.sets()).map(|set| format!("s{set}")).collect(),
            dependencies: dependencies.collect(),
        }
    }

    /// The query's bytes, where no size is above 255. With more columns or sets than there
    /// may be, numbers of these are cut to a byte; then the sizes are refused before them.
    pub fn write(&self) -> Vec<u8> {
        let orders = self.interesting().map(|order| {
            let entries = order.iter().map(|entry| match entry.direction {
                Direction::Ascending => entry.column,
                Direction::Descending => entry.column + usize::from(proved::DESCENDING),
            });
            (order.len(), entries.collect())
        });
        let dependencies = self.dependencies.iter().map(|Dependency { set, rule }| {
            let (kind, columns) = match rule {
                Rule::Fix { left, right } => (left.len(), [&left[..], &[*right]].concat()),
                Rule::Equal(one, other) => (EQUAL_KIND, vec![*one, *other]),
            };
            (16 * kind + set, columns)
        });
        let (heads, columns): (Vec<usize>, Vec<Vec<usize>>) = orders.chain(dependencies).unzip();

        let numbers = self.sizes().into_iter().chain(heads);
        let mut bytes: Vec<u8> = numbers.map(|number| number as u8).collect();
        for columns in columns {
            let mut columns: Vec<u8> = columns.iter().map(|&column| column as u8).collect();
            columns.resize(ITEM_COLUMNS, UNUSED);
            bytes.extend(columns);
        }
        bytes
    }

    /// How many columns, produced orders, tested orders, sets and dependencies there are.
    pub fn sizes(&self) -> [usize; 5] {
        [
            self.columns.len(),
            self.produced.len(),
            self.tested.len(),
            self.sets.len(),
            self.dependencies.len(),
        ]
    }

    /// The interesting orders: the produced ones, then the tested ones.
    pub fn interesting(&self) -> impl Iterator<Item = &Order> {
        self.produced.iter().chain(&self.tested)
    }

    /// An item as the text has it: an order or a dependency.
    pub fn item_text(&self, item: usize) -> String {
        match self.interesting().nth(item) {
            Some(order) => self.order_text(order),
            None => {
                let orders = self.produced.len() + self.tested.len();
                self.rule_text(&self.dependencies[item - orders].rule)
            }
        }
    }

    /// An order as the text has it.
    pub fn order_text(&self, order: &[Entry<usize>]) -> String {
        let entries = order.iter().map(|entry| {
            let name = &self.columns[entry.column];
            match entry.direction {
                Direction::Ascending => name.clone(),
                Direction::Descending => format!("{name} {DESCENDING}"),
            }
        });
        format!("({})", entries.collect::<Vec<String>>().join(", "))
    }

    /// Some orders as the text has them.
    pub fn order_texts<'q>(&self, orders: impl IntoIterator<Item = &'q Order>) -> Vec<String> {
        let orders = orders.into_iter();
        orders.map(|order| self.order_text(order)).collect()
    }

    /// What a dependency says, as the text has it.
    pub fn rule_text(&self, rule: &Rule) -> String {
        match rule {
            Rule::Fix { left, right } if left.is_empty() => format!("-> {}", self.columns[*right]),
            Rule::Fix { left, right } => {
                let left = left.iter().map(|&column| &self.columns[column][..]);
                let left = left.collect::<Vec<&str>>().join(", ");
                format!("{left} -> {}", self.columns[*right])
            }
            Rule::Equal(one, other) => format!("{} = {}", self.columns[*one], self.columns[*other]),
        }
    }
}
