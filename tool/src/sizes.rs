//! The sizes that a query and a table begin with: what they count, and their limits.
//!
//! No limit stands here: whether a size is within its own is found by asking the proved
//! library.

use order_tables::{Query as Proved, Refusal, Table};

use crate::words::{counted, joined};

/// What a size counts: one and many.
type Counted = [&'static str; 2];
/// A check of the proved library.
type Check = fn(&[u8]) -> Option<Refusal>;

/// A size of a query.
#[derive(Clone, Copy, Debug, PartialEq, Eq)]
pub enum Size {
    Columns,
    Produced,
    Tested,
    Sets,
    Dependencies,
}

impl Size {
    /// All sizes, in their sequence.
    pub const ALL: [Self; 5] = [
        Self::Columns,
        Self::Produced,
        Self::Tested,
        Self::Sets,
        Self::Dependencies,
    ];

    /// What one is called of what is counted.
    pub fn one(self) -> &'static str {
        let [one, _] = QUERY.counting[self as usize];
        one
    }

    /// The most that there may be.
    pub fn most(self) -> u8 {
        QUERY.most(self as usize)
    }
}

/// The sizes of a query, or those of a table.
#[derive(Clone, Copy)]
pub struct Sizes {
    /// What they count, in their sequence.
    counting: &'static [Counted],
    /// Some that are within their limits.
    within: &'static [u8],
    /// What refuses others with 2.
    check: Check,
}

/// The sizes of a query.
pub const QUERY: Sizes = Sizes {
    counting: &[
        ["column", "columns"],
        ["produced order", "produced orders"],
        ["tested order", "tested orders"],
        ["set", "sets"],
        ["dependency", "dependencies"],
    ],
    within: &[1, 1, 0, 0, 0],
    check: query_check,
};

/// The sizes of a table.
pub const TABLE: Sizes = Sizes {
    counting: &[
        ["state", "states"],
        QUERY.counting[1],
        QUERY.counting[2],
        QUERY.counting[3],
    ],
    within: &[1, 1, 0, 0],
    check: |table| Table::new(table).check().err(),
};

impl Sizes {
    /// How many sizes there are.
    pub fn count(self) -> usize {
        self.counting.len()
    }

    /// The sizes, with which some bytes begin, that are outside their limits, with what
    /// would do, and the first one that is too many, if that of this place and number has
    /// a name.
    pub fn outside(self, bytes: &[u8], name: impl Fn(usize, usize) -> Option<String>) -> String {
        let sizes = bytes.iter().zip(self.counting).enumerate();
        let outside = sizes.filter(|&(place, (&size, _))| !self.is_within(place, size));
        let outside = outside.map(|(place, (&size, &what))| {
            let (least, most) = (self.least(place), self.most(place));
            let size = counted(size.into(), what);
            let first = name(place, most.into());
            let from = first.map(|first| format!(" (too many from {first} on)"));
            let from = from.unwrap_or_default();
            format!("{size} where {least} to {most} would do{from}")
        });
        joined(&outside.collect::<Vec<String>>(), "and")
    }

    /// Whether a size is not refused with 2 when it is put in its place among others that
    /// are within their limits.
    fn is_within(self, place: usize, size: u8) -> bool {
        let mut sizes = self.within.to_vec();
        sizes[place] = size;
        (self.check)(&sizes) != Some(Refusal::Size)
    }

    /// The least that a size may be.
    fn least(self, place: usize) -> u8 {
        let mut sizes = 0..=self.within[place];
        let least = sizes.find(|&size| self.is_within(place, size));
        least.unwrap_or(self.within[place])
    }

    /// The most that a size may be.
    fn most(self, place: usize) -> u8 {
        let mut sizes = (self.within[place]..=u8::MAX).rev();
        let most = sizes.find(|&size| self.is_within(place, size));
        most.unwrap_or(self.within[place])
    }
}

/// Which of the checks 1 to 6 refuses a query.
pub fn query_check(query: &[u8]) -> Option<Refusal> {
    Proved::new(query).err()
}

/// How many states there are, in words.
pub fn states_text(states: usize) -> String {
    counted(states, TABLE.counting[0])
}

/// The most states of a table.
pub fn most_states() -> u8 {
    TABLE.most(0)
}

/// How many produced orders, tested orders and sets there are, in words.
pub fn sizes_text(sizes: [usize; 3]) -> String {
    let sizes = sizes.into_iter().zip(&TABLE.counting[1..]);
    let sizes: Vec<String> = sizes.map(|(size, &of)| counted(size, of)).collect();
    joined(&sizes, "and")
}
