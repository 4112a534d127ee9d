//! The numbers of the refusal list, under the list's own words.

/// Fewer bytes than the sizes take, or a total other than they imply.
pub const LENGTH: u8 = 1;
/// A size outside its limits.
pub const SIZE: u8 = 2;
/// An order length above 4, a kind above 4, a set not below S, or an unused
/// byte that is not 255.
pub const ITEM: u8 = 3;
/// A column not below N. In a dependency 128 and more is none, as dependencies have
/// no direction.
pub const COLUMN: u8 = 4;
/// A column twice in one order, in whichever directions, or in one dependency.
pub const REPEAT: u8 = 5;
/// Two equal interesting orders; ones that differ in a direction are not equal.
pub const TWIN: u8 = 6;
/// Never given: the number and its word stay in the list.
pub const ORDERINGS: u8 = 7;
/// More than 128 rows in the smallest table.
pub const STATES: u8 = 8;
/// Scratch below 16,384 bytes, output shorter than the table, or rows shorter than
/// two of N columns.
pub const SPACE: u8 = 9;
/// A state, produced order, set or interesting order not in the table or the query.
pub const HANDLE: u8 = 10;
/// A start or successor not below Q, or a held bit past P+T set.
pub const ROW: u8 = 11;
/// P, T or S in a table other than in the query.
pub const MISMATCH: u8 = 12;
/// An answer of a table, reached from a start through some run of sets, that is
/// not the derivation's.
pub const ANSWER: u8 = 13;
/// A count in the scratch that is 0, or above P × 2^S + 1: no build was begun there.
pub const COUNT: u8 = 14;
