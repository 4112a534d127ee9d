//! The lookups written by hand in C. A slice passes as a pointer and a length.

#![allow(unsafe_code)]

extern "C" {
    fn by_hand_enter(table: *const u8, length: usize, produced: u8) -> u32;
    fn by_hand_take(table: *const u8, length: usize, state: u8, set: u8) -> u32;
    fn by_hand_ask(table: *const u8, length: usize, state: u8, order: u8) -> u32;
    fn by_hand_word(table: *const u8, length: usize, state: u8) -> u32;
}

// SAFETY, of every call below: the pointer and the length are those of one
// slice, which is lent for the whole call, and the function only reads it.

/// Entering by a produced order: the state.
pub fn enter(table: &[u8], produced: u8) -> u32 {
    unsafe { by_hand_enter(table.as_ptr(), table.len(), produced) }
}

/// Taking a set in a state: the next state.
pub fn take(table: &[u8], state: u8, set: u8) -> u32 {
    unsafe { by_hand_take(table.as_ptr(), table.len(), state, set) }
}

/// Asking for an interesting order in a state: 1 held, 0 not held.
pub fn ask(table: &[u8], state: u8, order: u8) -> u32 {
    unsafe { by_hand_ask(table.as_ptr(), table.len(), state, order) }
}

/// A state's held bits as one word: bit i is interesting order i.
pub fn word(table: &[u8], state: u8) -> u32 {
    unsafe { by_hand_word(table.as_ptr(), table.len(), state) }
}
