//! The proved library's functions as they are: each returns a refusal's number
//! times 65,536 plus a value, and those that read an item of a query a refusal's
//! number times 2 to the 48 plus a value. On refusal the value is 0. A slice passes
//! as a pointer and a length.

#![allow(unsafe_code)]

extern "C" {
    fn order_query_check(query: *const u8, length: usize) -> u32;
    fn order_query_order(query: *const u8, length: usize, i: u8) -> u64;
    fn order_query_dependency(query: *const u8, length: usize, i: u8) -> u64;
    fn order_query_counterexample(
        query: *const u8,
        query_length: usize,
        produced: u8,
        sets: u8,
        order: u8,
        rows: *mut u8,
        rows_length: usize,
    ) -> u32;
    fn order_table_build(
        query: *const u8,
        query_length: usize,
        scratch: *mut u8,
        scratch_length: usize,
        output: *mut u8,
        output_length: usize,
    ) -> u32;
    fn order_table_begin(
        query: *const u8,
        query_length: usize,
        scratch: *mut u8,
        scratch_length: usize,
    ) -> u32;
    fn order_table_continue(
        query: *const u8,
        query_length: usize,
        scratch: *mut u8,
        scratch_length: usize,
        output: *mut u8,
        output_length: usize,
    ) -> u32;
    fn order_table_check(table: *const u8, length: usize) -> u32;
    fn order_table_verify(
        query: *const u8,
        query_length: usize,
        table: *const u8,
        table_length: usize,
        scratch: *mut u8,
        scratch_length: usize,
    ) -> u32;
    fn order_table_enter(table: *const u8, length: usize, produced: u8) -> u32;
    fn order_table_take(table: *const u8, length: usize, state: u8, set: u8) -> u32;
    fn order_table_ask(table: *const u8, length: usize, state: u8, order: u8) -> u32;
    fn order_table_word(table: *const u8, length: usize, state: u8) -> u32;
    fn order_table_row(table: *const u8, length: usize, state: u8) -> u32;
    fn order_table_replay(
        query: *const u8,
        query_length: usize,
        scratch: *mut u8,
        scratch_length: usize,
        output: *mut u8,
        output_length: usize,
        lookups: *mut u8,
        lookups_length: usize,
    ) -> u32;
    fn order_table_list(
        query: *const u8,
        query_length: usize,
        scratch: *mut u8,
        scratch_length: usize,
        text: *mut u8,
        text_length: usize,
    ) -> u32;
}

// SAFETY, of every call below: each pointer and length are those of one slice,
// which is lent for the whole call. The function only reads what is lent as
// `&[u8]`. Slices lent as `&mut [u8]` overlap no other.

/// The checks 1 to 6 of a query: the refusal.
pub fn query_check(query: &[u8]) -> u32 {
    unsafe { order_query_check(query.as_ptr(), query.len()) }
}

/// Interesting order i of a query: its length in the lowest byte, then its entries, a
/// byte each, as the query has them.
pub fn query_order(query: &[u8], i: u8) -> u64 {
    unsafe { order_query_order(query.as_ptr(), query.len(), i) }
}

/// Dependency i of a query: its set in the lowest byte, its kind in the next one, then
/// its columns, a byte each.
pub fn query_dependency(query: &[u8], i: u8) -> u64 {
    unsafe { order_query_dependency(query.as_ptr(), query.len(), i) }
}

/// Writing two rows that show why an interesting order is not held into the buffer's
/// first bytes: 1 where they are written, 0 where there are none.
pub fn query_counterexample(
    query: &[u8],
    produced: u8,
    sets: u8,
    order: u8,
    rows: &mut [u8],
) -> u32 {
    unsafe {
        order_query_counterexample(
            query.as_ptr(),
            query.len(),
            produced,
            sets,
            order,
            rows.as_mut_ptr(),
            rows.len(),
        )
    }
}

/// Building a query's table into the output's first bytes: the table's length.
pub fn table_build(query: &[u8], scratch: &mut [u8], output: &mut [u8]) -> u32 {
    unsafe {
        order_table_build(
            query.as_ptr(),
            query.len(),
            scratch.as_mut_ptr(),
            scratch.len(),
            output.as_mut_ptr(),
            output.len(),
        )
    }
}

/// Beginning a stepped build in the scratch: the refusal.
pub fn table_begin(query: &[u8], scratch: &mut [u8]) -> u32 {
    unsafe {
        order_table_begin(
            query.as_ptr(),
            query.len(),
            scratch.as_mut_ptr(),
            scratch.len(),
        )
    }
}

/// Continuing a stepped build: 0 where a pair was settled, and the table's length where
/// the table was written into the output's first bytes.
pub fn table_continue(query: &[u8], scratch: &mut [u8], output: &mut [u8]) -> u32 {
    unsafe {
        order_table_continue(
            query.as_ptr(),
            query.len(),
            scratch.as_mut_ptr(),
            scratch.len(),
            output.as_mut_ptr(),
            output.len(),
        )
    }
}

/// The table check: the refusal.
pub fn table_check(table: &[u8]) -> u32 {
    unsafe { order_table_check(table.as_ptr(), table.len()) }
}

/// The trial of a table for a query: the refusal.
pub fn table_verify(query: &[u8], table: &[u8], scratch: &mut [u8]) -> u32 {
    unsafe {
        order_table_verify(
            query.as_ptr(),
            query.len(),
            table.as_ptr(),
            table.len(),
            scratch.as_mut_ptr(),
            scratch.len(),
        )
    }
}

/// Entering by a produced order: the state.
pub fn table_enter(table: &[u8], produced: u8) -> u32 {
    unsafe { order_table_enter(table.as_ptr(), table.len(), produced) }
}

/// Taking a set in a state: the next state.
pub fn table_take(table: &[u8], state: u8, set: u8) -> u32 {
    unsafe { order_table_take(table.as_ptr(), table.len(), state, set) }
}

/// Asking for an interesting order in a state: 1 held, 0 not held.
pub fn table_ask(table: &[u8], state: u8, order: u8) -> u32 {
    unsafe { order_table_ask(table.as_ptr(), table.len(), state, order) }
}

/// A state's held bits as one word: bit i is interesting order i.
pub fn table_word(table: &[u8], state: u8) -> u32 {
    unsafe { order_table_word(table.as_ptr(), table.len(), state) }
}

/// A state's successor row: its offset in the table.
pub fn table_row(table: &[u8], state: u8) -> u32 {
    unsafe { order_table_row(table.as_ptr(), table.len(), state) }
}

/// Building a query's table into the output's first bytes and answering lookups
/// on it in place: the table's length.
pub fn table_replay(
    query: &[u8],
    scratch: &mut [u8],
    output: &mut [u8],
    lookups: &mut [u8],
) -> u32 {
    unsafe {
        order_table_replay(
            query.as_ptr(),
            query.len(),
            scratch.as_mut_ptr(),
            scratch.len(),
            output.as_mut_ptr(),
            output.len(),
            lookups.as_mut_ptr(),
            lookups.len(),
        )
    }
}

/// Listing a query into the text's first bytes: the length of what is written.
pub fn table_list(query: &[u8], scratch: &mut [u8], text: &mut [u8]) -> u32 {
    unsafe {
        order_table_list(
            query.as_ptr(),
            query.len(),
            scratch.as_mut_ptr(),
            scratch.len(),
            text.as_mut_ptr(),
            text.len(),
        )
    }
}
