//! Samples to try implementations on: random queries, tables, lists of lookups
//! and rows, what is asked of a query, bytes that are close to a query or a table
//! and bytes that are far from it, queries at the limits, tables that a supplier may
//! send, and what may become of the scratch of a stepped build.

mod asked;
mod bytes;
mod lookups;
mod queries;
mod rows;
mod stepped;
mod supplied;
mod tables;

pub use asked::{all_asked, asked, rooms};
pub use bytes::{
    any_bytes, assorted_bytes, choices, damaged, each_byte_changed, of_nearly_this_length,
};
pub use lookups::{asks_after, lookups, rearranged};
pub use queries::{
    all_orderings, any_query, any_read_query, chain_of_equals, chains_with_table, constants,
    dependency, joined_starts, longest_table, most_orders, near_the_most_rows, nearly_query,
    own_column_per_set, query, query_of_chains, query_of_many_rows, query_of_sizes,
    query_with_table, some_columns, some_order, turned, with_equal_orders, with_turned_orders,
    Shape, QUERY_EDGES,
};
pub use rows::rows;
pub use stepped::{counts, Changed};
pub use supplied::{
    longest_chain, renumbered, supplied, supplied_for_any, unmerged, Kind, Supplied,
};
pub use tables::{any_table, table_of_sizes, TABLE_EDGES};
