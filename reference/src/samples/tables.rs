//! Random tables that no query needs to have.

use crate::random::Random;
use crate::samples::bytes::{any_byte, any_sizes};

/// Sizes of a table at and past their limits, and the most sets with which a query
/// is never refused with 8, whether with eight produced orders or with one.
pub const TABLE_EDGES: [&[u8]; 4] = [
    &[0, 1, 128, 129, 255],
    &[0, 1, 8, 9, 255],
    &[0, 8, 9, 255],
    &[0, 4, 7, 8, 9, 255],
];

/// A random table of the right total, most often of few states.
pub fn any_table(random: &mut Random) -> Vec<u8> {
    let most_states = if random.one_in(10) { 128 } else { 8 };
    let sizes = any_sizes(random, [(1, most_states), (1, 8), (0, 8), (0, 8)]);
    table_of_sizes(random, sizes)
}

/// A table of the total that its sizes imply, whatever they are. Its starts,
/// successors and held bits are random. Some tables have none that the table
/// check refuses.
pub fn table_of_sizes(random: &mut Random, sizes: [u8; 4]) -> Vec<u8> {
    let [states, produced, tested, sets] = sizes.map(usize::from);
    let strays = random.one_in(2);
    let mut table = sizes.to_vec();
    for _ in 0..produced + states * sets {
        let stray = states == 0 || strays && random.one_in(8);
        table.push(if stray {
            any_byte(random)
        } else {
            random.below(states) as u8
        });
    }
    for _ in 0..states {
        let stray = strays && random.one_in(8);
        let bits = if stray {
            16
        } else {
            (produced + tested).min(16)
        };
        let held = random.below(1 << bits) as u16;
        table.extend(held.to_le_bytes());
    }
    table
}
