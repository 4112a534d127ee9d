//! What is asked of a query for two rows, and lengths of their buffer.

use crate::counterexample::Asked;
use crate::query::Query;
use crate::random::Random;
use crate::samples::bytes::{any_byte, choices};

/// All that can be asked of a query and is not refused.
pub fn all_asked(query: &Query) -> impl Iterator<Item = Asked> {
    let orders = query.interesting().count();
    let counts = [query.produced.len(), 1 << query.sets, orders];
    let below = counts.map(|count| (0..=255).take(count).collect::<Vec<u8>>());
    let all = choices(below.each_ref().map(Vec::as_slice));
    all.into_iter().map(Asked::from)
}

/// Something asked of a query, read or refused. Once in a while an order or a set is
/// not in it.
pub fn asked(random: &mut Random, query: &[u8]) -> Asked {
    let [produced, tested, sets] = [1, 2, 3].map(|place| size(query, place, 8));
    Asked {
        produced: most_often_below(random, produced),
        sets: most_often_below(random, 1 << sets),
        order: most_often_below(random, produced + tested),
    }
}

/// Lengths of a buffer for two rows of a query, read or refused: four that are too
/// short, then four that are long enough.
pub fn rooms(query: &[u8]) -> [usize; 8] {
    let columns = size(query, 0, 12).max(1);
    let rows = 2 * columns;
    [0, 1, columns, rows - 1, rows, rows + 1, 3 * columns, 4096]
}

/// A byte below the count, or once in a while the first one that is not, or any.
fn most_often_below(random: &mut Random, count: usize) -> u8 {
    match random.below(24) {
        0 => any_byte(random),
        1 => count.min(255) as u8,
        _ => random.below(count.max(1)) as u8,
    }
}

/// A size of a query, as far as there is one within its limit.
fn size(query: &[u8], place: usize, most: u8) -> usize {
    query.get(place).map_or(0, |&size| size.min(most)).into()
}
