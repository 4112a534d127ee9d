//! Bytes of any kind, and sizes.

use crate::random::Random;

/// A random byte.
pub fn any_byte(random: &mut Random) -> u8 {
    random.below(256) as u8
}

/// So many random bytes.
pub fn any_bytes(random: &mut Random, count: usize) -> Vec<u8> {
    (0..count).map(|_| any_byte(random)).collect()
}

/// Random bytes of many lengths, none and few among them, some of them all
/// small.
pub fn assorted_bytes(random: &mut Random) -> Vec<Vec<u8>> {
    let mut assorted = vec![Vec::new()];
    for _ in 0..500 {
        for length in 1..=6 {
            let bytes = any_bytes(random, length);
            assorted.push(bytes.iter().map(|byte| byte % 10).collect());
            assorted.push(bytes);
        }
        let length = random.below(300);
        assorted.push(any_bytes(random, length));
    }
    assorted
}

/// All ways to choose one size from each list.
pub fn choices<const SIZES: usize>(edges: [&[u8]; SIZES]) -> Vec<[u8; SIZES]> {
    let mut chosen = vec![[0; SIZES]];
    for (place, edge) in edges.into_iter().enumerate() {
        chosen = chosen
            .iter()
            .flat_map(|sizes| {
                edge.iter().map(move |&size| {
                    let mut sizes = *sizes;
                    sizes[place] = size;
                    sizes
                })
            })
            .collect();
    }
    chosen
}

/// Random sizes, each from its least to its most.
pub fn any_sizes<const SIZES: usize>(
    random: &mut Random,
    limits: [(usize, usize); SIZES],
) -> [u8; SIZES] {
    limits.map(|limits| random.between(limits) as u8)
}

/// Some bytes, of which there is at least one; with one more; with one fewer.
pub fn of_nearly_this_length(bytes: &[u8]) -> [Vec<u8>; 3] {
    let longer = [bytes, &[255]].concat();
    let shorter = bytes[..bytes.len() - 1].to_vec();
    [bytes.to_vec(), longer, shorter]
}

/// All copies of some bytes with one of them changed to one of these.
pub fn each_byte_changed(bytes: &[u8], others: impl Iterator<Item = u8> + Clone) -> Vec<Vec<u8>> {
    let mut copies = Vec::new();
    for place in 0..bytes.len() {
        for byte in others.clone() {
            let mut changed = bytes.to_vec();
            changed[place] = byte;
            copies.push(changed);
        }
    }
    copies
}

/// A copy of some bytes, of which there is at least one, with some cut off, some
/// put behind, or up to three of them changed.
pub fn damaged(random: &mut Random, bytes: &[u8]) -> Vec<u8> {
    let mut damaged = bytes.to_vec();
    match random.below(8) {
        0 => damaged.truncate(random.below(bytes.len())),
        1 => {
            let more = random.between((1, 8));
            damaged.extend(any_bytes(random, more));
        }
        _ => {
            for _ in 0..random.between((1, 3)) {
                let byte = &mut damaged[random.below(bytes.len())];
                *byte = match random.below(4) {
                    0 => any_byte(random),
                    1 => *byte ^ 1 << random.below(8),
                    2 => byte.wrapping_add(1),
                    _ => byte.wrapping_sub(1),
                };
            }
        }
    }
    damaged
}
