//! Lists of lookups, most of them random.

use crate::lookups::Lookup;
use crate::query::Query;
use crate::random::Random;

/// A random list of lookups for a query: perhaps refused entries, then a
/// granted one, then any lookups, some of them with refused handles.
pub fn lookups(random: &mut Random, query: &Query, length: usize) -> Vec<Lookup> {
    let produced = query.produced.len();
    let interesting = produced + query.tested.len();
    let mut list = Vec::new();
    while random.one_in(8) {
        list.push(Lookup::Enter(random.between((produced, 255)) as u8));
    }
    list.push(Lookup::Enter(random.below(produced) as u8));
    for _ in 0..length {
        list.push(match random.below(16) {
            0 => Lookup::Enter(handle(random, produced)),
            1..=6 => Lookup::Take(handle(random, query.sets.into())),
            _ => Lookup::Ask(handle(random, interesting)),
        });
    }
    list
}

/// The lookups that enter by a produced order, take some sets in turn and ask for
/// every interesting order.
pub fn asks_after(query: &Query, produced: u8, sets: &[u8]) -> Vec<Lookup> {
    let mut lookups = vec![Lookup::Enter(produced)];
    lookups.extend(sets.iter().copied().map(Lookup::Take));
    lookups.extend((0..query.interesting().count() as u8).map(Lookup::Ask));
    lookups
}

/// The same sets in a random sequence, some of them taken again.
pub fn rearranged(random: &mut Random, sets: &[u8]) -> Vec<u8> {
    let mut rearranged = sets.to_vec();
    for _ in 0..random.below(sets.len() + 1) {
        rearranged.push(sets[random.below(sets.len())]);
    }
    random.shuffle(&mut rearranged);
    rearranged
}

/// A handle below the count, or once in a while one that is not.
fn handle(random: &mut Random, count: usize) -> u8 {
    let granted = count > 0 && !random.one_in(12);
    let handle = if granted {
        random.below(count)
    } else {
        random.between((count, 255))
    };
    handle as u8
}
