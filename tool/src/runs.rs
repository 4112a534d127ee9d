//! Shortest runs of sets.

use std::collections::{HashSet, VecDeque};
use std::hash::Hash;

use order_tables::SetHandle;

/// All that runs of sets reach from a start, each once with the shortest run that leads
/// to it; of equally short ones with the one that has the smaller set numbers. Shorter
/// runs come first, and equally short ones by their set numbers.
pub struct Runs<P, S, F> {
    sets: S,
    take: F,
    seen: HashSet<P>,
    waiting: VecDeque<(P, Vec<SetHandle>)>,
}

impl<P: Copy + Eq + Hash, S, F> Runs<P, S, F> {
    /// The runs of these sets, which come by their numbers, from a start, where taking a
    /// set in a place leads to another one.
    pub fn new(start: P, sets: S, take: F) -> Self {
        Self {
            sets,
            take,
            seen: HashSet::from([start]),
            waiting: VecDeque::from([(start, Vec::new())]),
        }
    }
}

impl<P, S, F> Iterator for Runs<P, S, F>
where
    P: Copy + Eq + Hash,
    S: Iterator<Item = SetHandle> + Clone,
    F: Fn(P, SetHandle) -> P,
{
    type Item = (P, Vec<SetHandle>);

    fn next(&mut self) -> Option<Self::Item> {
        let (place, run) = self.waiting.pop_front()?;
        for set in self.sets.clone() {
            let next = (self.take)(place, set);
            if self.seen.insert(next) {
                let mut longer = run.clone();
                longer.push(set);
                self.waiting.push_back((next, longer));
            }
        }
        Some((place, run))
    }
}

#[cfg(test)]
mod tests {
    use super::*;

    #[test]
    fn gives_the_shortest_run_and_of_equally_short_ones_the_one_of_smaller_sets() {
        // Places 0 to 4. Set 0 goes from 0 to 1 and from 2 to 3, set 1 from 0 to 2 and
        // from 1 to 3, set 2 from 3 to 4; nothing else moves.
        let take = |place: u8, set: SetHandle| match (place, set.0) {
            (0, 0) => 1,
            (0, 1) => 2,
            (1, 1) | (2, 0) => 3,
            (3, 2) => 4,
            (place, _) => place,
        };
        let runs = Runs::new(0, (0..3).map(SetHandle), take);
        let runs = runs.map(|(place, run)| (place, run.iter().map(|set| set.0).collect()));
        let runs: Vec<(u8, Vec<u8>)> = runs.collect();
        let expected = [
            (0, vec![]),
            (1, vec![0]),
            (2, vec![1]),
            (3, vec![0, 1]),
            (4, vec![0, 1, 2]),
        ];
        assert_eq!(runs, expected);
    }
}
