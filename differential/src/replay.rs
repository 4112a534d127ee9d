//! The bytes of a replay: a list of lookups, and the answers in its place.

use reference::lookups::{Answer, Lookup};

/// A list of lookups as the bytes that a replay takes: of each its kind, then its
/// handle.
pub fn lookup_bytes(lookups: &[Lookup]) -> Vec<u8> {
    lookups
        .iter()
        .flat_map(|&lookup| match lookup {
            Lookup::Enter(produced) => [0, produced],
            Lookup::Take(set) => [1, set],
            Lookup::Ask(order) => [2, order],
        })
        .collect()
}

/// The answers that a replay has put in place of these lookups: of each the
/// refusal, then the value.
pub fn replayed_answers(lookups: &[Lookup], replayed: &[u8]) -> Vec<Answer> {
    let pairs = replayed.chunks_exact(2).map(|pair| (pair[0], pair[1]));
    lookups
        .iter()
        .zip(pairs)
        .map(|(lookup, (refusal, value))| match lookup {
            _ if refusal != 0 => Answer::Refused(refusal),
            Lookup::Ask(_) => Answer::Held(value == 1),
            Lookup::Enter(_) | Lookup::Take(_) => Answer::Granted,
        })
        .collect()
}
