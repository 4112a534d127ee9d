//! Derivation of orderings of any length: single steps, and steps repeated until
//! nothing is added.
//!
//! Each column may stand in either direction. So of five columns there are 6,331
//! orderings and of six 75,973; this is for few columns.

use std::collections::HashSet;

use crate::query::{Dependency, Entry, Rule};

/// A derived ordering: entries of different columns, most significant first, any
/// length.
pub type Ordering = Vec<Entry>;

/// The start from a produced order: that order and all its prefixes.
pub fn start(order: &[Entry]) -> HashSet<Ordering> {
    (0..=order.len())
        .map(|length| order[..length].to_vec())
        .collect()
}

/// All results of one step from an ordering under some dependencies.
pub fn steps<'a>(
    ordering: &[Entry],
    dependencies: impl IntoIterator<Item = &'a Dependency>,
) -> HashSet<Ordering> {
    results_of_step(ordering, dependencies)
        .into_iter()
        .collect()
}

/// All results of one step, some of them perhaps twice.
fn results_of_step<'a>(
    ordering: &[Entry],
    dependencies: impl IntoIterator<Item = &'a Dependency>,
) -> Vec<Ordering> {
    let mut results = Vec::new();
    if let Some((_, prefix)) = ordering.split_last() {
        results.push(prefix.to_vec());
    }
    for dependency in dependencies {
        match &dependency.rule {
            Rule::Fix { left, right } => use_fix(ordering, left, *right, &mut results),
            Rule::Equal(one, other) => {
                use_equal(ordering, *one, *other, &mut results);
                use_equal(ordering, *other, *one, &mut results);
            }
        }
    }
    results
}

/// Everything steps under these dependencies give from some orderings,
/// repeated until nothing is added, with those orderings themselves.
pub fn closure<'a>(
    from: impl IntoIterator<Item = Ordering>,
    dependencies: impl IntoIterator<Item = &'a Dependency> + Clone,
) -> HashSet<Ordering> {
    let mut reached: HashSet<Ordering> = from.into_iter().collect();
    let mut waiting: Vec<Ordering> = reached.iter().cloned().collect();
    while let Some(ordering) = waiting.pop() {
        for result in results_of_step(&ordering, dependencies.clone()) {
            if !reached.contains(&result) {
                reached.insert(result.clone());
                waiting.push(result);
            }
        }
    }
    reached
}

/// A fix whose left columns all occur. Where the right column doesn't, it goes in at
/// any place behind all left columns, the end included, in either direction. Where it
/// stands behind all left columns, it is taken out.
fn use_fix(ordering: &[Entry], left: &[u8], right: u8, results: &mut Vec<Ordering>) {
    let behind_left = left.iter().try_fold(0, |behind, column| {
        place_of(ordering, *column).map(|place| behind.max(place + 1))
    });
    let Some(first) = behind_left else {
        return;
    };
    match place_of(ordering, right) {
        None => insert_from(ordering, first, right, results),
        Some(place) if first <= place => {
            results.push(removed(ordering, place));
        }
        Some(_) => {}
    }
}

/// An equal, one way round. Where the first column occurs and the other one doesn't,
/// the other one goes in at any place behind the first, in either direction, or
/// directly before it or in its stead, in the first one's direction. Where the other
/// one stands behind the first, it is taken out.
fn use_equal(ordering: &[Entry], first: u8, other: u8, results: &mut Vec<Ordering>) {
    let Some(place) = place_of(ordering, first) else {
        return;
    };
    match place_of(ordering, other) {
        None => {
            insert_from(ordering, place + 1, other, results);
            let in_its_direction = Entry {
                column: other,
                ..ordering[place]
            };
            results.push(inserted(ordering, place, in_its_direction));
            let mut replaced = ordering.to_vec();
            replaced[place] = in_its_direction;
            results.push(replaced);
        }
        Some(behind) if place < behind => {
            results.push(removed(ordering, behind));
        }
        Some(_) => {}
    }
}

/// Where a column stands, in whichever direction.
fn place_of(ordering: &[Entry], column: u8) -> Option<usize> {
    ordering.iter().position(|entry| entry.column == column)
}

/// A column goes in at each place from the first one on, in either direction.
fn insert_from(ordering: &[Entry], first: usize, column: u8, results: &mut Vec<Ordering>) {
    for place in first..=ordering.len() {
        let entries = Entry::either(column);
        results.extend(entries.map(|entry| inserted(ordering, place, entry)));
    }
}

fn inserted(ordering: &[Entry], place: usize, entry: Entry) -> Ordering {
    let mut longer = ordering.to_vec();
    longer.insert(place, entry);
    longer
}

fn removed(ordering: &[Entry], place: usize) -> Ordering {
    let mut shorter = ordering.to_vec();
    shorter.remove(place);
    shorter
}
