//! Looking for queries that are slow to build: many random large ones, and small
//! changes of the slowest.

use std::time::{Duration, Instant};

use reference::random::Random;
use reference::samples::{
    self, dependency, query_of_chains, query_of_many_rows, some_order, Shape,
};
use reference::Query;

use crate::timing::Builds;

/// How often a build is timed before it counts as the slowest.
const TURNS: usize = 3;
/// How many climbs there are, each from a random query of its own.
const CLIMBS: u32 = 6;
/// How many random queries a climb begins with.
const BEGINNINGS: usize = 400;

/// A query and how long its build takes.
#[derive(Clone)]
pub struct Slow {
    /// The query.
    pub query: Query,
    /// Nanoseconds of its build.
    pub nanoseconds: f64,
}

/// The slowest builds found so far: of those that end in a table, and of those
/// refused with 8.
#[derive(Default)]
pub struct Slowest {
    by_outcome: [Option<Slow>; 2],
    /// How many builds were timed.
    pub tried: usize,
}

impl Slowest {
    /// Looks for so long.
    pub fn find(random: &mut Random, time: Duration) -> Self {
        let mut builds = Builds::new();
        let mut slowest = Self::default();
        for _ in 0..CLIMBS {
            let climb = Self::climb(random, &mut builds, time / CLIMBS);
            slowest.tried += climb.tried;
            for (slowest, found) in slowest.by_outcome.iter_mut().zip(climb.by_outcome) {
                let slower = match (&slowest, &found) {
                    (Some(slowest), Some(found)) => found.nanoseconds > slowest.nanoseconds,
                    _ => found.is_some(),
                };
                if slower {
                    *slowest = found;
                }
            }
        }
        slowest
    }

    /// The slowest build that ends in a table, and that is refused with 8.
    pub fn of_each_outcome(&self) -> impl Iterator<Item = &Slow> {
        self.by_outcome.iter().flatten()
    }

    /// Looks for so long: first at any queries, then at changes of the slowest.
    fn climb(random: &mut Random, builds: &mut Builds, time: Duration) -> Self {
        let begin = Instant::now();
        let mut slowest = Self::default();
        while begin.elapsed() < time {
            let changed = slowest.changed(random);
            let query = match changed {
                Some(changed) if slowest.tried > BEGINNINGS => changed,
                _ => large_query(random),
            };
            slowest.try_out(builds, query);
        }
        slowest
    }

    /// Times the build of a query, and keeps it if it is the slowest.
    fn try_out(&mut self, builds: &mut Builds, query: Query) {
        let bytes = query.write();
        let begin = Instant::now();
        let result = builds.proved(&bytes);
        let first = begin.elapsed().as_nanos() as f64;
        let outcome = match result >> 16 {
            0 => 0,
            8 => 1,
            _ => return,
        };
        self.tried += 1;
        let kept = &mut self.by_outcome[outcome];
        let least = kept.as_ref().map_or(0.0, |slow| slow.nanoseconds);
        if first <= least {
            return;
        }
        let nanoseconds = builds.proved_time(TURNS, &bytes);
        if nanoseconds > least {
            *kept = Some(Slow { query, nanoseconds });
        }
    }

    /// A slowest query with one to three changes. A refusal may be a change away from
    /// a table.
    fn changed(&self, random: &mut Random) -> Option<Query> {
        let slow = self.by_outcome[random.below(2)].as_ref()?;
        let mut query = slow.query.clone();
        for _ in 0..random.between((1, 3)) {
            change(random, &mut query);
        }
        Some(query)
    }
}

/// The most sets of a query.
const MOST_SETS: u8 = 8;

/// The largest sizes, but for the dependencies.
const LARGE: Shape = Shape {
    dependencies: (2, 16),
    ..Shape::LARGEST
};

/// A random query that may be slow to build.
fn large_query(random: &mut Random) -> Query {
    match random.below(4) {
        0 => samples::query(random, LARGE),
        1 => query_of_chains(random, LARGE),
        2 => query_of_many_rows(random),
        _ => samples::query(random, Shape::FULL),
    }
}

/// Changes one order or one dependency, and then has the most sets. The query may be
/// refused afterwards.
fn change(random: &mut Random, query: &mut Query) {
    let columns = random.between((4, 12)) as u8;
    query.columns = 12;
    match random.below(8) {
        0 => {
            let order = some_order(random, columns, (0, 4));
            put(random, &mut query.produced, 8, order);
        }
        1 => {
            let order = some_order(random, columns, (1, 4));
            put(random, &mut query.tested, 8, order);
        }
        2 if query.produced.len() > 1 => remove(random, &mut query.produced),
        3 if !query.tested.is_empty() => remove(random, &mut query.tested),
        4 if !query.dependencies.is_empty() => remove(random, &mut query.dependencies),
        5 if !query.dependencies.is_empty() => {
            let place = random.below(query.dependencies.len());
            query.dependencies[place].set = random.below(MOST_SETS.into()) as u8;
        }
        _ => {
            let dependency = dependency(random, columns, MOST_SETS);
            put(random, &mut query.dependencies, 16, dependency);
        }
    }
    query.sets = MOST_SETS;
}

/// Puts an item into a list: behind it if there is room, or in another's stead.
fn put<T>(random: &mut Random, items: &mut Vec<T>, most: usize, item: T) {
    let place = random.below(most);
    if place < items.len() {
        items[place] = item;
    } else {
        items.push(item);
    }
}

/// Takes an item out of a list that has one.
fn remove<T>(random: &mut Random, items: &mut Vec<T>) {
    items.swap_remove(random.below(items.len()));
}
