//! Queries at the limits, random queries, and bytes that are close to one.

use std::collections::HashSet;

use crate::builder::build_table;
use crate::derivation::Ordering;
use crate::query::{columns_of, order, ColumnSet, Dependency, Entry, Order, Query, DESCENDING};
use crate::random::Random;
use crate::samples::bytes::{any_byte, any_sizes, damaged};

/// Sizes of a query at and past their limits, and the most sets with which 8 never
/// comes, whether with eight produced orders or with one.
pub const QUERY_EDGES: [&[u8]; 5] = [
    &[0, 1, 12, 13, 255],
    &[0, 1, 8, 9, 255],
    &[0, 8, 9, 255],
    &[0, 4, 7, 8, 9, 255],
    &[0, 16, 17, 255],
];

/// The sizes of random queries, each from its least to its most.
#[derive(Clone, Copy, Debug)]
pub struct Shape {
    /// Columns, at least 1.
    pub columns: (usize, usize),
    /// Produced orders, at least 1. There may be fewer where two are equal.
    pub produced: (usize, usize),
    /// Tested orders. There may be fewer where two are equal.
    pub tested: (usize, usize),
    /// Columns in an order; never more than there are.
    pub lengths: (usize, usize),
    /// Sets.
    pub sets: (usize, usize),
    /// Dependencies; none without sets.
    pub dependencies: (usize, usize),
}

impl Shape {
    /// All that a query description may be.
    pub const FULL: Self = Self {
        columns: (1, 12),
        produced: (1, 8),
        tested: (0, 8),
        lengths: (0, 4),
        sets: (0, 8),
        dependencies: (0, 16),
    };
    /// All sizes but for the sets: the choices of four sets from eight starts are
    /// 128 pairs, which have no more rows, so 8 is never given.
    pub const FEW_SETS: Self = Self {
        sets: (0, 4),
        ..Self::FULL
    };
    /// All sizes but for the produced orders and the sets: the choices of seven
    /// sets from one start are 128 pairs, which have no more rows, so 8 is never
    /// given.
    pub const ONE_START: Self = Self {
        produced: (1, 1),
        sets: (0, 7),
        ..Self::FULL
    };
    /// The largest sizes, and long orders.
    pub const LARGEST: Self = Self {
        columns: (12, 12),
        produced: (8, 8),
        tested: (8, 8),
        lengths: (2, 4),
        sets: (8, 8),
        dependencies: (16, 16),
    };
    /// Few columns, so that orderings can be derived.
    pub const SMALL: Self = Self {
        columns: (1, 5),
        produced: (1, 3),
        tested: (0, 5),
        lengths: (0, 4),
        sets: (0, 3),
        dependencies: (0, 6),
    };
    /// Few columns, with orders and dependencies enough for chains.
    pub const CHAINS: Self = Self {
        columns: (3, 5),
        produced: (1, 3),
        tested: (2, 5),
        lengths: (1, 4),
        sets: (1, 3),
        dependencies: (2, 8),
    };
    /// More orders and sets than in small queries, and still few enough columns for
    /// deriving orderings.
    pub const MIDDLE: Self = Self {
        columns: (4, 5),
        produced: (1, 5),
        tested: (0, 8),
        lengths: (0, 4),
        sets: (0, 6),
        dependencies: (0, 8),
    };
}

/// Produced (a), and per set its own b fixed by a, with (a,b) tested: any choice
/// of sets has a row of its own.
pub fn own_column_per_set(sets: u8) -> Query {
    Query {
        columns: 12,
        produced: vec![order(&[0])],
        tested: (1..=sets).map(|b| order(&[0, b])).collect(),
        sets,
        dependencies: (0..sets)
            .map(|set| Dependency::fix(set, &[0], set + 1))
            .collect(),
    }
}

/// Seven sets with a column of its own for each, which have 128 rows. With `joined`
/// they have one fewer: the columns of the first six sets settle that of the last, by
/// way of another column, so the last set brings nothing to the six others. With
/// `unsorted` there is an unsorted scan besides, which has one row, as no set gives it
/// an order.
pub fn near_the_most_rows(joined: bool, unsorted: bool) -> Query {
    let mut query = own_column_per_set(7);
    if joined {
        query.dependencies.extend([
            Dependency::fix(5, &[1, 2, 3], 8),
            Dependency::fix(5, &[4, 5, 8], 7),
        ]);
    }
    if unsorted {
        query.produced.push(vec![]);
    }
    query
}

/// The most orders and sets, and the most rows: any choice of four constants has a
/// row of its own from each of eight starts. Two sets bring each constant.
pub fn longest_table() -> Query {
    Query {
        columns: 12,
        produced: (0..8).map(|c| order(&[c])).collect(),
        tested: (8..12)
            .flat_map(|k| [order(&[k]), order(&[k, k - 8])])
            .collect(),
        sets: 8,
        dependencies: (0..8)
            .map(|set| Dependency::fix(set, &[], 8 + set % 4))
            .collect(),
    }
}

/// Produced the first of some columns, tested the last one, and per set one column
/// more that is equal to the one before: the last one is in order after all sets,
/// so any choice of sets has a row, told from others by the sets it has not.
pub fn chain_of_equals(sets: u8) -> Query {
    Query {
        columns: sets + 1,
        produced: vec![order(&[0])],
        tested: vec![order(&[sets])],
        sets,
        dependencies: (0..sets)
            .map(|set| Dependency::equal(set, set, set + 1))
            .collect(),
    }
}

/// Produced (a) and (b), and every set says that a = b. Both starts hold the same
/// after any set, so there are three rows, however many sets.
pub fn joined_starts(sets: u8) -> Query {
    Query {
        columns: 2,
        produced: vec![order(&[0]), order(&[1])],
        tested: vec![],
        sets,
        dependencies: (0..sets).map(|set| Dependency::equal(set, 0, 1)).collect(),
    }
}

/// The most orders, and four sets. Set i fixes column 11 by columns i and i + 4, with
/// each such (c) produced and (c,11) tested: each start, and each start after its
/// set, has a row.
pub fn most_orders() -> Query {
    Query {
        columns: 12,
        produced: (0..8).map(|c| order(&[c])).collect(),
        tested: (0..8).map(|c| order(&[c, 11])).collect(),
        sets: 4,
        dependencies: (0..8).map(|c| Dependency::fix(c % 4, &[c], 11)).collect(),
    }
}

/// An unsorted scan, and one set of so many constants, all in tested orders.
pub fn constants(columns: u8) -> Query {
    let constants: Vec<u8> = (0..columns).collect();
    Query {
        columns,
        produced: vec![vec![]],
        tested: constants.chunks(3).map(order).collect(),
        sets: 1,
        dependencies: constants
            .iter()
            .map(|&k| Dependency::fix(0, &[], k))
            .collect(),
    }
}

/// The directions of a random query's entries.
#[derive(Clone, Copy, Debug)]
struct Directions {
    /// The columns that descend.
    descending: ColumnSet,
    /// One entry in so many stands in the other direction, if there is a number.
    strays: Option<usize>,
}

impl Directions {
    /// Random ones. For a quarter of the queries no entry descends; for another one
    /// all do, but for strays.
    fn any(random: &mut Random) -> Self {
        let some = random.below(1 << 12) as ColumnSet;
        let (descending, strays) = match random.below(4) {
            0 => (0, None),
            1 => (ColumnSet::MAX, Some(12)),
            2 => (some, Some(12)),
            _ => (some, Some(3)),
        };
        Self { descending, strays }
    }

    /// An order of these columns.
    fn order(self, random: &mut Random, columns: &[u8]) -> Order {
        let entries = columns.iter().map(|&column| Entry {
            column,
            descends: self.descending >> column & 1 == 1,
        });
        let mut order = entries.collect();
        self.stray(random, &mut order);
        order
    }

    /// Turns entries of an order round, as often as strays come.
    fn stray(self, random: &mut Random, order: &mut Order) {
        for entry in order {
            let is_stray = self.strays.is_some_and(|strays| random.one_in(strays));
            entry.descends ^= is_stray;
        }
    }
}

/// A random query that passes the checks 1 to 6.
pub fn query(random: &mut Random, shape: Shape) -> Query {
    let directions = Directions::any(random);
    query_in(random, shape, directions)
}

/// A random query that passes the checks 1 to 6, its entries in these directions.
fn query_in(random: &mut Random, shape: Shape, directions: Directions) -> Query {
    let columns = random.between(shape.columns) as u8;
    let mut seen = HashSet::new();
    let mut orders = |random: &mut Random, counts: (usize, usize)| -> Vec<Order> {
        (0..random.between(counts))
            .map(|_| {
                let columns = some_columns(random, columns, shape.lengths);
                directions.order(random, &columns)
            })
            .filter(|order| seen.insert(order.clone()))
            .collect()
    };
    let produced = orders(random, shape.produced);
    let tested = orders(random, shape.tested);
    let sets = random.between(shape.sets) as u8;
    let dependencies = match sets {
        0 => Vec::new(),
        _ => (0..random.between(shape.dependencies))
            .map(|_| dependency(random, columns, sets))
            .collect(),
    };
    Query {
        columns,
        produced,
        tested,
        sets,
        dependencies,
    }
}

/// A random query that is not refused, with its table.
pub fn query_with_table(random: &mut Random, shape: Shape) -> (Query, Vec<u8>) {
    first_with_table(|| query(random, shape))
}

/// A random query of chains that is not refused, with its table.
pub fn chains_with_table(random: &mut Random, shape: Shape) -> (Query, Vec<u8>) {
    first_with_table(|| query_of_chains(random, shape))
}

/// A random query that differs from this one in one order or one dependency, if
/// at all, and is not refused, with its table.
pub fn near_query_with_table(random: &mut Random, query: &Query) -> (Query, Vec<u8>) {
    first_with_table(|| with_an_item_changed(random, query))
}

/// The first query made so that is not refused, with its table.
fn first_with_table(mut make: impl FnMut() -> Query) -> (Query, Vec<u8>) {
    loop {
        let query = make();
        if let Ok(table) = build_table(&query.write()) {
            return (query, table);
        }
    }
}

/// A query of the same sizes with one order or one dependency made anew, or with one
/// entry turned round.
fn with_an_item_changed(random: &mut Random, query: &Query) -> Query {
    let mut changed = query.clone();
    let orders = changed.produced.iter_mut().chain(&mut changed.tested);
    let mut orders: Vec<&mut Order> = orders.collect();
    let item = random.below(orders.len() + query.dependencies.len());
    if item < orders.len() {
        let order = &mut orders[item];
        if random.one_in(2) {
            **order = some_order(random, query.columns, Shape::FULL.lengths);
        } else {
            turn_one(random, order);
        }
    } else {
        let made_anew = dependency(random, query.columns, query.sets);
        changed.dependencies[item - orders.len()] = made_anew;
    }
    changed
}

/// A random query with many rows: most sets fix a column of their own, so that
/// nearly every choice of sets has a row.
pub fn query_of_many_rows(random: &mut Random) -> Query {
    let directions = Directions {
        strays: None,
        ..Directions::any(random)
    };
    let sets = random.between((4, 8)) as u8;
    let mut query = own_column_per_set(sets);
    for order in query.produced.iter_mut().chain(&mut query.tested) {
        let columns = [&columns_of(order)[..], &[9]].concat();
        *order = directions.order(random, &columns);
    }
    for _ in 0..random.below(3) {
        query.dependencies[random.below(sets.into())] = dependency(random, 12, sets);
    }
    if random.one_in(2) {
        let columns = some_columns(random, 12, (2, 3));
        let order = directions.order(random, &columns);
        if !query.interesting().any(|other| *other == order) {
            query.produced.push(order);
        }
    }
    query
}

/// A random query in which columns are settled by way of others. Most dependencies
/// are chains of fixes with one left column, through columns in any sequence, some of
/// them closed to a cycle; they lie in any sequence and in any sets. Most tested
/// orders are produced ones with entries left out, put in or put elsewhere.
pub fn query_of_chains(random: &mut Random, shape: Shape) -> Query {
    let directions = Directions::any(random);
    let mut query = query_in(random, shape, directions);
    let (columns, sets) = (query.columns, query.sets);
    let mut chained = Vec::new();
    while sets > 0 && chained.len() < query.dependencies.len() {
        if random.one_in(3) {
            chained.push(dependency(random, columns, sets));
            continue;
        }
        let mut chain = some_columns(random, columns, (2, 5));
        if chain.len() > 2 && random.one_in(3) {
            chain.push(chain[0]);
        }
        let links = chain.windows(2);
        chained.extend(links.map(|link| {
            let set = random.below(sets.into()) as u8;
            match random.below(6) {
                0 => Dependency::equal(set, link[0], link[1]),
                _ => Dependency::fix(set, &link[..1], link[1]),
            }
        }));
    }
    random.shuffle(&mut chained);
    chained.truncate(query.dependencies.len());
    query.dependencies = chained;

    for place in 0..query.tested.len() {
        let order = &query.produced[random.below(query.produced.len())];
        let order = nearly_order(random, order, columns, directions);
        if !random.one_in(4) && !query.interesting().any(|other| *other == order) {
            query.tested[place] = order;
        }
    }
    query
}

/// An order with some entries left out, and perhaps one put in or put elsewhere, and
/// strays.
fn nearly_order(random: &mut Random, order: &Order, columns: u8, directions: Directions) -> Order {
    let mut near = order.clone();
    near.retain(|_| !random.one_in(3));
    directions.stray(random, &mut near);
    if random.one_in(2) {
        let column = random.below(columns.into()) as u8;
        near.retain(|entry| entry.column != column);
        near.truncate(3);
        let entry = directions.order(random, &[column])[0];
        near.insert(random.below(near.len() + 1), entry);
    }
    near
}

/// A random query that has one interesting order twice.
pub fn with_equal_orders(random: &mut Random) -> Query {
    with_an_order_again(random, |_, _| {})
}

/// A random query that has one interesting order again with one entry turned round, or
/// twice where the order is empty.
pub fn with_turned_orders(random: &mut Random) -> Query {
    with_an_order_again(random, turn_one)
}

/// A random query that has one interesting order again, with this change.
fn with_an_order_again(random: &mut Random, change: fn(&mut Random, &mut Order)) -> Query {
    let mut query = query(random, Shape::FULL);
    let interesting: Vec<_> = query.interesting().cloned().collect();
    let mut again = interesting[random.below(interesting.len())].clone();
    change(random, &mut again);
    let orders = match random.below(2) {
        0 => &mut query.produced,
        _ => &mut query.tested,
    };
    orders.truncate(7);
    orders.insert(random.below(orders.len() + 1), again);
    query
}

/// A query with the entries of some columns turned round. Where equals join these to
/// no others, it has the same table.
pub fn turned(query: &Query, columns: ColumnSet) -> Query {
    let mut turned = query.clone();
    let orders = turned.produced.iter_mut().chain(&mut turned.tested);
    for entry in orders.flatten() {
        entry.descends ^= columns >> entry.column & 1 == 1;
    }
    turned
}

/// Turns one entry of an order round, if it has one.
fn turn_one(random: &mut Random, order: &mut Order) {
    if !order.is_empty() {
        let place = random.below(order.len());
        order[place].descends ^= true;
    }
}

/// A random query that passes the checks 1 to 6, small or large.
pub fn any_read_query(random: &mut Random) -> Query {
    match random.below(8) {
        0 => query(random, Shape::FULL),
        1 => query_of_chains(random, Shape::FEW_SETS),
        2 => query_of_many_rows(random),
        3 => query_of_chains(random, Shape::ONE_START),
        4 => query_of_chains(random, Shape::CHAINS),
        5 => query(random, Shape::MIDDLE),
        _ => query(random, Shape::SMALL),
    }
}

/// The bytes of a query of any kind: small or large, read or refused.
pub fn any_query(random: &mut Random) -> Vec<u8> {
    match random.below(10) {
        0..=1 => query(random, Shape::SMALL).write(),
        2..=3 => query_of_chains(random, Shape::CHAINS).write(),
        4 => {
            let shape = [Shape::FULL, Shape::FEW_SETS, Shape::ONE_START][random.below(3)];
            query(random, shape).write()
        }
        5 => {
            let shape = [Shape::FULL, Shape::FEW_SETS, Shape::ONE_START][random.below(3)];
            query_of_chains(random, shape).write()
        }
        6 => query_of_many_rows(random).write(),
        7 => {
            let query = query(random, Shape::FULL).write();
            damaged(random, &query)
        }
        8 => match random.below(2) {
            0 => with_equal_orders(random).write(),
            _ => with_turned_orders(random).write(),
        },
        _ => nearly_query(random),
    }
}

/// Bytes that are nearly a query of few items, or one.
pub fn nearly_query(random: &mut Random) -> Vec<u8> {
    let sizes = any_sizes(random, [(1, 12), (1, 3), (0, 2), (0, 8), (0, 3)]);
    query_of_sizes(random, sizes)
}

/// Bytes of the total that a query's sizes imply, whatever they are. The items
/// are random, but close to what they may be.
pub fn query_of_sizes(random: &mut Random, sizes: [u8; 5]) -> Vec<u8> {
    let [columns, produced, tested, sets, dependencies] = sizes.map(usize::from);
    let mut heads = Vec::new();
    let mut fields = Vec::new();
    for item in 0..produced + tested + dependencies {
        let is_order = item < produced + tested;
        let (head, used) = if is_order {
            let length = random.between((0, 4));
            (length, length)
        } else {
            let kind = random.between((0, 4));
            (16 * kind + random.below(sets + 1), [1, 2, 3, 4, 2][kind])
        };
        heads.push(if random.one_in(32) {
            any_byte(random)
        } else {
            head as u8
        });
        let descending_one_in = if is_order { 2 } else { 32 };
        fields.extend((0..4).map(|place| match random.below(32) {
            0 => any_byte(random),
            _ if place >= used => 255,
            _ => {
                let column = random.below(columns + 1) as u8;
                match random.one_in(descending_one_in) {
                    true => column ^ DESCENDING,
                    false => column,
                }
            }
        }));
    }
    [sizes.to_vec(), heads, fields].concat()
}

/// A random dependency of one of so many sets on some of so many columns.
pub fn dependency(random: &mut Random, columns: u8, sets: u8) -> Dependency {
    let set = random.below(sets.into()) as u8;
    if columns > 1 && random.one_in(3) {
        let pair = some_columns(random, columns, (2, 2));
        return Dependency::equal(set, pair[0], pair[1]);
    }
    let right_then_left = some_columns(random, columns, (1, 4));
    Dependency::fix(set, &right_then_left[1..], right_then_left[0])
}

/// Different ones of so many columns, in a random sequence: from the least to
/// the most, or all of them where these are fewer.
pub fn some_columns(random: &mut Random, columns: u8, lengths: (usize, usize)) -> Vec<u8> {
    let length = random.between(lengths);
    let mut columns: Vec<u8> = (0..columns).collect();
    random.shuffle(&mut columns);
    columns.truncate(length);
    columns
}

/// An order of different ones of so many columns, in a random sequence and in random
/// directions: from the least to the most, or all of them where these are fewer.
pub fn some_order(random: &mut Random, columns: u8, lengths: (usize, usize)) -> Order {
    let columns = some_columns(random, columns, lengths);
    Directions::any(random).order(random, &columns)
}

/// All orderings of so many columns, the shorter ones first.
pub fn all_orderings(columns: u8) -> Vec<Ordering> {
    let mut orderings: Vec<Ordering> = vec![vec![]];
    let mut next = 0;
    while next < orderings.len() {
        for entry in (0..columns).flat_map(Entry::either) {
            if !columns_of(&orderings[next]).contains(&entry.column) {
                let longer = [orderings[next].as_slice(), &[entry]].concat();
                orderings.push(longer);
            }
        }
        next += 1;
    }
    orderings
}
