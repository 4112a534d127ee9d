//! Checking and looking up tables: the proved library and the second
//! implementation give the same states, the same held bits, the same words, the
//! same rows and the same refusals. The library's asks say what the bits of its
//! own words say.

use differential::lent::Lent;
use differential::tally::Tally;
use differential::{codes, proved};
use reference::builder::build_table;
use reference::random::Random;
use reference::samples::{self, Shape};
use reference::{table, trials};

/// A comparison of tables, and what was compared so far.
struct Comparison {
    random: Random,
    checks: Tally,
    lookups: Tally,
    words: Tally,
    /// Of each bit, the words in which it is 1.
    words_by_bit: [usize; 16],
    /// Of the asks that are not refused, how many orders' bits are 0 in the word, and
    /// how many are 1.
    asks_by_bit: [usize; 2],
}

impl Comparison {
    fn new(seed: u64) -> Self {
        Self {
            random: Random::new(seed),
            checks: Tally::default(),
            lookups: Tally::default(),
            words: Tally::default(),
            words_by_bit: [0; 16],
            asks_by_bit: [0; 2],
        }
    }

    /// Compares the check of a table and lookups with some handles.
    fn compare(&mut self, table: &[u8]) {
        let lent = Lent::new(&mut self.random, table);
        self.compare_check(lent.bytes());
        for _ in 0..8 {
            let [one, other] = [self.handle(), self.handle()];
            self.compare_with_one(lent.bytes(), one);
            self.compare_with_two(lent.bytes(), one, other);
        }
        assert!(lent.is_unchanged(), "written to table {table:?}");
    }

    /// Compares the check of a table and the lookups with every handle.
    fn compare_with_every_handle(&mut self, table: &[u8]) {
        let lent = Lent::new(&mut self.random, table);
        self.compare_check(lent.bytes());
        for one in 0..=255 {
            self.compare_with_one(lent.bytes(), one);
            for other in 0..=255 {
                self.compare_with_two(lent.bytes(), one, other);
            }
        }
        assert!(lent.is_unchanged(), "written to table {table:?}");
    }

    fn compare_check(&mut self, table: &[u8]) {
        let check = proved::table_check(table);
        let expected = codes::answer(table::check(table).map(|()| 0));
        assert_eq!(check, expected, "check of table {table:?}");
        self.checks.count(check);
    }

    /// Compares an entry, a word and a row.
    fn compare_with_one(&mut self, table: &[u8], handle: u8) {
        let state = proved::table_enter(table, handle);
        let expected = codes::answer(table::enter(table, handle).map(u32::from));
        assert_eq!(state, expected, "enter {handle}, table {table:?}");
        self.lookups.count(state);

        let word = proved::table_word(table, handle);
        let expected = codes::answer(table::word(table, handle).map(u32::from));
        assert_eq!(word, expected, "word {handle}, table {table:?}");
        self.words.count(word);
        for (bit, words) in self.words_by_bit.iter_mut().enumerate() {
            *words += (word >> bit & 1) as usize;
        }

        let row = proved::table_row(table, handle);
        let place = |row: &[u8]| (row.as_ptr().addr() - table.as_ptr().addr()) as u32;
        let expected = codes::answer(table::row(table, handle).map(place));
        assert_eq!(row, expected, "row {handle}, table {table:?}");
        self.lookups.count(row);
    }

    /// Compares a take and an ask.
    fn compare_with_two(&mut self, table: &[u8], state: u8, handle: u8) {
        let next = proved::table_take(table, state, handle);
        let expected = codes::answer(table::take(table, state, handle).map(u32::from));
        assert_eq!(next, expected, "take {handle} in {state}, table {table:?}");
        self.lookups.count(next);

        let held = proved::table_ask(table, state, handle);
        let expected = codes::answer(table::ask(table, state, handle).map(u32::from));
        assert_eq!(held, expected, "ask {handle} in {state}, table {table:?}");
        self.lookups.count(held);
        self.compare_with_own_word(table, state, handle, held);
    }

    /// Compares the library's ask with its own word: where the word is refused, the
    /// ask is refused so, and where the ask is not refused, it is its order's bit.
    fn compare_with_own_word(&mut self, table: &[u8], state: u8, order: u8, held: u32) {
        let word = proved::table_word(table, state);
        let expected = match [word, held].map(|code| code >> 16) {
            [0, 0] => {
                self.asks_by_bit[held as usize] += 1;
                word >> order & 1
            }
            // The state is in the table, and the order is not.
            [0, _] => return,
            _ => word,
        };
        assert_eq!(
            held, expected,
            "ask {order} in {state}, word {word}, table {table:?}"
        );
    }

    /// Any handle, or one that is likely to be in a table.
    fn handle(&mut self) -> u8 {
        let limit = [4, 10, 256][self.random.below(3)];
        self.random.below(limit) as u8
    }

    /// Whether words with each of these refusals, 0 for none, were compared more
    /// often than so.
    fn has_words(&self, refusals: &[u8], count: usize) -> bool {
        refusals
            .iter()
            .all(|&refusal| self.words.with(refusal) > count)
    }

    /// Whether words with each bit were compared more often than so.
    fn has_words_with_each_bit(&self, count: usize) -> bool {
        self.words_by_bit.iter().all(|&words| words > count)
    }

    /// Whether asks that say held and asks that say not held were compared with
    /// their words more often than so.
    fn has_asks_of_both_bits(&self, count: usize) -> bool {
        self.asks_by_bit.iter().all(|&asks| asks > count)
    }

    /// Says what was compared.
    fn report(&self, what: &str) {
        let Self {
            checks,
            lookups,
            words,
            words_by_bit,
            asks_by_bit: [not_held, held],
            ..
        } = self;
        println!(
            "{what}: {checks}; of their lookups {lookups}; of their words {words}, \
             {} with bit 15; of the asks beside their words {held} held, {not_held} not held",
            words_by_bit[15]
        );
    }
}

#[test]
fn built_tables_and_damaged_ones() {
    let mut built = Comparison::new(1);
    let mut damages = Comparison::new(2);
    for (shape, count) in [(Shape::SMALL, 3000), (Shape::FULL, 500)] {
        for _ in 0..count {
            let (_, table) = samples::query_with_table(&mut built.random, shape);
            built.compare(&table);
            for _ in 0..4 {
                damages.compare(&samples::damaged(&mut built.random, &table));
            }
        }
    }
    built.report("built tables");
    damages.report("damaged tables");
    assert_eq!(built.checks.with(0), 3500);
    assert!([0, 1, 2, 11]
        .iter()
        .all(|&refusal| damages.checks.with(refusal) > 500));
    assert!(damages.lookups.with(11) > 500);
    assert!(built.has_words(&[0, 10], 5000) && built.has_asks_of_both_bits(1000));
    assert!(built.words_by_bit[8..].iter().sum::<usize>() > 50);
    assert!(damages.has_words(&[0, 1, 2, 10], 5000) && damages.has_words_with_each_bit(500));
    assert!(damages.has_asks_of_both_bits(1000));
}

#[test]
fn random_tables() {
    let mut comparison = Comparison::new(3);
    for _ in 0..5000 {
        let table = samples::any_table(&mut comparison.random);
        comparison.compare(&table);
    }
    comparison.report("random tables");
    assert!([0, 11]
        .iter()
        .all(|&refusal| comparison.checks.with(refusal) > 1000));
    assert!([0, 10, 11]
        .iter()
        .all(|&refusal| comparison.lookups.with(refusal) > 1000));
    assert!(comparison.has_words(&[0, 10], 5000) && comparison.has_words_with_each_bit(500));
    assert!(comparison.has_asks_of_both_bits(1000));
}

#[test]
fn tables_with_every_handle() {
    let mut comparison = Comparison::new(4);
    comparison.compare_with_every_handle(&trials::example().table);
    let most_orders = build_table(&samples::most_orders().write());
    comparison.compare_with_every_handle(&most_orders.expect("not refused"));
    let largest = samples::table_of_sizes(&mut comparison.random, [128, 8, 8, 8]);
    comparison.compare_with_every_handle(&largest);
    for _ in 0..30 {
        let (_, table) = samples::query_with_table(&mut comparison.random, Shape::FULL);
        comparison.compare_with_every_handle(&table);
        let damaged = samples::damaged(&mut comparison.random, &table);
        comparison.compare_with_every_handle(&damaged);
        let table = samples::any_table(&mut comparison.random);
        comparison.compare_with_every_handle(&table);
    }
    comparison.report("tables with every handle");
    assert!(comparison.has_words(&[0, 1, 2, 10], 500) && comparison.has_words_with_each_bit(50));
    assert!(comparison.has_asks_of_both_bits(1000));
}

#[test]
fn every_byte_of_the_example_table_changed() {
    let mut comparison = Comparison::new(6);
    for table in samples::each_byte_changed(&trials::example().table, 0..=255) {
        comparison.compare(&table);
    }
    comparison.report("the example table with a byte changed");
    assert!(comparison.has_words(&[0, 1, 2, 10], 500) && comparison.has_words_with_each_bit(200));
    assert!(comparison.has_asks_of_both_bits(1000));
}

#[test]
fn table_sizes_at_and_past_their_limits() {
    let mut comparison = Comparison::new(7);
    for sizes in samples::choices(samples::TABLE_EDGES) {
        let table = samples::table_of_sizes(&mut comparison.random, sizes);
        for table in samples::of_nearly_this_length(&table) {
            comparison.compare(&table);
        }
        comparison.compare(&sizes);
    }
    comparison.report("table sizes at and past their limits");
    assert!(comparison.has_words(&[0, 1, 2, 10], 50) && comparison.has_words_with_each_bit(5));
    assert!(comparison.has_asks_of_both_bits(10));
}

#[test]
fn random_bytes_as_tables() {
    let mut comparison = Comparison::new(8);
    for table in samples::assorted_bytes(&mut comparison.random) {
        comparison.compare(&table);
    }
    comparison.report("random bytes as tables");
    assert!(comparison.has_words(&[1, 2], 5000));
}
