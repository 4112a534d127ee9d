//! The table check and the lookups, on good tables and on damaged ones.

use std::ops::Range;
use std::sync::LazyLock;

use reference::builder::build_table;
use reference::query::order;
use reference::random::Random;
use reference::samples::{self, Shape};
use reference::table::{ask, check, enter, row, take, word, Table};
use reference::{trials, Dependency, Implementation, Query, Reference};

/// The example's table, and places in it.
static EXAMPLE: LazyLock<Vec<u8>> = LazyLock::new(|| trials::example().table);
const STARTS: Range<usize> = 4..6;
const SUCCESSORS: Range<usize> = 6..14;
const HELD: Range<usize> = 14..22;
const STATES: u8 = 4;

/// The example's table with one byte changed.
fn table_with(place: usize, byte: u8) -> Vec<u8> {
    let mut table = EXAMPLE.clone();
    table[place] = byte;
    table
}

/// The number every lookup and the check refuse a table with before anything
/// else, or none.
fn form_refusal(table: &[u8]) -> Option<u8> {
    let refusals = [
        enter(table, 255).err(),
        take(table, 255, 255).err(),
        ask(table, 255, 255).err(),
        word(table, 255).err(),
        row(table, 255).err(),
    ];
    let form = refusals[0].filter(|&number| number != 10);
    assert!(refusals.iter().all(|&refusal| refusal == refusals[0]));
    match form {
        Some(number) => assert_eq!(check(table), Err(number)),
        None => assert!(matches!(check(table), Ok(()) | Err(11))),
    }
    form
}

#[test]
fn the_example_table_passes_and_answers_as_its_listing_says() {
    assert_eq!(check(&EXAMPLE), Ok(()));
    for line in trials::example().lines {
        let numbers = line.split(' ').filter_map(|word| word.parse().ok());
        match numbers.collect::<Vec<u8>>()[..] {
            [produced, state] if line.starts_with("start ") => {
                assert_eq!(enter(&EXAMPLE, produced), Ok(state));
            }
            [state, first, second, held] => {
                assert_eq!(row(&EXAMPLE, state), Ok(&[first, second][..]));
                assert_eq!(take(&EXAMPLE, state, 0), Ok(first));
                assert_eq!(take(&EXAMPLE, state, 1), Ok(second));
                for order in 0..4 {
                    let bit = held >> order & 1 == 1;
                    assert_eq!(ask(&EXAMPLE, state, order), Ok(bit));
                }
                assert_eq!(word(&EXAMPLE, state), Ok(held.into()));
            }
            _ => assert!(line.starts_with("states ")),
        }
    }
}

#[test]
fn a_row_is_that_part_of_the_lent_table() {
    for state in 0..STATES {
        let row = row(&EXAMPLE, state).expect("granted");
        let place = 6 + 2 * usize::from(state);
        assert!(std::ptr::eq(row, &EXAMPLE[place..place + 2]));
    }
}

#[test]
fn what_is_read_of_a_table_is_what_lookups_give_and_is_written_back() {
    let mut random = Random::new(51);
    let mut read = 0;
    for _ in 0..1000 {
        let bytes = samples::any_table(&mut random);
        let Ok(table) = Table::read(&bytes) else {
            continue;
        };
        read += 1;
        assert_eq!(table.write(), bytes);
        for (produced, &start) in (0..).zip(&table.starts) {
            assert_eq!(enter(&bytes, produced), Ok(start as u8));
        }
        for (number, state) in (0..).zip(&table.states) {
            let successors: Vec<u8> = state.successors.iter().map(|&s| s as u8).collect();
            assert_eq!(row(&bytes, number), Ok(&successors[..]));
            assert_eq!(word(&bytes, number), Ok(state.held));
            for order in 0..table.interesting() {
                let held = state.held >> order & 1 == 1;
                assert_eq!(ask(&bytes, number, order as u8), Ok(held));
            }
        }
    }
    assert!(read > 300, "only {read} tables are read");
}

#[test]
fn fewer_bytes_than_the_sizes_take_give_1() {
    for length in 0..4 {
        assert_eq!(form_refusal(&EXAMPLE[..length]), Some(1));
        assert_eq!(form_refusal(&vec![255; length]), Some(1));
    }
}

#[test]
fn a_total_other_than_implied_gives_1() {
    for length in 4..HELD.end {
        assert_eq!(form_refusal(&EXAMPLE[..length]), Some(1));
    }
    let longer = [&EXAMPLE[..], &[0]].concat();
    assert_eq!(form_refusal(&longer), Some(1));
    assert_eq!(form_refusal(&EXAMPLE), None);
}

#[test]
fn sizes_outside_their_limits_give_2_before_the_total() {
    for (place, limit) in [128, 8, 8, 8].into_iter().enumerate() {
        for size in limit + 1..=255 {
            assert_eq!(form_refusal(&table_with(place, size)), Some(2));
            assert_eq!(form_refusal(&table_with(place, size)[..4]), Some(2));
        }
    }
    assert_eq!(form_refusal(&table_with(0, 0)), Some(2));
    assert_eq!(form_refusal(&table_with(1, 0)), Some(2));
}

#[test]
fn sizes_are_taken_up_to_their_limits() {
    for (states, produced, tested, sets) in [(128, 8, 8, 8), (1, 1, 0, 0)] {
        let total = 4 + produced + states * sets + 2 * states;
        let mut table = vec![0; total];
        let sizes = [states, produced, tested, sets].map(|size| size as u8);
        table[..4].copy_from_slice(&sizes);
        assert_eq!(form_refusal(&table), None);
        assert_eq!(check(&table), Ok(()));
    }
}

/// The bits of a byte of the example's held bits that are past P+T.
fn past_interesting(place: usize) -> u8 {
    match place % 2 {
        0 => 0xf0,
        _ => 0xff,
    }
}

/// What the check gives for the example's table with one byte changed.
fn expected_check(place: usize, byte: u8) -> Result<(), u8> {
    let unchanged = EXAMPLE[place] == byte;
    match place {
        0 if byte == 0 || byte > 128 => Err(2),
        1 if byte == 0 || byte > 8 => Err(2),
        2 | 3 if byte > 8 => Err(2),
        0 | 1 | 3 if !unchanged => Err(1),
        // With fewer tested orders the bits of the others are past P+T.
        2 if byte < 2 => Err(11),
        4..14 if byte >= STATES => Err(11),
        14.. if byte & past_interesting(place) != 0 => Err(11),
        _ => Ok(()),
    }
}

#[test]
fn the_check_of_a_table_with_one_byte_changed() {
    for place in 0..HELD.end {
        for byte in 0..=255 {
            let table = table_with(place, byte);
            assert_eq!(check(&table), expected_check(place, byte));
        }
    }
}

#[test]
fn held_bits_may_be_as_many_as_interesting_orders() {
    for produced in 1..=8 {
        for tested in 0..=8 {
            for bit in 0..16 {
                let mut table = vec![1, produced, tested, 0];
                table.extend(vec![0; usize::from(produced)]);
                table.extend((1u16 << bit).to_le_bytes());
                let expected = match bit < produced + tested {
                    true => Ok(()),
                    false => Err(11),
                };
                assert_eq!(check(&table), expected);
                assert_eq!(word(&table, 0), Ok(1 << bit));
                for order in 0..produced + tested {
                    assert_eq!(ask(&table, 0, order), Ok(order == bit));
                }
                assert_eq!(ask(&table, 0, produced + tested), Err(10));
            }
        }
    }
}

#[test]
fn handles_not_in_the_table_give_10() {
    for handle in 0..=255 {
        let expected = |count: u8| (handle >= count).then_some(10);
        assert_eq!(enter(&EXAMPLE, handle).err(), expected(2));
        assert_eq!(take(&EXAMPLE, handle, 0).err(), expected(STATES));
        assert_eq!(take(&EXAMPLE, 0, handle).err(), expected(2));
        assert_eq!(ask(&EXAMPLE, handle, 0).err(), expected(STATES));
        assert_eq!(ask(&EXAMPLE, 0, handle).err(), expected(4));
        assert_eq!(word(&EXAMPLE, handle).err(), expected(STATES));
        assert_eq!(row(&EXAMPLE, handle).err(), expected(STATES));
    }
}

#[test]
fn a_table_without_sets_has_empty_rows_and_no_takes() {
    let table = [1, 1, 0, 0, 0, 1, 0];
    assert_eq!(check(&table), Ok(()));
    assert_eq!(row(&table, 0), Ok(&[][..]));
    assert_eq!(row(&table, 1), Err(10));
    assert_eq!(word(&table, 0), Ok(1));
    assert_eq!(take(&table, 0, 0), Err(10));
}

#[test]
fn an_entry_gives_11_for_the_start_it_reads_alone() {
    for place in STARTS {
        for byte in STATES..=255 {
            let table = table_with(place, byte);
            for produced in 0..2 {
                let expected = match 4 + usize::from(produced) == place {
                    true => Err(11),
                    false => enter(&EXAMPLE, produced),
                };
                assert_eq!(enter(&table, produced), expected);
            }
            assert_eq!(enter(&table, 2), Err(10));
            for state in 0..STATES {
                assert_eq!(take(&table, state, 1), take(&EXAMPLE, state, 1));
                assert_eq!(ask(&table, state, 2), ask(&EXAMPLE, state, 2));
                assert_eq!(word(&table, state), word(&EXAMPLE, state));
                assert_eq!(row(&table, state), row(&EXAMPLE, state));
            }
        }
    }
}

#[test]
fn a_take_gives_11_for_the_successor_it_reads_alone() {
    for place in SUCCESSORS {
        for byte in STATES..=255 {
            let table = table_with(place, byte);
            for state in 0..STATES {
                for set in 0..2 {
                    let read = 6 + 2 * usize::from(state) + usize::from(set);
                    let expected = match read == place {
                        true => Err(11),
                        false => take(&EXAMPLE, state, set),
                    };
                    assert_eq!(take(&table, state, set), expected);
                }
                assert_eq!(take(&table, state, 2), Err(10));
                assert_eq!(ask(&table, state, 0), ask(&EXAMPLE, state, 0));
                assert_eq!(word(&table, state), word(&EXAMPLE, state));
                let from = 6 + 2 * usize::from(state);
                assert_eq!(row(&table, state), Ok(&table[from..from + 2]));
            }
            assert_eq!(enter(&table, 1), Ok(1));
        }
    }
}

#[test]
fn bits_past_the_interesting_orders_are_in_the_word_and_no_matter_to_other_lookups() {
    let mut table = EXAMPLE.clone();
    for place in HELD {
        table[place] |= past_interesting(place);
    }
    assert_eq!(check(&table), Err(11));
    for state in 0..STATES {
        for order in 0..4 {
            assert_eq!(ask(&table, state, order), ask(&EXAMPLE, state, order));
        }
        assert_eq!(ask(&table, state, 4), Err(10));
        let held = word(&EXAMPLE, state).expect("granted");
        assert_eq!(word(&table, state), Ok(held | 0xfff0));
        assert_eq!(row(&table, state), row(&EXAMPLE, state));
        assert_eq!(take(&table, state, 0), take(&EXAMPLE, state, 0));
    }
}

#[test]
fn all_sixteen_held_bits_are_used() {
    let query = Query {
        columns: 4,
        produced: (0..4)
            .flat_map(|one| [order(&[one]), order(&[one, (one + 1) % 4])])
            .collect(),
        tested: (0..4)
            .flat_map(|one| [order(&[one, (one + 2) % 4]), order(&[one, (one + 3) % 4])])
            .collect(),
        sets: 1,
        dependencies: (0..4).map(|c| Dependency::fix(0, &[], c)).collect(),
    };
    let table = build_table(&query.write()).expect("not refused");
    assert_eq!(check(&table), Ok(()));
    for produced in 0..8 {
        let state = Reference::follow(&table, produced, &[0]).expect("granted");
        for order in 0..16 {
            assert_eq!(ask(&table, state, order), Ok(true));
        }
        assert_eq!(ask(&table, state, 16), Err(10));
        assert_eq!(word(&table, state), Ok(u16::MAX));
    }
    let state = enter(&table, 7).expect("granted");
    let held: Vec<u8> = (0..16)
        .filter(|&order| ask(&table, state, order) == Ok(true))
        .collect();
    assert_eq!(held, [6, 7]);
    assert_eq!(word(&table, state), Ok(1 << 6 | 1 << 7));
}

#[test]
fn every_word_is_the_low_byte_plus_256_times_the_high_one() {
    let mut table = [1, 8, 8, 0, 0, 0, 0, 0, 0, 0, 0, 0, 0, 0];
    for high in 0..=255 {
        for low in 0..=255 {
            table[12..].copy_from_slice(&[low, high]);
            let expected = u16::from(low) + 256 * u16::from(high);
            assert_eq!(word(&table, 0), Ok(expected));
            for order in 0..16 {
                let bit = expected >> order & 1 == 1;
                assert_eq!(ask(&table, 0, order), Ok(bit));
            }
        }
    }
}

#[test]
fn the_words_of_a_table_with_one_byte_changed() {
    for place in 0..HELD.end {
        for byte in 0..=255 {
            let table = table_with(place, byte);
            for state in 0..=255 {
                let expected = match expected_check(place, byte) {
                    Err(number) if number != 11 => Err(number),
                    _ if state >= STATES => Err(10),
                    _ => {
                        let held = &table[HELD][2 * usize::from(state)..];
                        Ok(u16::from(held[0]) + 256 * u16::from(held[1]))
                    }
                };
                assert_eq!(word(&table, state), expected);
            }
        }
    }
}

/// What the asks and words of some tables were.
#[derive(Debug, Default)]
struct AsksAndWords {
    held: usize,
    held_in_the_high_byte: usize,
    not_held: usize,
    orders_refused: usize,
    bits_past: usize,
    words_refused: [usize; 11],
}

impl AsksAndWords {
    /// Compares every ask in a table with its order's bit in the state's word.
    fn compare(&mut self, table: &[u8]) {
        for state in 0..=255 {
            match word(table, state) {
                Ok(word) => self.compare_bits(table, state, word),
                Err(number) => {
                    let refused = |order| ask(table, state, order) == Err(number);
                    assert!((0..=255).all(refused), "{state} {table:?}");
                    self.words_refused[usize::from(number)] += 1;
                }
            }
        }
    }

    fn compare_bits(&mut self, table: &[u8], state: u8, word: u16) {
        let orders = table[1] + table[2];
        for order in 0..=255 {
            let asked = ask(table, state, order);
            if order >= orders {
                assert_eq!(asked, Err(10), "{state} {order} {table:?}");
                self.orders_refused += 1;
                continue;
            }
            let bit = word >> order & 1 == 1;
            assert_eq!(asked, Ok(bit), "{state} {order} {table:?}");
            self.held += usize::from(bit);
            self.held_in_the_high_byte += usize::from(bit && order >= 8);
            self.not_held += usize::from(!bit);
        }
        self.bits_past += usize::from(u32::from(word) >> orders != 0);
    }
}

#[test]
fn an_ask_that_is_not_refused_says_held_exactly_when_its_bit_of_the_word_is_1() {
    let mut random = Random::new(52);
    let [mut built, mut damaged, mut any] = [(); 3].map(|()| AsksAndWords::default());
    for _ in 0..300 {
        let (_, table) = samples::query_with_table(&mut random, Shape::FULL);
        built.compare(&table);
        damaged.compare(&samples::damaged(&mut random, &table));
        any.compare(&samples::any_table(&mut random));
    }
    for compared in [&built, &damaged, &any] {
        let enough = compared.held > 2000
            && compared.held_in_the_high_byte > 100
            && compared.not_held > 2000
            && compared.orders_refused > 2000
            && compared.words_refused[10] > 2000;
        assert!(enough, "{compared:?}");
    }
    assert_eq!(built.bits_past, 0);
    assert!(damaged.bits_past > 10 && any.bits_past > 100);
    let refused = damaged.words_refused;
    assert!(refused[1] > 2000 && refused[2] > 2000, "{refused:?}");
}
