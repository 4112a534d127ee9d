//! Two rows that show why an order is not held. They are found exactly where the
//! derivation does not give the order, and what is held is true of rows. A program that
//! gives other rows, or refuses otherwise, is seen.

use std::collections::HashMap;

use reference::builder::build_table;
use reference::counterexample::{self, Asked, Question, Wrong};
use reference::derivation::{closure, start};
use reference::query::{order, DESCENDING};
use reference::random::Random;
use reference::refusal::SPACE;
use reference::rows::stand_in;
use reference::samples::{self, all_asked, rooms, Shape};
use reference::{trials, Dependency, Implementation, Query, Reference};

/// A random query, most often of chains.
fn any_query(random: &mut Random, shape: Shape) -> Query {
    match random.below(4) {
        0 => samples::query(random, shape),
        _ => samples::query_of_chains(random, shape),
    }
}

/// The question of what is asked of a query and not refused.
fn question(query: &Query, asked: Asked) -> Question {
    Question::read(&query.write(), asked).expect("nothing is refused")
}

#[test]
fn two_rows_are_found_exactly_where_the_derivation_does_not_give_the_order() {
    let mut random = Random::new(12);
    let (mut held, mut shown) = (0, 0);
    for (shape, count) in [
        (Shape::SMALL, 300),
        (Shape::CHAINS, 700),
        (Shape::MIDDLE, 10),
    ] {
        for _ in 0..count {
            let query = any_query(&mut random, shape);
            let orders: Vec<_> = query.interesting().collect();
            let mut derived = HashMap::new();
            for asked in all_asked(&query) {
                let derived = derived.entry((asked.produced, asked.sets));
                let derived = derived.or_insert_with(|| {
                    let sets = query.chosen(asked.sets.into());
                    let produced = &query.produced[usize::from(asked.produced)];
                    closure(start(produced), query.dependencies_of(&sets))
                });
                let derived = derived.contains(orders[usize::from(asked.order)]);

                let question = question(&query, asked);
                let case = format!("{asked:?} {query:?}");
                let [searched, made] = [question.searched(), question.made()];
                assert_eq!(question.is_held(), derived, "{case}");
                assert_eq!(searched.is_none(), derived, "{case}");
                assert_eq!(made.is_none(), derived, "{case}");
                for rows in searched.iter().chain(&made) {
                    assert_eq!(question.is_shown_by(rows), Ok(()), "{rows:?} {case}");
                }
                held += usize::from(derived);
                shown += usize::from(!derived);
            }
        }
    }
    assert!(
        held > 10_000 && shown > 10_000,
        "{held} held, {shown} shown"
    );
}

#[test]
fn of_many_columns_two_rows_break_what_is_not_held_and_none_what_is() {
    let mut random = Random::new(13);
    let (mut held, mut shown) = (0, 0);
    for _ in 0..1500 {
        let query = any_query(&mut random, Shape::FULL);
        let choice = random.below(1 << query.sets);
        for (number, produced) in (0..).zip(&query.produced) {
            let rows = samples::rows(&mut random, &query, produced, &query.chosen(choice), 6);
            for (order_number, order) in (0..).zip(query.interesting()) {
                let asked = Asked::from([number, choice as u8, order_number]);
                let question = question(&query, asked);
                let case = || format!("{asked:?} {query:?}");
                match question.made() {
                    None => {
                        assert!(question.is_held(), "{}", case());
                        assert!(stand_in(&rows, order), "{} {rows:?}", case());
                        held += usize::from(rows.len() > 2);
                    }
                    Some(rows) => {
                        assert!(!question.is_held(), "{}", case());
                        assert_eq!(question.is_shown_by(&rows), Ok(()), "{} {rows:?}", case());
                        shown += 1;
                    }
                }
            }
        }
    }
    assert!(held > 3000 && shown > 20_000, "{held} held, {shown} shown");
}

/// How a program departs from what has to come.
#[derive(Clone, Copy, Debug, PartialEq, Eq)]
enum Fault {
    /// Not at all.
    None,
    /// No rows are given.
    AlwaysNone,
    /// The second row is the first one again, so that the rows tie.
    Tie,
    /// The second row comes before the first one.
    RowsExchanged,
    /// What is larger is 2.
    ValueTwo,
    /// One column that is neither settled nor of the class is alike in both rows.
    ColumnLeftAlike,
    /// The values come column after column.
    ColumnAfterColumn,
    /// A byte is written behind the rows.
    WrittenPast,
    /// Room is asked for only where rows are given.
    RoomForGivenRows,
    /// Room is asked for before the orders and the sets are.
    RoomBeforeHandles,
    /// The bits that are not below S count for nothing.
    SetsPastS,
    /// No set is in force.
    SetsForgotten,
    /// The rows stand in any interesting order.
    TestedAsProduced,
    /// All entries are taken for ascending.
    DirectionsDropped,
    /// The entries of the produced order are turned round.
    ProducedTurnedRound,
}

impl Fault {
    /// All that there are.
    const ALL: [Self; 14] = [
        Self::AlwaysNone,
        Self::Tie,
        Self::RowsExchanged,
        Self::ValueTwo,
        Self::ColumnLeftAlike,
        Self::ColumnAfterColumn,
        Self::WrittenPast,
        Self::RoomForGivenRows,
        Self::RoomBeforeHandles,
        Self::SetsPastS,
        Self::SetsForgotten,
        Self::TestedAsProduced,
        Self::DirectionsDropped,
        Self::ProducedTurnedRound,
    ];

    /// What the program gives to what is asked of a query.
    fn give(self, query: &[u8], asked: Asked, rows: &mut [u8]) -> Result<bool, u8> {
        let mut read = Query::read(query)?;
        let needed = 2 * usize::from(read.columns);
        let mut asked = asked;
        match self {
            Self::RoomBeforeHandles if rows.len() < needed => return Err(SPACE),
            Self::SetsPastS => asked.sets &= ((1_u16 << read.sets) - 1) as u8,
            Self::SetsForgotten => read.dependencies.clear(),
            Self::TestedAsProduced if read.interesting().count() <= 8 => {
                read.produced.append(&mut read.tested);
            }
            Self::DirectionsDropped => {
                let orders = read.produced.iter_mut().chain(&mut read.tested);
                orders.flatten().for_each(|entry| entry.descends = false);
            }
            Self::ProducedTurnedRound => {
                let orders = read.produced.iter_mut();
                orders.flatten().for_each(|entry| entry.descends ^= true);
            }
            _ => {}
        }
        let question = Question::read(&read.write(), asked)?;
        let made = question.made().filter(|_| self != Self::AlwaysNone);
        if rows.len() < needed && (self != Self::RoomForGivenRows || made.is_some()) {
            return Err(SPACE);
        }
        let Some([mut first, mut second]) = made else {
            return Ok(false);
        };
        match self {
            Self::Tie => second.clone_from(&first),
            Self::RowsExchanged => std::mem::swap(&mut first, &mut second),
            Self::ColumnLeftAlike => {
                let mut columns = first.iter().zip(&mut second);
                if let Some((value, other)) = columns.find(|(value, other)| *value < *other) {
                    *other = *value;
                }
            }
            _ => {}
        }
        let mut values = [first, second].concat();
        if self == Self::ColumnAfterColumn {
            let columns = needed / 2;
            values = (0..needed)
                .map(|place| values[place % 2 * columns + place / 2])
                .collect();
        }
        for (byte, value) in rows.iter_mut().zip(values) {
            *byte = match self {
                Self::ValueTwo => 2 * value as u8,
                _ => value as u8,
            };
        }
        if let (Self::WrittenPast, Some(byte)) = (self, rows.get_mut(needed)) {
            *byte = 0;
        }
        Ok(true)
    }

    /// What the check says of what the program gives, in a buffer of so many bytes.
    fn checked(self, query: &[u8], asked: Asked, room: usize) -> Result<(), Wrong> {
        let before: Vec<u8> = (0..room).map(|at| (at % 251) as u8 + 5).collect();
        let mut after = before.clone();
        let answer = self.give(query, asked, &mut after);
        counterexample::check(query, asked, answer, &before, &after)
    }
}

#[test]
fn wrong_programs_are_seen_on_the_example() {
    // Produced are (a) and (b,a), tested (a,b) and (c), orders 2 and 3. Set 0 brings
    // a → b, and set 1 brings b = c.
    let query = trials::example().query;
    for (fault, asked, room, wrong) in [
        (Fault::AlwaysNone, [0, 0, 2], 6, Wrong::Answer),
        (Fault::Tie, [0, 0, 2], 6, Wrong::Breaking),
        // Both rows are 0 in a, and in the other pair a goes up.
        (Fault::RowsExchanged, [0, 0, 2], 6, Wrong::Breaking),
        (Fault::RowsExchanged, [0, 0, 3], 6, Wrong::Standing),
        (Fault::ValueTwo, [0, 0, 2], 6, Wrong::Value),
        // The rows are alike in a, and not in b, which a settles.
        (Fault::ColumnLeftAlike, [1, 1, 3], 6, Wrong::Obeying),
        (Fault::ColumnAfterColumn, [0, 2, 2], 6, Wrong::Obeying),
        (Fault::WrittenPast, [0, 0, 2], 7, Wrong::Byte),
        (Fault::RoomForGivenRows, [0, 1, 2], 5, Wrong::Answer),
        (Fault::RoomBeforeHandles, [2, 0, 2], 5, Wrong::Answer),
        (Fault::SetsPastS, [0, 4, 2], 6, Wrong::Answer),
        (Fault::SetsPastS, [0, 129, 2], 6, Wrong::Answer),
        (Fault::SetsForgotten, [0, 1, 2], 6, Wrong::Answer),
        (Fault::SetsForgotten, [0, 2, 2], 6, Wrong::Obeying),
        (Fault::TestedAsProduced, [2, 0, 3], 6, Wrong::Answer),
    ] {
        let asked = Asked::from(asked);
        let checked = fault.checked(&query, asked, room);
        assert_eq!(checked, Err(wrong), "{fault:?} {asked:?}");
        let checked = Fault::None.checked(&query, asked, room);
        assert_eq!(checked, Ok(()), "{asked:?}");
    }
}

#[test]
fn wrong_directions_are_seen() {
    // Produced is (a desc), tested (b), order 1. Set 0 brings a = b.
    let query = Query {
        columns: 2,
        produced: vec![order(&[DESCENDING])],
        tested: vec![order(&[1])],
        sets: 1,
        dependencies: vec![Dependency::equal(0, 0, 1)],
    };
    let query = query.write();
    for (fault, asked, wrong) in [
        // Its rows go up in a.
        (Fault::DirectionsDropped, [0, 0, 1], Wrong::Standing),
        (Fault::ProducedTurnedRound, [0, 0, 1], Wrong::Standing),
        (Fault::RowsExchanged, [0, 1, 1], Wrong::Standing),
        // It says held.
        (Fault::DirectionsDropped, [0, 1, 1], Wrong::Answer),
        (Fault::ProducedTurnedRound, [0, 1, 1], Wrong::Answer),
    ] {
        let asked = Asked::from(asked);
        let checked = fault.checked(&query, asked, 4);
        assert_eq!(checked, Err(wrong), "{fault:?} {asked:?}");
        assert_eq!(Fault::None.checked(&query, asked, 4), Ok(()), "{asked:?}");
    }
}

#[test]
fn wrong_programs_are_seen_on_random_queries() {
    let mut random = Random::new(14);
    let mut wrong = [0; Fault::ALL.len()];
    for _ in 0..4000 {
        let query = samples::any_query(&mut random);
        let asked = samples::asked(&mut random, &query);
        let room = rooms(&query)[random.below(8)];
        let checked = Fault::None.checked(&query, asked, room);
        assert_eq!(checked, Ok(()), "{asked:?} in {room} of {query:?}");
        for (wrong, fault) in wrong.iter_mut().zip(Fault::ALL) {
            *wrong += usize::from(fault.checked(&query, asked, room).is_err());
        }
    }
    let seen = wrong.iter().all(|&wrong| wrong > 30);
    assert!(
        seen,
        "{:?}",
        Fault::ALL.iter().zip(wrong).collect::<Vec<_>>()
    );
}

#[test]
fn rows_are_shown_where_a_query_has_too_many_rows_for_a_table() {
    let query = samples::own_column_per_set(8);
    assert_eq!(build_table(&query.write()), Err(8));
    for asked in all_asked(&query) {
        let mut rows = [0; 24];
        let answer = Reference::counterexample(&query.write(), asked, &mut rows);
        let set_of_order = u32::from(asked.order).checked_sub(1);
        let held = set_of_order.is_none_or(|set| asked.sets >> set & 1 == 1);
        assert_eq!(answer, Ok(!held), "{asked:?}");
    }
}

#[test]
fn printed_rows_are_read_as_they_have_to_stand() {
    let query = trials::example().query;
    let check =
        |asked: [u8; 3], text: &str| counterexample::check_printed(&query, asked.into(), text);
    let shown = [0, 0, 2];
    assert_eq!(check(shown, "0 1 0\n0 0 1\n"), Ok(()));
    assert_eq!(check(shown, "1 1 1\n1 0 1\n"), Ok(()));
    for text in [
        "",
        "none\n",
        "refused 10\n",
        "0 1 0\n",
        "0 1 0 0 0 1\n",
        "0 1 0\n0 0 1",
        "0 1 0\n0 0 1\n\n",
        "0 1 0\n0 0 1\n0 0 1\n",
        "0 1 0 \n0 0 1\n",
        " 0 1 0\n0 0 1\n",
        "0  1 0\n0 0 1\n",
        "0 1\n0 0\n",
        "0 1 0 0\n0 0 1 0\n",
        "0,1,0\n0,0,1\n",
        "0 +1 0\n0 0 1\n",
        "0 01 0\n0 0 1\n",
        "0 2 0\n0 0 2\n",
        "0 1 0\r\n0 0 1\r\n",
    ] {
        assert_eq!(check(shown, text), Err(Wrong::Answer), "{text:?}");
    }
    assert_eq!(check(shown, "0 0 1\n0 1 0\n"), Err(Wrong::Breaking));
    assert_eq!(check(shown, "1 1 0\n0 0 1\n"), Err(Wrong::Standing));
    for (asked, line, others) in [
        (
            [0, 1, 2],
            "none\n",
            ["none", "0 1 0\n0 0 1\n", "refused 9\n"],
        ),
        (
            [0, 4, 2],
            "refused 10\n",
            ["refused 10", "none\n", "refused 9\n"],
        ),
    ] {
        assert_eq!(check(asked, line), Ok(()));
        for text in others {
            assert_eq!(check(asked, text), Err(Wrong::Answer), "{text:?}");
        }
    }
}
