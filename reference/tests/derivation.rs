//! Steps and closures, of orderings of any length, against their description.

use std::collections::HashSet;

use reference::derivation::{closure, start, steps, Ordering};
use reference::query::{columns_of, order, DESCENDING};
use reference::random::Random;
use reference::samples::{self, all_orderings, Shape};
use reference::{trials, Dependency, Entry, Query, Rule};

/// All lists of different ones of so many columns, the shorter ones first.
fn all_columns(columns: u8) -> Vec<Vec<u8>> {
    let ascending = all_orderings(columns).into_iter().filter(|o| ascends(o));
    ascending.map(|ordering| columns_of(&ordering)).collect()
}

/// All dependencies over so many columns with at most three left columns.
fn all_dependencies(columns: u8) -> Vec<Dependency> {
    let mut dependencies = Vec::new();
    for left in all_columns(columns) {
        if left.len() <= 3 {
            let rights = (0..columns).filter(|right| !left.contains(right));
            dependencies.extend(rights.map(|right| Dependency::fix(0, &left, right)));
        }
        if let [one, other] = left[..] {
            dependencies.push(Dependency::equal(0, one, other));
        }
    }
    dependencies
}

/// Whether every entry ascends.
fn ascends(ordering: &[Entry]) -> bool {
    ordering.iter().all(|entry| !entry.descends)
}

/// The orderings that these bytes stand for.
fn orderings<const COUNT: usize>(all: [&[u8]; COUNT]) -> HashSet<Ordering> {
    all.into_iter().map(order).collect()
}

fn place(ordering: &[Entry], column: u8) -> Option<usize> {
    ordering.iter().position(|entry| entry.column == column)
}

fn direction(ordering: &[Entry], column: u8) -> Option<bool> {
    place(ordering, column).map(|place| ordering[place].descends)
}

fn without(ordering: &[Entry], column: u8) -> Ordering {
    let mut rest = ordering.to_vec();
    rest.retain(|entry| entry.column != column);
    rest
}

/// Whether a result is an ordering with one column more, and where that is.
fn added_at(ordering: &[Entry], result: &[Entry], column: u8) -> Option<usize> {
    let fits = place(ordering, column).is_none() && without(result, column) == ordering;
    place(result, column).filter(|_| fits)
}

/// Whether a result is an ordering with one column fewer, which stands behind all of
/// some others.
fn taken_out(ordering: &[Entry], result: &[Entry], column: u8, behind: &[u8]) -> bool {
    let before = |other: &u8| {
        let places = [*other, column].map(|column| place(ordering, column));
        places[0].is_some() && places[0] < places[1]
    };
    place(ordering, column).is_some()
        && without(ordering, column) == result
        && behind.iter().all(before)
}

/// Whether one step under a rule leads from an ordering to a result, said of
/// the two lists instead of found by making results.
fn is_step(ordering: &[Entry], result: &[Entry], rule: &Rule) -> bool {
    let is_prefix = result.len() + 1 == ordering.len() && ordering.starts_with(result);
    let one_way = |from: u8, to: u8| {
        let Some(from_place) = place(ordering, from) else {
            return false;
        };
        let same_direction = direction(result, to) == direction(ordering, from);
        let added = added_at(ordering, result, to).is_some_and(|to_place| {
            let behind = place(result, from) < Some(to_place);
            let directly_before = place(result, from) == Some(to_place + 1);
            behind || directly_before && same_direction
        });
        let in_its_stead = place(ordering, to).is_none()
            && result.len() == ordering.len()
            && same_direction
            && (0..result.len()).all(|at| match at == from_place {
                true => result[at].column == to,
                false => result[at] == ordering[at],
            });
        added || in_its_stead || taken_out(ordering, result, to, &[from])
    };
    is_prefix
        || match rule {
            Rule::Fix { left, right } => {
                let added = added_at(ordering, result, *right).is_some_and(|right_place| {
                    left.iter().all(|&column| {
                        place(result, column).is_some_and(|left_place| left_place < right_place)
                    })
                });
                added || taken_out(ordering, result, *right, left)
            }
            Rule::Equal(one, other) => one_way(*one, *other) || one_way(*other, *one),
        }
}

#[test]
fn steps_are_those_described() {
    let orderings = all_orderings(4);
    assert_eq!(orderings.len(), 633);
    for dependency in all_dependencies(4) {
        for ordering in &orderings {
            let expected: HashSet<Ordering> = orderings
                .iter()
                .filter(|result| is_step(ordering, result, &dependency.rule))
                .cloned()
                .collect();
            assert_eq!(
                steps(ordering, [&dependency]),
                expected,
                "from {ordering:?} under {dependency:?}"
            );
        }
    }
}

#[test]
fn steps_under_several_dependencies_are_those_under_each() {
    let dependencies = all_dependencies(3);
    for ordering in all_orderings(3) {
        let together = steps(&ordering, &dependencies);
        let each: HashSet<Ordering> = dependencies
            .iter()
            .flat_map(|dependency| steps(&ordering, [dependency]))
            .collect();
        assert_eq!(together, each);
    }
}

#[test]
fn a_start_is_an_order_and_its_prefixes() {
    assert_eq!(start(&[]), orderings([&[]]));
    let expected = orderings([&[], &[2], &[2, 128], &[2, 128, 1]]);
    assert_eq!(start(&order(&[2, 128, 1])), expected);
}

#[test]
fn an_equal_goes_behind_directly_before_and_in_the_stead() {
    let (a, b, x, y) = (0, 1, 2, 3);
    let [b_desc, y_desc] = [b, y].map(|column| column + DESCENDING);
    let equal = Dependency::equal(0, b, a);
    let expected = orderings([
        &[x, a],
        &[x, b, a, y_desc],
        &[x, a, b, y_desc],
        &[x, a, b_desc, y_desc],
        &[x, a, y_desc, b],
        &[x, a, y_desc, b_desc],
        &[x, b, y_desc],
    ]);
    assert_eq!(steps(&order(&[x, a, y_desc]), [&equal]), expected);
    // Directly before and in the stead it descends where the other one does.
    let a_desc = a + DESCENDING;
    let expected = orderings([
        &[x],
        &[x, b_desc, a_desc],
        &[x, a_desc, b],
        &[x, a_desc, b_desc],
        &[x, b_desc],
    ]);
    assert_eq!(steps(&order(&[x, a_desc]), [&equal]), expected);
}

#[test]
fn a_constant_goes_in_everywhere_in_either_direction() {
    let constant = Dependency::fix(0, &[], 2);
    let expected = orderings([
        &[0],
        &[2, 0, 129],
        &[0, 2, 129],
        &[0, 129, 2],
        &[130, 0, 129],
        &[0, 130, 129],
        &[0, 129, 130],
    ]);
    assert_eq!(steps(&order(&[0, 129]), [&constant]), expected);
}

#[test]
fn a_column_counts_as_present_in_both_directions_alike() {
    let (a, b, c) = (0, 1, 2);
    for b_either in [b, b + DESCENDING] {
        // A constant that is there goes out, and doesn't go in a second time.
        let constant = Dependency::fix(0, &[], b);
        let expected = orderings([&[a, b_either], &[a, c]]);
        assert_eq!(steps(&order(&[a, b_either, c]), [&constant]), expected);
        // So does an equal column.
        let equal = Dependency::equal(0, a, b);
        let expected = orderings([&[a]]);
        assert_eq!(steps(&order(&[a, b_either]), [&equal]), expected);
        // A left column may stand in either direction.
        let fix = Dependency::fix(0, &[b], c);
        let expected = orderings([&[], &[b_either, c], &[b_either, c + DESCENDING]]);
        assert_eq!(steps(&order(&[b_either]), [&fix]), expected);
    }
}

#[test]
fn a_settled_entry_is_taken_out_where_all_left_columns_stand_before_it() {
    let (a, b, c, d) = (0, 1, 2, 3);
    let fix = Dependency::fix(0, &[b, a], c);
    let taken_out = |bytes: &[u8]| {
        let ordering = order(bytes);
        let result = without(&ordering, c);
        steps(&ordering, [&fix]).contains(&result)
    };
    // Whichever entries descend.
    for mask in 0..16 {
        let directed = |columns: [u8; 4]| {
            let descending = |column: u8| (mask >> column & 1) * DESCENDING;
            columns.map(|column| column + descending(column))
        };
        assert!(taken_out(&directed([a, b, c, d])));
        assert!(taken_out(&directed([b, a, d, c])));
        assert!(taken_out(&directed([d, b, a, c])));
        assert!(!taken_out(&directed([a, c, b, d])));
        assert!(!taken_out(&directed([c, a, b, d])));
        assert!(!taken_out(&directed([a, c, d, b])[..3]));
    }
    let constant = Dependency::fix(0, &[], c);
    for bytes in [[c, a, b], [a, c, b], [a, c + DESCENDING, b]] {
        assert!(steps(&order(&bytes), [&constant]).contains(&order(&[a, b])));
    }
}

#[test]
fn of_two_equal_columns_the_later_one_is_taken_out() {
    let (a, b, x, y) = (0, 1, 2, 3);
    for equal in [Dependency::equal(0, a, b), Dependency::equal(0, b, a)] {
        let expected = orderings([&[b, x, a], &[b, x, y]]);
        assert_eq!(steps(&order(&[b, x, a, y]), [&equal]), expected);
        // In the direction of the earlier one or in the other.
        for later in [b, b + DESCENDING] {
            let expected = orderings([&[a, later], &[a, x]]);
            assert_eq!(steps(&order(&[a, later, x]), [&equal]), expected);
        }
    }
}

/// What steps give from an order, by way of orderings that are kept alone.
fn closure_among(
    order: &[Entry],
    dependencies: &[Dependency],
    kept: impl Fn(&Ordering) -> bool,
) -> HashSet<Ordering> {
    let mut reached = start(order);
    let mut waiting: Vec<Ordering> = reached.iter().cloned().collect();
    while let Some(ordering) = waiting.pop() {
        let results = steps(&ordering, dependencies).into_iter();
        for result in results.filter(&kept) {
            if reached.insert(result.clone()) {
                waiting.push(result);
            }
        }
    }
    reached
}

#[test]
fn an_order_may_come_by_way_of_longer_orderings_alone() {
    let (a, b, d, m) = (0, 1, 2, 3);
    let trial = trials::named("settled_chain");
    let query = Query::read(&trial.query).expect("the trial's query is read");
    let [produced, tested] = [order(&[a, b, d]), order(&[a, d])];
    assert_eq!((&query.produced[0], &query.tested[0]), (&produced, &tested));
    let reached = |most| {
        closure_among(&produced, &query.dependencies, |ordering| {
            ordering.len() <= most
        })
    };
    assert!(!reached(3).contains(&tested));
    assert!(reached(4).contains(&tested));
    let all = closure(start(&produced), &query.dependencies);
    assert_eq!(reached(4), all);

    let way = [&[a, b, d][..], &[a, m, b, d], &[a, m, d], &[a, d]].map(order);
    for step in way.windows(2) {
        let results = steps(&step[0], &query.dependencies);
        assert!(results.contains(&step[1]), "{step:?}");
    }
    // Without one of the fixes there is no way.
    for dependency in &query.dependencies {
        let reached = closure(start(&produced), [dependency]);
        assert!(!reached.contains(&tested));
    }
}

#[test]
fn ascending_orders_come_by_way_of_ascending_orderings_alone() {
    let mut random = Random::new(15);
    let (mut came, mut others) = (0, 0);
    for _ in 0..400 {
        let query = samples::query_of_chains(&mut random, Shape::CHAINS);
        for produced in &query.produced {
            let ascending = order(&columns_of(produced));
            let among_ascending = closure_among(&ascending, &query.dependencies, |o| ascends(o));
            let mut all = closure(start(&ascending), &query.dependencies);
            let before = all.len();
            all.retain(|ordering| ascends(ordering));
            assert_eq!(among_ascending, all, "{ascending:?} {query:?}");
            came += all.len();
            others += before - all.len();
        }
    }
    assert!(came > 10_000 && others > 10_000, "{came} {others}");
}

#[test]
fn a_derivation_turned_round_is_one_of_turned_orders() {
    let turned = |ordering: &Ordering| -> Ordering {
        let entries = ordering.iter().map(|entry| Entry {
            descends: !entry.descends,
            ..*entry
        });
        entries.collect()
    };
    let mut random = Random::new(16);
    for _ in 0..200 {
        let query = samples::query_of_chains(&mut random, Shape::CHAINS);
        for produced in &query.produced {
            let all = closure(start(produced), &query.dependencies);
            let of_turned = closure(start(&turned(produced)), &query.dependencies);
            let all_turned: HashSet<Ordering> = all.iter().map(turned).collect();
            assert_eq!(of_turned, all_turned, "{produced:?} {query:?}");
        }
    }
}

#[test]
fn a_fix_never_changes_the_first_entry() {
    let trial = trials::named("fixes_bring_no_first_column");
    let query = Query::read(&trial.query).expect("the trial's query is read");
    for order in &query.produced {
        let expected: HashSet<Ordering> = all_orderings(3)
            .into_iter()
            .filter(|ordering| ordering.first().is_none_or(|first| *first == order[0]))
            .collect();
        assert_eq!(closure(start(order), &query.dependencies), expected);
    }
}

#[test]
fn a_closure_adds_nothing_when_closed_again_and_keeps_what_it_had() {
    for dependency in all_dependencies(4) {
        let begun = start(&order(&[3, 128, 1]));
        let once = closure(begun.clone(), [&dependency]);
        assert!(begun.is_subset(&once));
        assert_eq!(closure(once.clone(), [&dependency]), once);
        for ordering in &once {
            assert!(steps(ordering, [&dependency]).is_subset(&once));
        }
    }
}

#[test]
fn a_closure_without_dependencies_has_the_prefixes() {
    let order = order(&[129, 0]);
    assert_eq!(closure([order.clone()], []), start(&order));
}

#[test]
fn a_closure_under_rules_together_may_have_more_than_one_after_the_other() {
    let (a, b, c) = (0, 1, 2);
    let [one, other] = [Dependency::fix(0, &[b], c), Dependency::fix(1, &[a], b)];
    let begun = start(&order(&[a]));
    let together = closure(begun.clone(), [&one, &other]);
    // Behind a, which stays first and ascends, b and c in any sequence and direction.
    let expected = all_orderings(3).into_iter().filter(|ordering| {
        ordering
            .first()
            .is_none_or(|&first| first == Entry::from(a))
    });
    assert_eq!(together, expected.collect());
    let abc = order(&[a, b, c]);
    let one_then_other = closure(closure(begun.clone(), [&one]), [&other]);
    assert!(!one_then_other.contains(&abc));
    let other_then_one = closure(closure(begun, [&other]), [&one]);
    assert!(other_then_one.contains(&abc));
    assert!(!other_then_one.contains(&order(&[a, c])));
}

#[test]
fn a_closure_under_rules_together_is_reached_by_way_of_any_of_them_first() {
    let dependencies = all_dependencies(3);
    for one in &dependencies {
        for other in &dependencies {
            let begun = start(&order(&[2, 128]));
            let together = closure(begun.clone(), [one, other]);
            let first = closure(begun, [one]);
            assert!(first.is_subset(&together));
            assert_eq!(closure(first, [one, other]), together);
        }
    }
}

#[test]
fn constants_alone_give_every_ordering() {
    let constants: Vec<Dependency> = (0..4).map(|c| Dependency::fix(0, &[], c)).collect();
    let expected: HashSet<Ordering> = all_orderings(4).into_iter().collect();
    assert_eq!(closure([vec![]], &constants), expected);
}
