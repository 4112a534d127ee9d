//! What orders and dependencies mean for rows.

use reference::query::{order, DESCENDING};
use reference::rows::{obey, stand_in, Row};
use reference::Rule;

fn fix(left: &[u8], right: u8) -> Rule {
    let left = left.to_vec();
    Rule::Fix { left, right }
}

/// Whether rows stand in the order that these bytes stand for.
fn stand(rows: &[Row], bytes: &[u8]) -> bool {
    stand_in(rows, &order(bytes))
}

#[test]
fn ties_are_allowed_and_later_columns_decide_them() {
    let rows = vec![vec![-3, 9], vec![-3, 9], vec![0, -1], vec![0, 2]];
    assert!(stand(&rows, &[0]));
    assert!(stand(&rows, &[0, 1]));
    assert!(!stand(&rows, &[1]));
    assert!(!stand(&rows, &[1, 0]));
}

#[test]
fn each_column_compares_in_its_direction() {
    let [up, down] = [0, DESCENDING];
    let rows = vec![vec![5, -1], vec![5, 3], vec![0, 0], vec![0, 0], vec![-2, 7]];
    assert!(stand(&rows, &[down]));
    assert!(!stand(&rows, &[up]));
    assert!(stand(&rows, &[down, up + 1]));
    assert!(!stand(&rows, &[down, down + 1]));
    assert!(!stand(&rows, &[up + 1]) && !stand(&rows, &[down + 1]));
    // Whole numbers of any size.
    let rows = vec![vec![i64::MAX], vec![0], vec![-1], vec![i64::MIN]];
    assert!(stand(&rows, &[down]) && !stand(&rows, &[up]));
}

#[test]
fn rows_stand_in_an_order_exactly_when_they_stand_backwards_in_it_turned_round() {
    let rows: [Row; 4] = [vec![0, 0], vec![0, 1], vec![1, 0], vec![1, 1]];
    for bytes in [[0, 1], [0, 129], [128, 1], [128, 129], [129, 0]] {
        let turned = bytes.map(|byte| byte ^ DESCENDING);
        let mut standing = 0;
        for places in 0..64 {
            let rows = [places % 4, places / 4 % 4, places / 16].map(|place| rows[place].clone());
            let mut backwards = rows.clone();
            backwards.reverse();
            let stands = stand(&rows, &bytes);
            assert_eq!(stand(&backwards, &turned), stands, "{rows:?} {bytes:?}");
            standing += usize::from(stands);
        }
        // Of three from four different rows, ties allowed.
        assert_eq!(standing, 20);
    }
}

#[test]
fn all_rows_stand_in_the_empty_order() {
    assert!(stand(&[vec![2], vec![1]], &[]));
    assert!(stand(&[], &[0]));
}

#[test]
fn rows_far_apart_are_compared_too() {
    let rows = vec![vec![1], vec![1], vec![0]];
    assert!(!stand(&rows, &[0]));
}

#[test]
fn a_fix_needs_like_rights_for_like_lefts() {
    let rows = vec![vec![0, 0, 5], vec![0, 1, 6], vec![0, 0, 5]];
    assert!(obey(&rows, &fix(&[0, 1], 2)));
    assert!(obey(&rows, &fix(&[1], 2)));
    assert!(!obey(&rows, &fix(&[0], 2)));
}

#[test]
fn a_constant_is_alike_in_all_rows() {
    let rows = vec![vec![4, 0], vec![4, 1]];
    assert!(obey(&rows, &fix(&[], 0)));
    assert!(!obey(&rows, &fix(&[], 1)));
    assert!(obey(&rows[..1], &fix(&[], 1)));
}

#[test]
fn an_equal_is_said_of_each_row() {
    assert!(obey(&[vec![1, 1], vec![7, 7]], &Rule::Equal(0, 1)));
    assert!(!obey(&[vec![1, 1], vec![7, 8]], &Rule::Equal(0, 1)));
}
