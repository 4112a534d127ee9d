//! The held words whose merging is counted: the proved library and the second
//! implementation merge them alike, and they are what is said of them.

use benchmarks::held_words::{self, kinds, merged, Pattern};
use benchmarks::large_queries::{slow_to_settle, Sizes};
use order_tables::{raw as proved, LONGEST_QUERY, LONGEST_TABLE, SCRATCH_BYTES};
use reference::construction::with_words;
use reference::{merging, stepped, Query};

/// Lends both the same buffers for the last call, and compares all that comes of it.
fn compare(query: &Query, words: &[u16], case: &str) {
    let mut scratch = vec![7; SCRATCH_BYTES];
    held_words::put(&mut scratch, words);
    let mut output = vec![7; LONGEST_TABLE];
    let [mut other_scratch, mut other_output] = [scratch.clone(), output.clone()];
    let bytes = query.write();
    let expected =
        stepped::continue_build(&Query::read(&bytes), &mut other_scratch, &mut other_output);
    let expected = match expected {
        Ok(length) => length.expect("the call is the last") as u32,
        Err(refusal) => u32::from(refusal) << 16,
    };
    let code = proved::table_continue(&bytes, &mut scratch, &mut output);
    assert_eq!(code, expected, "{case}");
    assert!(output == other_output, "other output: {case}");
    assert!(scratch == other_scratch, "other scratch: {case}");
}

#[test]
fn both_merge_the_words_alike() {
    let query = Sizes::LARGEST.long_checks();
    for (kind, words) in kinds() {
        compare(&query, &words, kind);
    }
    let [table, refused] = Pattern::slowest_found();
    for pattern in [table, refused, Pattern::under_the_full_choice()] {
        for (produced, tested, sets) in [(8, 8, 7), (4, 8, 8), (1, 7, 7), (8, 0, 4), (3, 1, 0)] {
            let sizes = Sizes {
                produced,
                tested,
                sets,
            };
            compare(
                &sizes.long_checks(),
                &pattern.words(sizes),
                &format!("{sizes:?}"),
            );
        }
    }
}

#[test]
fn the_words_have_the_rows_that_are_said() {
    let query = Sizes::LARGEST.long_checks();
    let kinds = kinds();
    let rows = |name: &str| {
        let (_, words) = kinds
            .iter()
            .find(|(kind, _)| *kind == name)
            .expect("a kind");
        let table = with_words(&query, words.iter().copied());
        merging::merged(&table).states.len()
    };
    assert_eq!(rows("of 128 rows"), 128);
    assert_eq!(rows("of 129 rows"), 129);
    let outcomes = Pattern::slowest_found().map(|pattern| {
        let words = pattern.words(Sizes::LARGEST);
        merged(&query.write(), &words).is_ok()
    });
    assert_eq!(outcomes, [true, false]);
}

#[test]
fn the_largest_queries_pass_the_checks() {
    for query in [Sizes::LARGEST.long_checks(), slow_to_settle()] {
        let query = query.write();
        assert_eq!(query.len(), LONGEST_QUERY);
        assert_eq!(query[..5], [12, 8, 8, 8, 16]);
        assert_eq!(proved::query_check(&query), 0);
    }
}
