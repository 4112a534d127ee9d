//! The wrapper declares the functions that the header declares, with the same
//! parameters and results, and has its refusals, sizes and directions. The library has
//! its limits.

use order_tables::{Query, Refusal, Table, LISTING_BYTES, LONGEST_QUERY, LONGEST_TABLE};
use order_tables::{DESCENDING, SCRATCH_BYTES, TWO_ROWS_BYTES};

const HEADER: &str = include_str!("../../include/order_tables.h");
const RAW: &str = include_str!("../src/raw.rs");

/// A function: its name, its parameters' types, and its result's.
type Function<'a> = (&'a str, Vec<&'a str>, &'a str);

/// Rust's type for one of C.
fn rust_type(c_type: &str) -> &str {
    match c_type {
        "const uint8_t *" => "*const u8",
        "uint8_t *" => "*mut u8",
        "size_t" => "usize",
        "uint8_t" => "u8",
        "uint32_t" => "u32",
        "uint64_t" => "u64",
        other => panic!("the header has the type {other}"),
    }
}

/// The functions that the header declares and doesn't define.
fn declared_in_c() -> Vec<Function<'static>> {
    let statements = HEADER
        .split(';')
        .filter_map(|code| code.rsplit("*/").next());
    let functions = statements.filter(|code| code.trim().starts_with("uint"));
    functions
        .map(|function| {
            let (result, function) = function.trim().split_once(' ').expect("a result");
            let (name, parameters) = function.split_once('(').expect("parameters");
            let parameters = parameters.trim_end_matches(')').split(',');
            let types = parameters.map(|parameter| {
                let name = parameter.rfind([' ', '*']).expect("a type and a name");
                rust_type(parameter[..=name].trim())
            });
            (name, types.collect(), rust_type(result))
        })
        .collect()
}

/// The functions that the wrapper declares.
fn declared_in_rust() -> Vec<Function<'static>> {
    let (_, block) = RAW
        .split_once("extern \"C\" {\n")
        .expect("the block begins");
    let (block, _) = block.split_once("\n}").expect("the block ends");
    let functions = block
        .split(';')
        .filter_map(|code| code.trim().strip_prefix("fn "));
    functions
        .map(|function| {
            let (name, function) = function.split_once('(').expect("parameters");
            let (parameters, result) = function.split_once(") -> ").expect("a result");
            let types = parameters.split(',').filter_map(|p| p.split_once(": "));
            (name, types.map(|(_, of)| of.trim()).collect(), result)
        })
        .collect()
}

#[test]
fn the_header_and_the_wrapper_declare_the_same() {
    let [mut c, mut rust] = [declared_in_c(), declared_in_rust()];
    c.sort();
    rust.sort();
    assert!(c.len() > 10, "only {} functions", c.len());
    assert_eq!(c, rust);
}

/// The names and numbers of an enumeration of the header, in their sequence. The
/// names are without what they all begin with.
fn enumerated(name: &str) -> Vec<(String, usize)> {
    let begin = format!("enum {name} {{\n");
    let (_, lines) = HEADER.split_once(&begin).expect("the enumeration begins");
    let (lines, _) = lines.split_once("};").expect("the enumeration ends");
    let lines = lines.lines().filter_map(|line| line.split("/*").next());
    let enumerators = lines.map(|line| line.trim().trim_end_matches(','));
    enumerators
        .map(|enumerator| {
            let (name, number) = enumerator.split_once(" = ").expect("a name and a number");
            let name = name.strip_prefix("ORDER_TABLE_").expect("a name");
            (name.to_owned(), number.parse().expect("a number"))
        })
        .collect()
}

#[test]
fn the_header_and_the_wrapper_have_the_same_refusals() {
    let refusals = Refusal::ALL.map(|refusal| {
        let word = refusal.word().to_uppercase();
        (word, usize::from(refusal.number()))
    });
    let granted = [("GRANTED".to_owned(), 0)];
    let expected = [&granted[..], &refusals].concat();
    assert_eq!(enumerated("order_table_refusals"), expected);
}

#[test]
fn the_header_and_the_wrapper_have_the_same_sizes() {
    let expected = [
        ("SCRATCH", SCRATCH_BYTES),
        ("LONGEST_QUERY", LONGEST_QUERY),
        ("LONGEST_TABLE", LONGEST_TABLE),
        ("LISTING", LISTING_BYTES),
        ("TWO_ROWS", TWO_ROWS_BYTES),
    ];
    let expected = expected.map(|(name, size)| (name.to_owned(), size));
    assert_eq!(enumerated("order_table_sizes"), expected);
}

#[test]
fn the_header_and_the_wrapper_have_the_same_directions() {
    let expected = [("DESCENDING".to_owned(), usize::from(DESCENDING))];
    assert_eq!(enumerated("order_table_directions"), expected);
}

/// Whether a table of these sizes alone is refused for one of them, and not for its
/// length.
fn table_sizes_refused(sizes: &[u8]) -> bool {
    match Table::new(sizes).check() {
        Err(Refusal::Size) => true,
        Err(Refusal::Length) => false,
        other => panic!("{sizes:?}: {other:?}"),
    }
}

/// The same of a query.
fn query_sizes_refused(sizes: &[u8]) -> bool {
    match Query::new(sizes) {
        Err(Refusal::Size) => true,
        Err(Refusal::Length) => false,
        other => panic!("{sizes:?}: {other:?}"),
    }
}

/// The most of each size pass, and one more of any does not.
fn are_limits(most: &[u8], refused: fn(&[u8]) -> bool) {
    assert!(!refused(most), "{most:?}");
    for i in 0..most.len() {
        let mut more = most.to_vec();
        more[i] += 1;
        assert!(refused(&more), "{more:?}");
    }
}

#[test]
fn the_library_has_the_limits_of_the_header() {
    let limits = enumerated("order_table_limits");
    let names = [
        "COLUMNS",
        "PRODUCED",
        "TESTED",
        "SETS",
        "DEPENDENCIES",
        "STATES",
    ];
    let expected = names.map(|name| format!("MAX_{name}"));
    let given: Vec<&String> = limits.iter().map(|(name, _)| name).collect();
    assert_eq!(given, expected.iter().collect::<Vec<_>>());
    let [columns, produced, tested, sets, dependencies, states] = limits
        .iter()
        .map(|(_, most)| *most as u8)
        .collect::<Vec<_>>()[..]
    else {
        panic!("{limits:?}")
    };
    let query = [columns, produced, tested, sets, dependencies];
    are_limits(&query, query_sizes_refused);
    are_limits(&[states, produced, tested, sets], table_sizes_refused);
}
