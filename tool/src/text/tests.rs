//! Texts that are read, and bad input of every kind.

use order_tables::Direction::{self, Ascending, Descending};

use super::{
    is_text, looks_like_text, order_names, read, set_names, write, Text, TextError, MOST_BYTES,
};
use crate::query::{Dependency, Entry, Order, Query, Rule};

/// The document that has the grammar.
const FORMAT: &str = include_str!("../../../docs/FORMAT.md");
/// Its example.
const EXAMPLE: &str = "\
columns time axis code
produced (time) (time desc, axis)
tested (time desc, code)
set filter: time -> axis
set join: axis = code
set constant: -> axis
";

/// An order of these columns with these directions.
fn order<const N: usize>(entries: [(usize, Direction); N]) -> Order {
    let entries = entries.map(|(column, direction)| Entry { column, direction });
    entries.to_vec()
}

fn fix(set: usize, left: &[usize], right: usize) -> Dependency {
    let left = left.to_vec();
    let rule = Rule::Fix { left, right };
    Dependency { set, rule }
}

fn equal(set: usize, one: usize, other: usize) -> Dependency {
    let rule = Rule::Equal(one, other);
    Dependency { set, rule }
}

fn names(names: &[&str]) -> Vec<String> {
    names.iter().map(|name| name.to_string()).collect()
}

/// The example as a query.
fn example() -> Query {
    Query {
        columns: names(&["time", "axis", "code"]),
        produced: vec![
            order([(0, Ascending)]),
            order([(0, Descending), (1, Ascending)]),
        ],
        tested: vec![order([(0, Descending), (2, Ascending)])],
        sets: names(&["filter", "join", "constant"]),
        dependencies: vec![fix(0, &[0], 1), equal(1, 1, 2), fix(2, &[], 1)],
    }
}

fn read_query(text: &str) -> Query {
    match read(text.as_bytes()) {
        Ok(text) => text.query,
        Err(error) => panic!("{text}: {error}"),
    }
}

#[test]
fn a_text_is_told_from_bytes_by_its_first_byte() {
    assert!(!is_text(b""));
    for first in 0..=255 {
        assert_eq!(is_text(&[first]), (32..=126).contains(&first), "{first}");
        assert_eq!(is_text(&[first, 0]), is_text(&[first]));
    }
}

#[test]
fn what_looks_like_text() {
    for text in [
        "columns a",
        "\ncolumns a",
        "\t# \u{e9}",
        "\u{feff}columns a\r\n",
    ] {
        assert!(looks_like_text(text.as_bytes()), "{text:?}");
    }
    for bytes in [&b""[..], b"\0", b"a\x07", b"\xff", b"columns \xc3"] {
        assert!(!looks_like_text(bytes), "{bytes:?}");
    }
}

#[test]
fn the_example_is_read_and_written() {
    let query = example();
    let lines = vec![2, 2, 3, 4, 5, 6];
    let text = read(EXAMPLE.as_bytes());
    assert_eq!(text, Ok(Text { query, lines }));
    assert_eq!(write(&example()), EXAMPLE);
    assert!(FORMAT.contains(&format!("\n```\n{EXAMPLE}```\n")));
}

#[test]
fn blanks_and_comments_count_for_nothing() {
    let text = "# produced (x)\n\
        columns\ttime axis  code#columns\r\n\
        \n   \t \r\n\
        produced(time)(time desc,axis) # (\u{e9}\u{7}\n\
        tested ( time\tdesc , code )\n  set filter:time->axis\nset join :axis=code\n\
        set constant : -> axis # the last line has no end";
    assert_eq!(read_query(text), example());
    let no_text = read(b"columns a # \xff\xfe\nproduced (a)");
    assert!(no_text.is_ok(), "{no_text:?}");
}

#[test]
fn orders_may_stand_in_several_lines_and_among_sets() {
    let text = "columns time axis code\nset filter: time -> axis\ntested (time desc, code)\n\
        produced (time)\nset join: axis = code\nproduced (time desc, axis)\nproduced\ntested\n\
        set constant: -> axis";
    let lines = vec![4, 6, 3, 2, 5, 9];
    let query = example();
    assert_eq!(read(text.as_bytes()), Ok(Text { query, lines }));
}

#[test]
fn directions_are_read_in_any_case_and_one_of_them_is_written() {
    let text = "columns a b\nproduced (a desc, b) (a DESC) (b Desc,a dEsC)\n\
        tested (a asc) (b ASC, a Asc)( b\tdesc , a aSc )\n";
    let [a, b] = [0, 1].map(|column| move |direction| (column, direction));
    let query = read_query(text);
    let produced = [
        order([a(Descending), b(Ascending)]),
        order([a(Descending)]),
        order([b(Descending), a(Descending)]),
    ];
    assert_eq!(query.produced, produced);
    let tested = [
        order([a(Ascending)]),
        order([b(Ascending), a(Ascending)]),
        order([b(Descending), a(Ascending)]),
    ];
    assert_eq!(query.tested, tested);
    let written = "columns a b\nproduced (a desc, b) (a desc) (b desc, a desc)\n\
        tested (a) (b, a) (b desc, a)\n";
    assert_eq!(write(&query), written);
    assert_eq!(read_query(written), query);
}

#[test]
fn a_direction_adds_128_to_a_columns_byte() {
    let query = read_query("columns a b\nproduced (b desc, a) (b asc)\nset x: b -> a");
    let expected = [
        2, 2, 0, 1, 1, 2, 1, 16, 129, 0, 255, 255, 1, 255, 255, 255, 1, 0, 255, 255,
    ];
    assert_eq!(query.write(), expected);
}

#[test]
fn sets_are_numbered_by_the_line_of_all_sets_or_by_first_use() {
    let by_use = "columns a b\nproduced (a)\nset y: a -> b\nset x: -> a\nset y: a = b";
    let query = read_query(by_use);
    assert_eq!(query.sets, names(&["y", "x"]));
    let expected = [fix(0, &[0], 1), fix(1, &[], 0), equal(0, 0, 1)];
    assert_eq!(query.dependencies, expected);

    let by_line = by_use.replace("produced (a)", "produced (a)\nsets x z y");
    let query = read_query(&by_line);
    assert_eq!(query.sets, names(&["x", "z", "y"]));
    let expected = [fix(2, &[0], 1), fix(0, &[], 0), equal(2, 0, 1)];
    assert_eq!(query.dependencies, expected);
    assert_eq!(write(&query), by_line + "\n");
}

#[test]
fn the_line_of_all_sets_is_written_where_first_use_would_number_otherwise() {
    for (sets, used, written) in [
        (0, &[][..], false),
        (1, &[], true),
        (1, &[0], false),
        (2, &[0, 1], false),
        (2, &[0, 0, 1, 0], false),
        (2, &[1, 0], true),
        (3, &[0, 1], true),
        (3, &[0, 2, 1], true),
        (3, &[0, 1, 0, 2, 1], false),
    ] {
        let query = Query {
            columns: names(&["a"]),
            produced: vec![vec![]],
            sets: (0..sets).map(|set| format!("s{set}")).collect(),
            dependencies: used.iter().map(|&set| fix(set, &[], 0)).collect(),
            ..Query::default()
        };
        let text = write(&query);
        assert_eq!(text.contains("\nsets "), written, "{text}");
        assert_eq!(read_query(&text), query, "{text}");
    }
}

#[test]
fn names_have_letters_digits_lines_and_dots() {
    let query = read_query("columns _ A9 t.time_2 none set columns\nset sets: _ -> set");
    let expected = ["_", "A9", "t.time_2", "none", "set", "columns"];
    assert_eq!(query.columns, expected);
    let nearly = read_query("columns desc_ t.desc descending asc. ascend");
    let expected = ["desc_", "t.desc", "descending", "asc.", "ascend"];
    assert_eq!(nearly.columns, expected);
    assert_eq!(query.sets, ["sets"]);
    assert_eq!(query.dependencies, [fix(0, &[0], 4)]);
}

#[test]
fn empty_orders_lists_and_texts() {
    let query = read_query("columns\nproduced ()( )\ntested\nsets");
    assert_eq!(query.sizes(), [0, 2, 0, 0, 0]);
    assert_eq!(read_query(" # nothing"), Query::default());
}

/// Every word that a line may begin with behind `columns`.
const ANY_STATEMENT: &str = "`produced`, `tested`, `sets` or `set`";

/// What would do behind a column of an order that has no direction yet.
const BEHIND_COLUMN: &str = "`desc`, `,` or `)`";

/// Bad input behind these lines.
const BEFORE: &str = "columns time axis code\nproduced (time)\n";

/// Lines that are bad behind [`BEFORE`], each with the column of what was found, that, and
/// what would do.
const BAD_LINES: &[(&str, usize, &str, &str)] = &[
    // The line's first word.
    ("test (time)", 1, "`test`", "`tested`"),
    ("Produced (time)", 1, "`Produced`", "`produced`"),
    ("  order (time)", 3, "`order`", ANY_STATEMENT),
    ("(time)", 1, "`(`", ANY_STATEMENT),
    ("set. x: time -> axis", 1, "`set.`", "`sets` or `set`"),
    (
        "2 (time)",
        1,
        "`2`, which begins with no letter",
        ANY_STATEMENT,
    ),
    ("\u{b}", 1, "the byte 11", ANY_STATEMENT),
    (
        "columns speed",
        1,
        "`columns`, a second time",
        "one line with all columns",
    ),
    // Characters.
    ("tested (time);", 14, "`;`", "an order in parentheses"),
    ("tested (time;axis)", 13, "`;`", BEHIND_COLUMN),
    ("tested (\u{e9})", 9, "`\u{e9}`", "a column or `)`"),
    (
        "tested (\u{20ac}\u{20ac})",
        9,
        "the character U+20AC",
        "a column or `)`",
    ),
    (
        "tested\u{a0}(time)",
        7,
        "the character U+00A0",
        "an order in parentheses",
    ),
    ("tested (time\u{7})", 13, "the byte 7", BEHIND_COLUMN),
    (
        "tested (time)\r(axis)",
        14,
        "the byte 13",
        "an order in parentheses",
    ),
    (
        "tested (\u{85})",
        9,
        "the character U+0085",
        "a column or `)`",
    ),
    ("set x: time - axis", 13, "`-`", "`->`, `=` or `,`"),
    ("set x: time > axis", 13, "`>`", "`->`, `=` or `,`"),
    ("set x: time => axis", 14, "`>`", "a column"),
    (
        "set x: time 5",
        13,
        "`5`, which begins with no letter",
        "`->`, `=` or `,`",
    ),
    (
        "tested (2nd.a)",
        9,
        "`2nd.a`, which begins with no letter",
        "a column or `)`",
    ),
    // Orders.
    ("tested time", 8, "`time`", "an order in parentheses"),
    (
        "tested (time), (axis)",
        14,
        "`,`",
        "an order in parentheses",
    ),
    ("tested (time", 13, "the end of the line", BEHIND_COLUMN),
    ("tested (time # )", 13, "the end of the line", BEHIND_COLUMN),
    ("tested (time axis)", 14, "`axis`", BEHIND_COLUMN),
    ("tested (time,)", 14, "`)`", "a column"),
    ("tested (,time)", 9, "`,`", "a column or `)`"),
    ("tested (", 9, "the end of the line", "a column or `)`"),
    ("tested ((time))", 9, "`(`", "a column or `)`"),
    // Directions.
    (
        "tested (time descending)",
        14,
        "`descending`",
        BEHIND_COLUMN,
    ),
    ("tested (time desc axis)", 19, "`axis`", "`,` or `)`"),
    ("tested (time desc", 18, "the end of the line", "`,` or `)`"),
    (
        "tested (time desc desc)",
        19,
        "`desc`, a second direction",
        "`,` or `)`",
    ),
    (
        "tested (time, axis asc DESC, code)",
        24,
        "`DESC`, a second direction",
        "`,` or `)`",
    ),
    (
        "tested (desc)",
        9,
        "`desc`, which is reserved",
        "a column or `)`",
    ),
    (
        "tested (time, Asc)",
        15,
        "`Asc`, which is reserved",
        "a column",
    ),
    (
        "tested (desc time)",
        9,
        "`desc`, which is reserved",
        "a column or `)`",
    ),
    (
        "tested (time) desc",
        15,
        "`desc`, which is reserved",
        "an order in parentheses",
    ),
    ("desc (time)", 1, "`desc`, which is reserved", ANY_STATEMENT),
    (
        "set x: time desc -> axis",
        13,
        "`desc`, but a dependency has no direction",
        "`->`, `=` or `,`",
    ),
    (
        "set x: time asc = axis",
        13,
        "`asc`, but a dependency has no direction",
        "`->`, `=` or `,`",
    ),
    (
        "set x: time, axis DESC -> code",
        19,
        "`DESC`, but a dependency has no direction",
        "`->` or `,`",
    ),
    (
        "set x: time -> axis desc",
        21,
        "`desc`, but a dependency has no direction",
        "the end of the line",
    ),
    (
        "set x: time = axis Desc",
        20,
        "`Desc`, but a dependency has no direction",
        "the end of the line",
    ),
    (
        "tested (time, axis, code, time, tme)",
        33,
        "`tme`, a fifth column",
        "at most four",
    ),
    ("tested (tme)", 9, "`tme`, which is no column", "`time`"),
    (
        "tested (time, TIME)",
        15,
        "`TIME`, which is no column",
        "`time`",
    ),
    (
        "tested (speed)",
        9,
        "`speed`, which is no column",
        "`time`, `axis`, `code` or a new name in the line `columns`",
    ),
    // Sets and dependencies.
    ("set", 4, "the end of the line", "the name of a set"),
    ("set : time -> axis", 5, "`:`", "the name of a set"),
    ("set x", 6, "the end of the line", "`:`"),
    ("set x time -> axis", 7, "`time`", "`:`"),
    ("set x:", 7, "the end of the line", "a column or `->`"),
    ("set x: = axis", 8, "`=`", "a column or `->`"),
    ("set x: time", 12, "the end of the line", "`->`, `=` or `,`"),
    ("set x: time axis", 13, "`axis`", "`->`, `=` or `,`"),
    (
        "set x: time, axis",
        18,
        "the end of the line",
        "`->` or `,`",
    ),
    ("set x: time, axis = code", 19, "`=`", "`->` or `,`"),
    ("set x: time, axis, code", 24, "the end of the line", "`->`"),
    (
        "set x: time, axis, code, time -> axis",
        26,
        "`time`, a fourth left column",
        "at most three",
    ),
    ("set x: time, -> axis", 14, "`->`", "a column"),
    ("set x: time ->", 15, "the end of the line", "a column"),
    ("set x: time =", 14, "the end of the line", "a column"),
    (
        "set x: time -> axis code",
        21,
        "`code`",
        "the end of the line",
    ),
    (
        "set x: time = axis = code",
        20,
        "`=`",
        "the end of the line",
    ),
    ("set x: -> axis, code", 15, "`,`", "the end of the line"),
    (
        "set x: tiem -> axis",
        8,
        "`tiem`, which is no column",
        "`time`",
    ),
    (
        "set x: time -> axs",
        16,
        "`axs`, which is no column",
        "`axis`",
    ),
    (
        "set x: time = axs",
        15,
        "`axs`, which is no column",
        "`axis`",
    ),
    (
        "set desc: time -> axis",
        5,
        "`desc`, which is reserved",
        "the name of a set",
    ),
    (
        "set none: time -> axis",
        5,
        "`none`, which stands for no set",
        "another name",
    ),
    (
        "set x: time -> desc",
        16,
        "`desc`, which is reserved",
        "a column",
    ),
    (
        "set x: ASC -> time",
        8,
        "`ASC`, which is reserved",
        "a column or `->`",
    ),
    (
        "set Asc: time -> axis",
        5,
        "`Asc`, which is reserved",
        "the name of a set",
    ),
    // The line of all sets.
    ("sets x, y", 7, "`,`", "a name or the end of the line"),
    (
        "sets x y x",
        10,
        "`x`, which is a set already",
        "another name",
    ),
    (
        "sets desc",
        6,
        "`desc`, which is reserved",
        "a name or the end of the line",
    ),
    (
        "sets x aSC",
        8,
        "`aSC`, which is reserved",
        "a name or the end of the line",
    ),
    (
        "sets x none",
        8,
        "`none`, which stands for no set",
        "another name",
    ),
];

/// Whole texts that are bad, each with the line and the column of what was found, that,
/// and what would do.
const BAD_TEXTS: &[(&str, (usize, usize), &str, &str)] = &[
    (
        "produced (time)\ncolumns time",
        (1, 1),
        "`produced`",
        "`columns` with the names of all columns",
    ),
    (
        "# columns\n colums a",
        (2, 2),
        "`colums`",
        "`columns` with the names of all columns",
    ),
    (
        "columns time, axis",
        (1, 13),
        "`,`",
        "a name or the end of the line",
    ),
    (
        "columns wind-speed",
        (1, 13),
        "`-`",
        "a name or the end of the line",
    ),
    (
        "columns time axis time",
        (1, 19),
        "`time`, which is a column already",
        "another name",
    ),
    (
        "columns time desc",
        (1, 14),
        "`desc`, which is reserved",
        "a name or the end of the line",
    ),
    (
        "columns ASC time",
        (1, 9),
        "`ASC`, which is reserved",
        "a name or the end of the line",
    ),
    (
        "columns\nproduced (time)",
        (2, 11),
        "`time`, which is no column",
        "a new name in the line `columns`",
    ),
    (
        "columns l_key o_key\nproduced (_key)",
        (2, 11),
        "`_key`, which is no column",
        "`l_key` or `o_key`",
    ),
    (
        "columns a b\nproduced (x, b, b, b, b)",
        (2, 11),
        "`x`, which is no column",
        "`a`, `b` or a new name in the line `columns`",
    ),
    (
        "columns a b\nsets x\nsets y",
        (3, 1),
        "`sets`, a second time",
        "one line with all sets",
    ),
    (
        "columns a b\nset x: a -> b\nsets x",
        (3, 1),
        "`sets`, below a line `set`",
        "a place above all of them",
    ),
    (
        "columns a b\nsets filter join\nset fliter: a -> b",
        (3, 5),
        "`fliter`, which is not in the line `sets`",
        "`filter`",
    ),
    (
        "columns a b\nsets filter join\nset x: a -> b",
        (3, 5),
        "`x`, which is not in the line `sets`",
        "`filter`, `join` or a new name in the line `sets`",
    ),
    (
        "columns a b\nsets\nset x: a -> b",
        (3, 5),
        "`x`, which is not in the line `sets`",
        "a new name in the line `sets`",
    ),
];

/// Reads bad input, and compares what is said of it.
fn assert_error(text: &[u8], place: (usize, usize), found: &str, would_do: &str) {
    let said = read(text).map_err(|error| {
        let TextError { line, column, .. } = error;
        ((line, column), error.found, error.would_do)
    });
    let expected = (place, found.to_owned(), would_do.to_owned());
    assert_eq!(said, Err(expected), "{:?}", String::from_utf8_lossy(text));
}

#[test]
fn bad_lines() {
    for &(line, column, found, would_do) in BAD_LINES {
        let alone = format!("{BEFORE}{line}");
        assert_error(alone.as_bytes(), (3, column), found, would_do);
        // What comes behind, whatever it is, changes nothing.
        let followed = format!("{BEFORE}{line}\r\n@\ntested (time)");
        assert_error(followed.as_bytes(), (3, column), found, would_do);
    }
}

#[test]
fn bad_texts() {
    for &(text, place, found, would_do) in BAD_TEXTS {
        assert_error(text.as_bytes(), place, found, would_do);
    }
}

#[test]
fn bytes_that_are_no_text() {
    for (bytes, found) in [
        (&b"tested (\xff)"[..], "the byte 255"),
        (b"tested (\xc3", "the byte 195"),
        (b"tested (\xe2\x82)", "the byte 226"),
        (b"tested (\0)", "the byte 0"),
        (b"tested (\x7f)", "the byte 127"),
    ] {
        let text = [BEFORE.as_bytes(), bytes].concat();
        assert_error(&text, (3, 9), found, "a column or `)`");
    }
}

#[test]
fn more_than_a_size_can_count() {
    let names: String = (0..255).map(|name| format!("n{name} ")).collect();
    let orders = "() ".repeat(255);
    let sets: String = (0..255).map(|set| format!("set n{set}: -> a\n")).collect();
    let after = |begin: &str, rest: &str| [begin, rest].concat();
    for (begun, one_more, found, most) in [
        (after("columns ", &names), "x", "`x`, a column too many", 12),
        (
            after("columns a\nproduced ", &orders),
            "()",
            "`(`, a produced order too many",
            8,
        ),
        (
            after("columns a\ntested ", &orders),
            "()",
            "`(`, a tested order too many",
            8,
        ),
        (
            after("columns a\nsets ", &names),
            "x",
            "`x`, a set too many",
            8,
        ),
        (
            after("columns a\n", &sets),
            "set n0: -> a",
            "`set`, a dependency too many",
            16,
        ),
    ] {
        assert!(read(begun.as_bytes()).is_ok(), "{begun}");
        let line = begun.split('\n').count();
        let column = begun.rsplit('\n').next().unwrap_or_default().len() + 1;
        let text = begun + one_more;
        let would_do = format!("at most {most}");
        assert_error(text.as_bytes(), (line, column), found, &would_do);
    }
}

#[test]
fn long_names_and_texts() {
    let name = |letters| "n".repeat(letters);
    assert_eq!(
        read_query(&format!("columns {}", name(64))).columns,
        [name(64)]
    );
    let text = format!("columns {}", name(65));
    assert_error(
        text.as_bytes(),
        (1, 9),
        "a name of 65 characters",
        "at most 64",
    );

    for digit in ["", "9"] {
        let text = format!("columns a\n{digit}{} (a)", name(5000 - digit.len()));
        let found = "a word of 5000 characters";
        assert_error(text.as_bytes(), (2, 1), found, ANY_STATEMENT);
    }

    let begun = format!("columns a # {}\nproduced (a)\n#", name(500));
    let filled = |length: usize, with: &str| begun.clone() + &with.repeat(length - begun.len());
    for with in ["x", " ", "\n"] {
        assert!(read(filled(MOST_BYTES, with).as_bytes()).is_ok());
    }
    let too_long = "more than 1048576 bytes";
    let place = (3, MOST_BYTES - begun.len() + 2);
    for length in [MOST_BYTES + 1, MOST_BYTES + 2, MOST_BYTES + 1000] {
        assert_error(filled(length, "x").as_bytes(), place, too_long, "fewer");
        let lines = filled(length, "\n");
        assert_error(
            lines.as_bytes(),
            (MOST_BYTES - begun.len() + 3, 1),
            too_long,
            "fewer",
        );
    }
    // What comes before the limit is told first.
    let text = filled(MOST_BYTES + 1, "x").replace("(a)", "(b)");
    assert_error(
        text.as_bytes(),
        (2, 11),
        "`b`, which is no column",
        "`a` or a new name in the line `columns`",
    );
}

/// The error of a text, shown with its line.
fn shown(text: impl AsRef<[u8]>) -> String {
    match read(text.as_ref()) {
        Ok(text) => panic!("no error in {text:?}"),
        Err(error) => error.shown("q.txt", text.as_ref()),
    }
}

#[test]
fn an_error_is_shown_with_its_line_and_marks() {
    let text = format!("{BEFORE}tested (time, cod)   # the report\nset x: time -> axis");
    let expected = "q.txt:3:15: found `cod`, which is no column; `code` would do\n\
        tested (time, cod)   # the report\n              ^^^";
    assert_eq!(shown(text), expected);

    // A tab has the place of one blank.
    let text = "columns\ta\n\tproduced\t(a\r\n";
    let expected = "q.txt:2:13: found the end of the line; `desc`, `,` or `)` would do\n \
        produced (a\n            ^";
    assert_eq!(shown(text), expected);

    // Nothing that moves a terminal's cursor is shown again.
    let text = b"columns 9\x1b[2J\xff # \x07\xe2\x80\xae";
    let expected = "q.txt:1:9: found `9`, which begins with no letter; \
        a name or the end of the line would do\n\
        columns 9\u{fffd}[2J\u{fffd} # \u{fffd}\u{fffd}\n        ^";
    assert_eq!(shown(text), expected);
}

#[test]
fn of_a_long_line_the_part_around_the_error_is_shown() {
    let blank = |count| " ".repeat(count);
    let text = format!("columns{}@{}", blank(900), "x".repeat(900));
    let expected = format!(
        "q.txt:1:908: found `@`; a name or the end of the line would do\n\
        ..{}@{}..\n{}^",
        blank(60),
        "x".repeat(39),
        blank(62)
    );
    assert_eq!(shown(text), expected);
    let name = "x".repeat(900);
    let text = format!("columns {name}");
    let expected = format!(
        "q.txt:1:9: found a name of 900 characters; at most 64 would do\n\
        columns {}..\n        {}",
        "x".repeat(92),
        "^".repeat(92)
    );
    assert_eq!(shown(text), expected);
}

#[test]
fn orders_and_sets_that_stand_alone() {
    let named = |entry: Entry<String>| (entry.column, entry.direction);
    let order = |argument: &str| -> Vec<(String, Direction)> {
        let order = order_names(argument.as_bytes());
        let order = order.unwrap_or_else(|error| panic!("{argument}: {error}"));
        order.into_iter().map(named).collect()
    };
    let with = |direction| move |name: &str| (name.to_owned(), direction);
    let (ascending, descending) = (with(Ascending), with(Descending));
    assert_eq!(order("()"), []);
    assert_eq!(order("(time, code)"), ["time", "code"].map(ascending));
    assert_eq!(
        order(" ( a,b,c,d,e ) "),
        ["a", "b", "c", "d", "e"].map(ascending)
    );
    assert_eq!(
        order("(time desc, code asc,axis DESC)"),
        [descending("time"), ascending("code"), descending("axis")]
    );
    let sets = |argument: &str| set_names(argument.as_bytes());
    assert_eq!(sets("none"), Ok(vec![]));
    assert_eq!(sets(" none "), Ok(vec![]));
    assert_eq!(sets("filter"), Ok(names(&["filter"])));
    assert_eq!(
        sets("filter, join,filter"),
        Ok(names(&["filter", "join", "filter"]))
    );
}

#[test]
fn bad_orders_and_sets_that_stand_alone() {
    type Read = fn(&[u8]) -> Option<TextError>;
    let order: Read = |argument| order_names(argument).err();
    let sets: Read = |argument| set_names(argument).err();
    for (read, argument, column, found, would_do) in [
        (order, "", 1, "the end", "an order in parentheses"),
        (
            order,
            "0",
            1,
            "`0`, which begins with no letter",
            "an order in parentheses",
        ),
        (order, "-", 1, "`-`", "an order in parentheses"),
        (order, "time", 1, "`time`", "an order in parentheses"),
        (order, "(time", 6, "the end", BEHIND_COLUMN),
        (order, "(time desc", 11, "the end", "`,` or `)`"),
        (order, "(time) (axis)", 8, "`(`", "nothing behind the order"),
        (order, "(time)#x", 7, "`#`", "nothing behind the order"),
        (order, "(time\n)", 6, "the byte 10", BEHIND_COLUMN),
        (
            order,
            "(time desc ASC)",
            12,
            "`ASC`, a second direction",
            "`,` or `)`",
        ),
        (
            order,
            "(time) desc",
            8,
            "`desc`, which is reserved",
            "nothing behind the order",
        ),
        (
            order,
            "(desc)",
            2,
            "`desc`, which is reserved",
            "a column or `)`",
        ),
        (sets, "", 1, "the end", "`none` or a set"),
        (
            sets,
            "1",
            1,
            "`1`, which begins with no letter",
            "`none` or a set",
        ),
        (sets, "filter join", 8, "`join`", "`,` or nothing"),
        (sets, "filter,", 8, "the end", "a set"),
        (sets, "none,join", 5, "`,`", "nothing behind `none`"),
        (sets, "none#", 5, "`#`", "nothing behind `none`"),
        (
            sets,
            "filter,none",
            8,
            "`none`, which stands for no set",
            "another name",
        ),
        (
            sets,
            "desc",
            1,
            "`desc`, which is reserved",
            "`none` or a set",
        ),
    ] {
        let error = read(argument.as_bytes()).expect(argument);
        let said = (
            error.line,
            error.column,
            &error.found[..],
            &error.would_do[..],
        );
        assert_eq!(said, (1, column, found, would_do), "{argument:?}");
    }
}
