//! The program, run: what it prints where, and its exit status.

use std::ffi::OsStr;
use std::fs::{self, OpenOptions};
use std::io::pipe;
use std::path::{Path, PathBuf};
use std::process::Command;
use std::time::{Duration, Instant};

use order_tables_tool::help;
use reference::builder::table_of;
use reference::program::{empty_folder, ended};
use reference::random::Random;
use reference::samples::{self, Shape};
use reference::trials::repository;
use reference::{Entry, Query};

/// What a run of the program gave.
#[derive(Debug, PartialEq, Eq)]
struct Ended {
    status: i32,
    output: Vec<u8>,
    errors: String,
}

impl Ended {
    /// A run that printed this and nothing else.
    fn printing(output: impl AsRef<[u8]>) -> Self {
        let output = output.as_ref().to_vec();
        Self {
            status: 0,
            output,
            errors: String::new(),
        }
    }

    /// A run with this status that said this in a line on standard error, and printed
    /// nothing.
    fn failing(status: i32, words: &str) -> Self {
        Self {
            status,
            output: Vec::new(),
            errors: format!("{words}\n"),
        }
    }
}

/// The program, in the repository's folder.
fn program() -> Command {
    let mut program = Command::new(env!("CARGO_BIN_EXE_order_tables"));
    program.current_dir(repository());
    program
}

/// Runs the program with these arguments and this standard input.
fn run_with(arguments: &[impl AsRef<OsStr>], input: &[u8]) -> Ended {
    // A program that does not read its input closes it.
    let (_, ended) = ended(program().args(arguments), input);
    Ended {
        status: ended.status.code().expect("the program is not stopped"),
        output: ended.stdout,
        errors: String::from_utf8(ended.stderr).expect("what is said is text"),
    }
}

/// Runs the program with these arguments and nothing on standard input.
fn run(arguments: &[impl AsRef<OsStr>]) -> Ended {
    run_with(arguments, &[])
}

/// A file of the repository.
fn file(path: &str) -> Vec<u8> {
    fs::read(repository().join(path)).expect("the file can be read")
}

/// A folder for the files of one test, empty at first.
fn folder(name: &str) -> PathBuf {
    empty_folder(Path::new(env!("CARGO_TARGET_TMPDIR")).join(name))
}

const TEXT: &str = "examples/first.txt";
const BYTES: &str = "examples/first.query";
/// A query with descending columns.
const NEWEST: &str = "examples/newest.txt";

#[test]
fn encodes_and_decodes() {
    let bytes = Ended::printing(file(BYTES));
    assert_eq!(run(&["encode", TEXT]), bytes);
    assert_eq!(run(&["encode", BYTES]), bytes);
    assert_eq!(run_with(&["encode", "-"], &file(TEXT)), bytes);

    let decoded =
        "columns a b c\nproduced (a) (b, a)\ntested (a, b) (c)\nset s0: a -> b\nset s1: b = c\n";
    assert_eq!(run(&["decode", BYTES]), Ended::printing(decoded));
    assert_eq!(
        run_with(&["decode", "-"], decoded.as_bytes()),
        Ended::printing(decoded)
    );
    assert_eq!(run_with(&["encode", "-"], decoded.as_bytes()), bytes);
    // A text keeps its names.
    let text = "columns time axis code\nproduced (time) (axis, time)\ntested (time, axis) (code)\n\
        set filter: time -> axis\nset join: axis = code\n";
    assert_eq!(run(&["decode", TEXT]), Ended::printing(text));
}

#[test]
fn encodes_and_decodes_directions() {
    let bytes = "examples/newest.query";
    assert_eq!(run(&["encode", NEWEST]), Ended::printing(file(bytes)));
    let decoded =
        "columns a b\nproduced (a desc)\ntested (a desc, b) (a desc, b desc) (a)\nset s0: a -> b\n";
    assert_eq!(run(&["decode", bytes]), Ended::printing(decoded));
    let text = "columns time axis\nproduced (time desc)\n\
        tested (time desc, axis) (time desc, axis desc) (time)\nset filter: time -> axis\n";
    assert_eq!(run(&["decode", NEWEST]), Ended::printing(text));
    let shouted = text.replace("desc", "DESC").replace("axis)", "axis Asc)");
    let written = run_with(&["decode", "-"], shouted.as_bytes());
    assert_eq!(written, Ended::printing(text));
}

/// The words that the lines which FORMAT writes for SQL begin with.
const SQL_LINES: [&str; 3] = ["produced ", "tested ", "set "];

/// What FORMAT writes for SQL is a text's lines, one query in all for each row.
#[test]
fn encodes_the_lines_for_sql() {
    let format = String::from_utf8(file("docs/FORMAT.md")).expect("the page is text");
    let (_, sql) = format
        .split_once("\n## From SQL to a query\n")
        .expect("the section is there");
    let rows = sql.lines().filter(|line| line.starts_with("| `"));
    let mut encoded = 0;
    for row in rows {
        let quoted: Vec<&str> = row.split('`').skip(1).step_by(2).collect();
        let lines: Vec<&str> = quoted
            .into_iter()
            .filter(|quoted| SQL_LINES.iter().any(|word| quoted.starts_with(word)))
            .collect();
        assert!(!lines.is_empty(), "{row}");
        let columns = "columns t.id t.time t.axis u.code u.name total";
        let text = format!("{columns}\nproduced (t.time)\n{}\n", lines.join("\n"));
        let ended = run_with(&["encode", "-"], text.as_bytes());
        assert_eq!((ended.status, &ended.errors[..]), (0, ""), "{text}");
        // Five sizes, and five bytes for the order and each line.
        assert_eq!(ended.output.len(), 5 + 5 * (1 + lines.len()), "{text}");
        encoded += 1;
    }
    assert_eq!(encoded, 9);
}

#[test]
fn verifies() {
    let accepted = Ended::printing("accepted\n");
    for table in ["first", "renumbered", "unmerged"] {
        let table = format!("examples/{table}.table");
        assert_eq!(run(&["verify", TEXT, &table]), accepted);
        assert_eq!(run_with(&["verify", BYTES, "-"], &file(&table)), accepted);
        assert_eq!(run_with(&["verify", "-", &table], &file(TEXT)), accepted);
    }
    let damaged = "examples/damaged.table";
    let said = |file: &str, [time, both]: [&str; 2]| {
        let words = format!(
            "{file}: refused 13, answer: entered by {time}, at the start, \
            it says that {both} is held, which it is not"
        );
        Ended::failing(1, &words)
    };
    let names = ["(time)", "(time, axis)"];
    assert_eq!(run(&["verify", TEXT, damaged]), said(damaged, names));
    assert_eq!(
        run(&["verify", BYTES, damaged]),
        said(damaged, ["(a)", "(a, b)"])
    );
    let input = run_with(&["verify", TEXT, "-"], &file(damaged));
    assert_eq!(input, said("standard input", names));
}

/// Writes a file into a folder, and gives its name.
fn written(folder: &Path, name: &str, content: &[u8]) -> String {
    let path = folder.join(name);
    fs::write(&path, content).expect("the file can be written");
    path.to_str().expect("the folder's name is text").to_owned()
}

/// A run that is refused with these words about a file.
fn refused(file: &str, words: &str) -> Ended {
    Ended::failing(1, &format!("{file}: refused {words}"))
}

#[test]
fn a_refusal_of_a_query_speaks_of_its_file() {
    let folder = folder("queries");
    let table = "examples/first.table";
    let no_table = written(&folder, "no_table", &[]);
    let repeated = b"columns time\nproduced (time)\ntested (time, time)";
    let repeated = written(&folder, "repeated.txt", repeated);
    for table in [table, &no_table] {
        let what = "5, repeat: (time, time) in line 3 has a column twice";
        assert_eq!(run(&["verify", &repeated, table]), refused(&repeated, what));
    }
    let misspelt = written(&folder, "misspelt.txt", b"columns time\nproduced (tiem)");
    let words = format!(
        "{misspelt}:2:11: found `tiem`, which is no column; `time` would do\n\
        produced (tiem)\n          ^^^^"
    );
    assert_eq!(
        run(&["verify", &misspelt, &no_table]),
        Ended::failing(1, &words)
    );
}

/// Queries that are refused, with what is said of them.
const REFUSED_QUERIES: &[(&[u8], &str)] = &[
    (
        b"columns a b\nproduced (a) (b) (a)",
        "6, twin: (a) in line 2 is there twice",
    ),
    (
        b"columns a b\nproduced (a)\ntested (b) (a)",
        "6, twin: (a) in line 3 is the same as (a) in line 2",
    ),
    (
        b"columns a\nproduced (a)\nset x: a = a",
        "5, repeat: a = a in line 3 has a column twice",
    ),
    // A column in both directions is there twice; an order in both is another one.
    (
        b"columns a\nproduced (a) (a desc)\ntested (a DESC)",
        "6, twin: (a desc) in line 3 is the same as (a desc) in line 2",
    ),
    (
        b"columns a b\nproduced (b) (b desc)\ntested (a desc, b, a)",
        "5, repeat: (a desc, b, a) in line 3 has a column twice",
    ),
    // Of several items that are refused so, the first one is told.
    (
        b"columns a b\nproduced (a) (b)\ntested () (b) (a) (b, a)",
        "6, twin: (b) in line 3 is the same as (b) in line 2",
    ),
    (
        b"columns a b\nproduced (b) (a, a)\ntested (b, b) (a)\nset x: a -> a",
        "5, repeat: (a, a) in line 2 has a column twice",
    ),
    (
        b"columns a\n",
        "2, size: 0 produced orders where 1 to 8 would do",
    ),
    (
        b" #",
        "2, size: 0 columns where 1 to 12 would do and 0 produced orders where 1 to 8 would do",
    ),
    (
        b"columns a b c d e f g h i j k l m n\nproduced ()",
        "2, size: 14 columns where 1 to 12 would do (too many from m on)",
    ),
    (
        b"columns a\nproduced () (a) () ()\ntested (a)\nproduced () () () () (a) ()\nsets b c d e f g h i j",
        "2, size: 10 produced orders where 1 to 8 would do (too many from (a) in line 4 on) \
        and 9 sets where 0 to 8 would do (too many from j on)",
    ),
    (
        b"columns a\nproduced ()\ntested () () () () () () () () (a)",
        "2, size: 9 tested orders where 0 to 8 would do (too many from (a) in line 3 on)",
    ),
    (
        b"columns a\nset x:->a\nset x:->a\nset x:->a\nset x:->a\nset x:->a\nset x:->a\nset x:->a\n\
        set x:->a\nset x:->a\nset x:->a\nset x:->a\nset x:->a\nset x:->a\nset x:->a\nset x:->a\n\
        set x:->a\nproduced (a)\ntested ()\nset x: a = a",
        "2, size: 17 dependencies where 0 to 16 would do (too many from a = a in line 20 on)",
    ),
    (
        &[13, 1, 0, 0, 17],
        "2, size: 13 columns where 1 to 12 would do and 17 dependencies where 0 to 16 would do",
    ),
    (&[], "1, length: it is empty, and 5 sizes come first"),
    (&[1, 2, 3, 4], "1, length: 4 bytes where 5 sizes come first"),
    (
        &[2, 1, 0, 0, 0, 1, 0, 255, 255],
        "1, length: 9 bytes where 10 would do by the sizes",
    ),
    (
        &[2, 2, 0, 0, 0, 5, 5, 0, 1, 0, 1, 0, 1, 0, 1],
        "3, item: produced order 0 (head 5, bytes 0 1 0 1) has a length above 4 or an unused byte other than 255",
    ),
    (
        &[2, 1, 0, 1, 1, 0, 81, 255, 255, 255, 255, 0, 1, 255, 255],
        "3, item: dependency 0 (head 81, bytes 0 1 255 255) has a kind above 4, a set not below 1 or an unused byte other than 255",
    ),
    (
        &[
            2, 1, 2, 0, 0, 1, 1, 1, 0, 255, 255, 255, 2, 255, 255, 255, 3, 255, 255, 255,
        ],
        "4, column: tested order 1 (head 1, bytes 2 255 255 255) has a column not below 2",
    ),
    (
        &[2, 1, 1, 0, 0, 1, 1, 129, 255, 255, 255, 130, 255, 255, 255],
        "4, column: tested order 1 (head 1, bytes 130 255 255 255) has a column not below 2",
    ),
    (
        &[2, 1, 0, 1, 1, 1, 0, 128, 255, 255, 255, 128, 255, 255, 255],
        "4, column: dependency 0 (head 0, bytes 128 255 255 255) has a column not below 2",
    ),
    (
        &[2, 1, 0, 0, 0, 1, 255, 255, 255, 128],
        "3, item: produced order 0 (head 1, bytes 255 255 255 128) has a length above 4 or an unused byte other than 255",
    ),
    (
        &[2, 1, 1, 0, 0, 1, 2, 0, 255, 255, 255, 1, 1, 255, 255],
        "5, repeat: tested order 1 (head 2, bytes 1 1 255 255) has a column twice",
    ),
    (
        &[1, 1, 1, 0, 0, 1, 1, 0, 255, 255, 255, 0, 255, 255, 255],
        "6, twin: tested order 1 (head 1, bytes 0 255 255 255) is the same as produced order 0 (head 1, bytes 0 255 255 255)",
    ),
    (
        b"\ncolumns a",
        "2, size: it looks like text and is read as bytes, since the first one is 10 and a text's is 32 to 126",
    ),
    (
        b"\xef\xbb\xbfcolumns a",
        "2, size: it looks like text and is read as bytes, since the first one is 239 and a text's is 32 to 126",
    ),
];

#[test]
fn refused_queries() {
    for &(query, what) in REFUSED_QUERIES {
        for command in ["encode", "decode", "explain", "draw"] {
            let ended = run_with(&[command, "-"], query);
            assert_eq!(ended, refused("standard input", what));
        }
    }
}

#[test]
fn a_refusal_of_a_table_speaks_of_its_file() {
    let folder = folder("tables");
    let table = file("examples/first.table");
    let changed = |place: usize, byte: u8| {
        let mut table = table.clone();
        table[place] = byte;
        table
    };
    let one_set = written(&folder, "one_set.txt", b"columns a\nproduced (a)\nsets s");
    let other_sizes = format!(
        "12, mismatch: it has 2 produced orders, 2 tested orders and 2 sets, \
        and {one_set} has 1 produced order, 0 tested orders and 1 set"
    );
    for (query, table, what) in [
        (
            TEXT,
            &table[..21],
            "1, length: 21 bytes where 22 would do by the sizes",
        ),
        (
            TEXT,
            &table[..3],
            "1, length: 3 bytes where 4 sizes come first",
        ),
        (TEXT, &[], "1, length: it is empty, and 4 sizes come first"),
        (
            TEXT,
            b"columns a\n",
            "2, size: it looks like text, and a table is bytes",
        ),
        (
            TEXT,
            &changed(0, 0),
            "2, size: 0 states where 1 to 128 would do",
        ),
        (
            TEXT,
            &changed(5, 4),
            "11, row: (axis, time) starts in no state",
        ),
        (
            TEXT,
            &changed(9, 128),
            "11, row: in state 1 join leads to no state",
        ),
        (
            TEXT,
            &changed(16, 32),
            "11, row: state 1 has a held bit past the 4 interesting orders",
        ),
        (
            &one_set,
            &changed(5, 4),
            "11, row: produced order 1 starts in no state",
        ),
        (
            &one_set,
            &changed(9, 128),
            "11, row: in state 1 set 1 leads to no state",
        ),
        (&one_set, &table, &other_sizes),
    ] {
        let table = written(&folder, "table", table);
        assert_eq!(run(&["verify", query, &table]), refused(&table, what));
    }
}

#[test]
fn a_wrong_run_is_told_in_its_sequence() {
    let folder = folder("runs");
    let query = b"columns a\nproduced (a)\ntested ()\nsets x y";
    let query = written(&folder, "query.txt", query);
    // States 0 to 2 hold both orders and state 3 the first one. The sets lead from 0 to 1
    // and 2; from 2 set x leads to 3, and nothing else does.
    let table = [
        4, 1, 1, 2, 0, 1, 2, 1, 1, 3, 2, 3, 3, 3, 0, 3, 0, 3, 0, 1, 0,
    ];
    let table = written(&folder, "table", &table);
    let what =
        "13, answer: entered by (a), after y, then x, it says that () is not held, which it is";
    assert_eq!(run(&["verify", &query, &table]), refused(&table, what));
}

#[test]
fn a_query_with_too_many_states_has_its_sets_named() {
    let query = samples::own_column_per_set(8).write();
    let words = "standard input: refused 8, states: the smallest table has more than 128 states, \
        for rows in (a) and the sets s0, s1, s2, s3, s4, s5, s6 and s7";
    for command in ["explain", "draw"] {
        assert_eq!(run_with(&[command, "-"], &query), Ended::failing(1, words));
    }
    let table = "examples/first.table";
    assert_eq!(
        run_with(&["verify", "-", table], &query),
        Ended::failing(1, words)
    );
    // Two rows are shown all the same.
    let rows = run_with(&["counterexample", "-", "(a)", "none", "(a, b)"], &query);
    assert_eq!(rows.status, 0, "{rows:?}");
}

/// What the two rows of the first query show.
const TWO_ROWS: &str = "        time  axis  code
first      0     1     0
second     0     0     1

These rows stand in (time), with no set in force, and do not stand in (time, axis):
they are alike in time (ascending), and in axis (ascending) the first has 1 and the second 0.
So a sort by (time, axis) is needed.
";

/// What is asked of the first query and is not in it, with what is said of it.
const NOT_IN_THE_QUERY: &[([&str; 3], &str)] = &[
    (
        ["(tme)", "none", "(time)"],
        "`tme` is no column; `time` would do",
    ),
    (
        ["(code)", "none", "(time)"],
        "(code) is no produced order; (time) or (axis, time) would do",
    ),
    (
        ["(time desc)", "none", "(time)"],
        "(time desc) is no produced order; (time) or (axis, time) would do",
    ),
    (
        ["(time asc)", "none", "(axis, time DESC)"],
        "(axis, time desc) is no interesting order; \
        (time), (axis, time), (time, axis) or (code) would do",
    ),
    (
        ["(time)", "join,fliter", "(time)"],
        "`fliter` is no set; `filter` would do",
    ),
    (
        ["(time)", "x", "(time)"],
        "`x` is no set; `filter`, `join` or `none` would do",
    ),
    (
        ["(time)", "none", "(time, x)"],
        "`x` is no column; `time`, `axis` or `code` would do",
    ),
    (
        ["(time)", "none", "(time, code, axis, time, time)"],
        "(time, code, axis, time, time) is no interesting order; \
        (time), (axis, time), (time, axis) or (code) would do",
    ),
];

/// Asks for two rows of the first query.
fn ask(produced: &str, sets: &str, order: &str) -> Ended {
    run(&["counterexample", TEXT, produced, sets, order])
}

#[test]
fn shows_two_rows_or_none() {
    for (produced, sets, order) in [
        ("(time)", "none", "(time, axis)"),
        ("( time )", " none", "(time,axis)"),
    ] {
        assert_eq!(ask(produced, sets, order), Ended::printing(TWO_ROWS));
    }
    for (sets, order, none) in [
        (
            "join, filter,join",
            "(time, axis)",
            "(time) and obey join and filter stand in (time, axis)",
        ),
        ("filter", "(time)", "(time) and obey filter stand in (time)"),
        ("none", "(time)", "(time) stand in (time)"),
    ] {
        let none = format!("none: all rows that stand in {none}, and no sort is needed.\n");
        assert_eq!(ask("(time)", sets, order), Ended::printing(none));
    }
    for &([produced, sets, order], what) in NOT_IN_THE_QUERY {
        let what = format!("10, handle: {what}");
        assert_eq!(ask(produced, sets, order), refused(TEXT, &what));
    }
}

/// What is said of two rows of the query with descending columns, behind their table.
const DESCENDING_ROWS: &[([&str; 3], &str)] = &[
    (
        ["(time desc)", "none", "(time desc, axis desc)"],
        "These rows stand in (time desc), with no set in force, and do not stand in \
        (time desc, axis desc):\n\
        they are alike in time (descending), and in axis (descending) the first has 0 and the \
        second 1.\n\
        So a sort by (time desc, axis desc) is needed.\n",
    ),
    (
        ["(time DESC)", "filter", "(time asc)"],
        "These rows stand in (time desc), obey filter, and do not stand in (time):\n\
        in time (ascending) the first has 1 and the second 0.\n\
        So a sort by (time) is needed.\n",
    ),
];

#[test]
fn shows_two_rows_of_descending_columns() {
    for &([produced, sets, order], expected) in DESCENDING_ROWS {
        let ended = run(&["counterexample", NEWEST, produced, sets, order]);
        assert_eq!((ended.status, &ended.errors[..]), (0, ""), "{ended:?}");
        let printed = String::from_utf8(ended.output).expect("text is printed");
        let (_, said) = printed.split_once("\n\n").expect("a table comes first");
        assert_eq!(said, expected);
    }
    let none = "none: all rows that stand in (time desc) and obey filter stand in \
        (time desc, axis desc), and no sort is needed.\n";
    let order = "(time desc, axis desc)";
    let ended = run(&["counterexample", NEWEST, "(time desc)", "filter", order]);
    assert_eq!(ended, Ended::printing(none));
}

#[test]
fn explains_and_draws_and_verifies_descending_columns() {
    let explained = "The table has 2 states for 1 produced order, 3 tested orders and 1 set.\n\n\
        Entered by (time desc):\n  state 0, at the start, holds (time desc).\n  \
        state 1, after filter, holds (time desc), (time desc, axis) and (time desc, axis desc).\n\n\
        In state 0:\n  \
        filter adds (time desc, axis) and (time desc, axis desc) and leads to state 1.\n\
        In state 1:\n  filter changes nothing.\n\n(time) is never held.\n";
    assert_eq!(run(&["explain", NEWEST]), Ended::printing(explained));
    let drawn = String::from_utf8(run(&["draw", NEWEST]).output).expect("a graph is text");
    for line in [
        "    start_0 [shape=plaintext, label=\"produced (time desc)\"]\n",
        "    state_1 [label=\"state 1\\n(time desc)\\n(time desc, axis)\\n(time desc, axis desc)\"]\n",
    ] {
        assert!(drawn.contains(line), "{drawn}");
    }
    // One state, which holds all four orders.
    let table = [1, 1, 3, 1, 0, 0, 15, 0];
    let what = "13, answer: entered by (time desc), at the start, \
        it says that (time desc, axis) is held, which it is not, \
        and that (time desc, axis desc) is held, which it is not, \
        and that (time) is held, which it is not";
    let ended = run_with(&["verify", NEWEST, "-"], &table);
    assert_eq!(ended, refused("standard input", what));
}

#[test]
fn helps() {
    assert_eq!(run(&["--help"]), Ended::printing(help::help()));
    for command in help::Command::ALL {
        let name = command.name();
        let printed = run(&[name, "--help"]);
        assert_eq!(printed, Ended::printing(command.help()));
        assert_eq!(run(&[name, "-", "--help", "-"]), printed);
        let help = command.help();
        let usage = format!(
            "usage: order_tables {name} {}\n",
            command.arguments().join(" ")
        );
        assert!(help.starts_with(&usage), "{help}");
        assert!(help::help().contains(&format!("  {name} ")));
    }
}

#[test]
fn the_text_that_is_shown_for_help_is_read() {
    let help = help::Command::Encode.help();
    let text = help.lines().filter_map(|line| line.strip_prefix("    "));
    let text: String = text.flat_map(|line| [line, "\n"]).collect();
    let decoded = "columns time axis code\nproduced (time) (time desc, axis)\n\
        tested (time desc, code)\nset filter: time -> axis\nset join: axis = code\n\
        set constant: -> axis\n";
    let printed = run_with(&["decode", "-"], text.as_bytes());
    assert_eq!(printed, Ended::printing(decoded));
}

/// Arguments that are misused, with what is said of them.
const MISUSED: &[(&[&str], &str)] = &[
    (&[], "a command is missing"),
    (&["list", TEXT], "`list` is no command; `encode`, `decode`, `explain`, `draw`, `verify` or `counterexample` would do"),
    (&["explian", TEXT], "`explian` is no command; `explain` would do"),
    (&["ver\u{1b}ify"], "`ver\u{fffd}ify` is no command; `verify` would do"),
    (&["explain"], "0 arguments were given"),
    (&["encode", TEXT, TEXT], "2 arguments were given"),
    (&["verify", TEXT], "1 argument was given"),
    (&["verify", TEXT, BYTES, BYTES], "3 arguments were given"),
    (&["draw", "--svg"], "`--svg` is no option; `--help` would do"),
    (&["draw", "-x", "--", TEXT], "`-x` is no option; `--help` would do"),
    (&["verify", "-", "-"], "`-` can stand for one file alone"),
    (&["counterexample", TEXT, "(time)", "none"], "3 arguments were given"),
    (
        &["counterexample", BYTES, "0", "0", "2"],
        "in `0`, character 1: found `0`, which begins with no letter; an order in parentheses would do",
    ),
    (
        &["counterexample", TEXT, "(time)", "", "(time)"],
        "in ``, character 1: found the end; `none` or a set would do",
    ),
    (
        &["counterexample", "missing", "(time)", "none", "(time"],
        "in `(time`, character 6: found the end; `desc`, `,` or `)` would do",
    ),
    (
        &["counterexample", NEWEST, "(time desc desc)", "none", "(time)"],
        "in `(time desc desc)`, character 12: found `desc`, a second direction; `,` or `)` would do",
    ),
];

#[test]
fn misuse() {
    for &(arguments, what) in MISUSED {
        let Ended {
            status,
            output,
            errors,
        } = run(arguments);
        assert_eq!(
            (status, &output[..]),
            (2, &b""[..]),
            "{arguments:?}: {errors}"
        );
        let mut lines = errors.lines();
        assert_eq!(lines.next(), Some(&format!("order_tables: {what}")[..]));
        let usage = lines.next().unwrap_or_default();
        assert!(usage.starts_with("usage: order_tables "), "{errors}");
    }
}

/// What stands for a file that cannot be read.
const UNREADABLE: &str = "UNREADABLE";
/// Ways to run the program with such a file.
const WITH_UNREADABLE: [&[&str]; 5] = [
    &["explain", UNREADABLE],
    &["verify", TEXT, UNREADABLE],
    &["verify", UNREADABLE, TEXT],
    // A query that is refused does not hide that the table can't be read.
    &["verify", "examples/first.table", UNREADABLE],
    &["counterexample", UNREADABLE, "(time)", "none", "(time)"],
];

#[test]
fn files_that_cannot_be_read() {
    let folder = folder("unreadable");
    let missing = folder.join("missing");
    let paths = [(&missing, missing.to_str()), (&folder, folder.to_str())];
    let nameless = PathBuf::new();
    for (path, name) in paths.into_iter().chain([(&nameless, Some("``"))]) {
        let name = name.expect("the folder's name is text");
        for arguments in WITH_UNREADABLE {
            let arguments = arguments.iter().map(|&argument| match argument {
                UNREADABLE => path.as_os_str(),
                argument => OsStr::new(argument),
            });
            let Ended {
                status,
                output,
                errors,
            } = run(&arguments.collect::<Vec<&OsStr>>());
            assert_eq!((status, &output[..]), (2, &b""[..]), "{errors}");
            let one_line = errors.lines().count() == 1;
            assert!(
                one_line && errors.starts_with(&format!("{name}: ")),
                "{errors}"
            );
        }
    }
}

#[test]
fn output_that_cannot_be_written() {
    let full = OpenOptions::new().write(true).open("/dev/full");
    let full = full.expect("the device that is always full is there");
    let ended = program().args(["explain", TEXT]).stdout(full).output();
    let ended = ended.expect("the program runs");
    assert_eq!(ended.status.code(), Some(2));
    let errors = String::from_utf8_lossy(&ended.stderr);
    assert!(errors.starts_with("standard output: "), "{errors}");

    // Who closes the output has read enough.
    let (reader, writer) = pipe().expect("a pipe can be made");
    drop(reader);
    let ended = program().args(["explain", TEXT]).stdout(writer).output();
    let ended = ended.expect("the program runs");
    assert_eq!(ended.status.code(), Some(0));
    assert!(ended.stderr.is_empty(), "{ended:?}");
}

#[test]
fn endless_input() {
    for (file, words) in [
        (TEXT, "/dev/zero: refused 2, size: 0 states where 1 to 128 would do and 0 produced orders where 1 to 8 would do"),
        ("/dev/zero", "/dev/zero: refused 2, size: 0 columns where 1 to 12 would do and 0 produced orders where 1 to 8 would do"),
    ] {
        assert_eq!(run(&["verify", file, "/dev/zero"]), Ended::failing(1, words));
    }
    let mut table = file("examples/first.table");
    table.resize(2 << 20, 0);
    let what = "1, length: more than 1048576 bytes where 22 would do by the sizes";
    let ended = run_with(&["verify", TEXT, "-"], &table);
    assert_eq!(ended, refused("standard input", what));
    let text = "#".repeat(2 << 20);
    let ended = run_with(&["encode", "-"], text.as_bytes());
    let words = "standard input:1:1048577: found more than 1048576 bytes; fewer would do\n";
    assert!(
        ended.status == 1 && ended.errors.starts_with(words),
        "{ended:?}"
    );
}

/// An order of a query in bytes, as it is written.
fn order_text(order: Option<&Vec<Entry>>) -> String {
    let entries = order.expect("the query has the order").iter();
    let entries = entries.map(|entry| {
        let direction = if entry.descends { " desc" } else { "" };
        format!("{}{direction}", char::from(b'a' + entry.column))
    });
    format!("({})", entries.collect::<Vec<String>>().join(", "))
}

/// All ways to run the program with a query, in a folder: with a table for it that is
/// wrong in the last bit of the last state, if it has one, and with all sets in force.
fn runs(folder: &Path, query: &Query) -> Vec<Vec<String>> {
    let file = written(folder, "query", &query.write());
    let mut runs: Vec<Vec<String>> = ["encode", "decode", "explain", "draw"]
        .map(|command| vec![command.to_owned(), file.clone()])
        .into();
    if let Ok(mut table) = table_of(&query.write()) {
        let last = table.states.len() - 1;
        table.states[last].held ^= 1 << (table.interesting() - 1);
        let table = written(folder, "table", &table.write());
        runs.push(vec!["verify".to_owned(), file.clone(), table]);
    }
    let sets: Vec<String> = (0..query.sets).map(|set| format!("s{set}")).collect();
    runs.push(vec![
        "counterexample".to_owned(),
        file,
        order_text(query.produced.first()),
        sets.join(","),
        order_text(query.interesting().last()),
    ]);
    runs
}

#[test]
fn the_largest_queries_answer_within_a_second() {
    let folder = folder("largest");
    let mut random = Random::new(6);
    let mut largest = vec![
        samples::longest_table(),
        samples::most_orders(),
        samples::own_column_per_set(7),
        samples::own_column_per_set(8),
    ];
    largest.extend((0..4).map(|_| samples::query(&mut random, Shape::LARGEST)));
    let mut slowest = Duration::ZERO;
    let mut statuses = [0; 2];
    for query in &largest {
        for arguments in runs(&folder, query) {
            let begun = Instant::now();
            let ended = run(&arguments);
            slowest = slowest.max(begun.elapsed());
            assert!(ended.status < 2, "{arguments:?} {ended:?}");
            statuses[ended.status as usize] += 1;
        }
    }
    println!("the slowest of {statuses:?} runs on the largest queries took {slowest:?}");
    assert!(slowest < Duration::from_secs(1), "{slowest:?}");
    assert!(statuses[0] > 20 && statuses[1] > 3, "{statuses:?}");
}
