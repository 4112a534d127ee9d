//! Counting the instructions of single calls of the proved library, with callgrind, a
//! tool of Valgrind.
//!
//! A program runs itself again under callgrind, with a function to call as an argument and
//! what to call it on as its standard input. callgrind counts from the function's entry to
//! its return, what that calls included, and nothing else. At each return it writes a part
//! with the count and begins again from 0. So one run gives the count of every call, and
//! what else the machine does changes none. An instruction that the processor repeats, as
//! some do that fill memory, counts once for each time.

use std::io::{self, ErrorKind, Write};
use std::process::{Command, Stdio};
use std::{env, fs, process};

use order_tables::{raw as proved, LONGEST_TABLE, SCRATCH_BYTES};

use crate::{held_words, report};

/// The functions whose calls are counted.
#[derive(Clone, Copy)]
enum Function {
    Check,
    Build,
    Continue,
}

impl Function {
    const ALL: [Self; 3] = [Self::Check, Self::Build, Self::Continue];

    fn name(self) -> &'static str {
        match self {
            Self::Check => "order_query_check",
            Self::Build => "order_table_build",
            Self::Continue => "order_table_continue",
        }
    }
}

/// The argument of a program that is run again.
const AGAIN: &str = "make-calls";
/// What separates a query from held words.
const SEPARATOR: &str = ";";

/// The instructions of a query's calls.
#[derive(Clone, Copy, Debug)]
pub struct OfQuery {
    /// Of the checks 1 to 6.
    pub checks: u64,
    /// Of the build in one call.
    pub build: u64,
    /// Of the longest call that settles a pair. It does the checks too.
    pub longest_settling: u64,
    /// Of the last call of the stepped build.
    pub last: u64,
    /// Of all calls of the stepped build but the beginning.
    pub all: u64,
}

/// Counts the calls of some queries that are not refused with 1 to 6, or says why it
/// can't.
pub fn of_queries(queries: &[&[u8]]) -> Result<Vec<OfQuery>, String> {
    let lines: Vec<String> = queries.iter().map(|query| report::bytes(query)).collect();
    let calls = queries.iter().map(|query| pairs(query) + 1).sum();
    let checks = counts(Function::Check, &lines, lines.len())?;
    let builds = counts(Function::Build, &lines, lines.len())?;
    let mut steps = &counts(Function::Continue, &lines, calls)?[..];
    let of_queries = queries.iter().zip(checks).zip(builds);
    let of_queries = of_queries.map(|((query, checks), build)| {
        let (settling, others) = steps.split_at(pairs(query));
        let (&last, others) = others.split_first().expect("a last call is counted");
        steps = others;
        OfQuery {
            checks,
            build,
            longest_settling: settling.iter().copied().max().unwrap_or_default(),
            last,
            all: settling.iter().sum::<u64>() + last,
        }
    });
    Ok(of_queries.collect())
}

/// Counts the last call of a stepped build, for some queries with the held words that lie
/// in the scratch, or says why it can't.
pub fn of_merges<'m>(
    merges: impl Iterator<Item = (&'m [u8], &'m [u16])>,
) -> Result<Vec<u64>, String> {
    let lines = merges.map(|(query, words)| {
        let words: Vec<String> = words.iter().map(u16::to_string).collect();
        format!("{} {SEPARATOR} {}", report::bytes(query), words.join(" "))
    });
    let lines: Vec<String> = lines.collect();
    counts(Function::Continue, &lines, lines.len())
}

/// Makes the calls that the arguments and the standard input say and gives true, where
/// this program is run again to be counted.
///
/// # Panics
///
/// When they are not as [`of_queries`] and [`of_merges`] give them.
pub fn made_calls() -> bool {
    let mut arguments = env::args().skip(1);
    if arguments.next().is_none_or(|argument| argument != AGAIN) {
        return false;
    }
    let name = arguments.next().unwrap_or_default();
    let function = Function::ALL.into_iter().find(|one| one.name() == name);
    let function = function.expect("the function is counted");
    for line in io::stdin().lines() {
        make_calls(function, &line.expect("the input is text"));
    }
    true
}

/// Makes the calls of a function that a line says: of a query alone, one call, or those
/// of a stepped build; with held words, the last call of a stepped build on these.
fn make_calls(function: Function, line: &str) {
    let mut scratch = vec![0; SCRATCH_BYTES];
    let mut output = vec![0; LONGEST_TABLE];
    let (query, words) = line.split_once(SEPARATOR).unwrap_or((line, ""));
    let (query, words) = (numbers(query), numbers(words));
    let calls = match function {
        Function::Check | Function::Build => 1,
        Function::Continue if words.is_empty() => {
            proved::table_begin(&query, &mut scratch);
            pairs(&query) + 1
        }
        Function::Continue => {
            held_words::put(&mut scratch, &words);
            1
        }
    };
    for _ in 0..calls {
        match function {
            Function::Check => proved::query_check(&query),
            Function::Build => proved::table_build(&query, &mut scratch, &mut output),
            Function::Continue => proved::table_continue(&query, &mut scratch, &mut output),
        };
    }
}

/// The pairs of a query that is not refused with 1 to 6.
fn pairs(query: &[u8]) -> usize {
    usize::from(query[1]) << query[3]
}

/// The numbers of a line.
fn numbers<N: std::str::FromStr>(line: &str) -> Vec<N> {
    let numbers = line.split_whitespace().map(str::parse);
    let numbers: Result<_, _> = numbers.collect();
    numbers.unwrap_or_else(|_| panic!("other than numbers: {line}"))
}

/// Runs this program again under callgrind, and gives the instructions of each call of a
/// function, in their sequence, of which so many are expected.
fn counts(function: Function, lines: &[String], expected: usize) -> Result<Vec<u64>, String> {
    let program = env::current_exe().map_err(|error| format!("this program: {error}"))?;
    let parts = env::temp_dir().join(format!("order_tables_calls.{}", process::id()));
    let mut callgrind = Command::new("valgrind");
    callgrind
        .args(["--tool=callgrind", "--combine-dumps=yes"])
        .arg(format!("--callgrind-out-file={}", parts.display()))
        .arg(format!("--toggle-collect={}", function.name()))
        .arg(format!("--dump-after={}", function.name()))
        .arg(program)
        .args([AGAIN, function.name()])
        .stdin(Stdio::piped())
        .stdout(Stdio::null())
        .stderr(Stdio::null());
    let mut run = callgrind.spawn().map_err(|error| match error.kind() {
        ErrorKind::NotFound => "Valgrind is not installed".to_owned(),
        _ => format!("valgrind: {error}"),
    })?;
    let mut input = run.stdin.take().expect("the input is piped");
    let given = input.write_all(lines.join("\n").as_bytes());
    drop(input);
    let ended = run.wait();
    let written = fs::read_to_string(&parts);
    let _ = fs::remove_file(&parts);
    given.map_err(|error| format!("the input of valgrind: {error}"))?;
    let ended = ended.map_err(|error| format!("valgrind: {error}"))?;
    let written = written.map_err(|error| format!("what callgrind wrote: {error}"))?;
    let counts = counts_of_parts(&written);
    let counted = counts.iter().filter(|&&count| count > 0).count();
    match ended.success() && [counted, counts.len()] == [expected; 2] {
        true => Ok(counts),
        false => Err(format!(
            "callgrind counted {counted} of {expected} calls, {ended}"
        )),
    }
}

/// The counts in callgrind's file. The part that is written at the end of the program
/// is of no call.
fn counts_of_parts(written: &str) -> Vec<u64> {
    let mut counts = Vec::new();
    let mut at_return = false;
    for line in written.lines() {
        if let Some(trigger) = line.strip_prefix("desc: Trigger: ") {
            at_return = trigger.starts_with("--dump-after=");
        } else if let Some(total) = line.strip_prefix("totals: ").filter(|_| at_return) {
            counts.extend(total.trim().parse::<u64>());
        }
    }
    counts
}
