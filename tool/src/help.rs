//! The commands, and what is said of them for help.

/// How the program is called.
const USAGE: &str = "usage: order_tables COMMAND ARGUMENTS\n";
/// What is said of the program.
const ABOUT: &str = "\
Sort orders of a query: which of them hold where, by the proved library.
";
/// What every help says of files and of the exit status.
const FILES: &str = "\
A query is text or bytes: text when its first byte is 32 to 126, bytes otherwise. Where
it is bytes, its columns are called a, b, .. and its sets s0, s1, .. A text has at most
1048576 bytes. A table is always bytes. The argument `-` stands for standard input, once.

Errors go to standard error. The exit status is 0 when the command is done, 1 for an
error in a text or a refusal, and 2 for misuse or a file that cannot be read.
";
/// Where more is said of each command.
const MORE: &str = "`order_tables COMMAND --help` says more of a command.\n";

const ENCODE: &str = "\
Prints the bytes of the query in FILE, once they have passed the checks 1 to 6. The
programs order_listing, order_verify and order_counterexample read such bytes.

A text names the columns, then the orders that are produced and tested, the most
significant column first, then the dependencies, each with the set that brings it:

    columns time axis code
    produced (time) (time desc, axis)
    tested (time desc, code)    # descending in time: the largest one first
    set filter: time -> axis    # time settles axis; up to three columns may settle one
    set join: axis = code       # each row has one value in both
    set constant: -> axis       # all rows have one value

A set may have several lines. A line `sets filter join constant` above them numbers all
sets, empty ones too; without it first use does.
";
const DECODE: &str = "\
Prints the query in FILE as text, once it has passed the checks 1 to 6. A query in bytes
gets the names a, b, .. and s0, s1, ..; a text keeps its own and loses its comments.
`encode` of what is printed gives the same bytes.
";
const EXPLAIN: &str = "\
Builds the table of the query in FILE and tells it in words: from each produced order
the states that runs of sets lead to, each with its shortest run and the orders that it
holds; what each set adds to the orders that each state holds; and the orders that are
never held. Of equally short runs it shows the one with the smaller set numbers.
";
const DRAW: &str = "\
Builds the table of the query in FILE and prints its states as a graph: a box for each
state with the orders that it holds, an arrow into the state that each produced order
starts in, and an arrow with the names of the sets that lead from one state to another,
gray where they change nothing. For a picture:

    order_tables draw FILE | dot -Tsvg > picture.svg
";
const VERIFY: &str = "\
Says whether the table in TABLE may be loaded for the query in QUERY. `accepted` means
that, from every start and through every run of sets, its answer for each interesting
order is the right one. Otherwise it is refused; with 13 a shortest run is told after
which an answer is wrong.
";
const COUNTEREXAMPLE: &str = "\
Shows two rows that stand in PRODUCED, obey the sets in force and do not stand in ORDER.
Where there are no such rows the answer begins with `none`: ORDER needs no sort.

PRODUCED and ORDER are orders of the query in QUERY, as '(time desc, code)'. SETS are
the names of the sets in force with commas between them, or `none`.
";

/// A command.
#[derive(Clone, Copy, Debug, PartialEq, Eq)]
pub enum Command {
    /// A query's bytes.
    Encode,
    /// A query's text.
    Decode,
    /// A table in words.
    Explain,
    /// A table as a graph.
    Draw,
    /// A supplier's table on trial.
    Verify,
    /// Two rows that show why an order is not held.
    Counterexample,
}

impl Command {
    /// All commands.
    pub const ALL: [Self; 6] = [
        Self::Encode,
        Self::Decode,
        Self::Explain,
        Self::Draw,
        Self::Verify,
        Self::Counterexample,
    ];

    /// The command's word.
    pub fn name(self) -> &'static str {
        match self {
            Self::Encode => "encode",
            Self::Decode => "decode",
            Self::Explain => "explain",
            Self::Draw => "draw",
            Self::Verify => "verify",
            Self::Counterexample => "counterexample",
        }
    }

    /// The names of its arguments.
    pub fn arguments(self) -> &'static [&'static str] {
        match self {
            Self::Encode | Self::Decode | Self::Explain | Self::Draw => &["FILE"],
            Self::Verify => &["QUERY", "TABLE"],
            Self::Counterexample => &["QUERY", "PRODUCED", "SETS", "ORDER"],
        }
    }

    /// How it is called.
    pub fn usage(self) -> String {
        let arguments = self.arguments().join(" ");
        format!("usage: order_tables {} {arguments}\n", self.name())
    }

    /// The help for the command.
    pub fn help(self) -> String {
        let (_, about) = self.described();
        [&self.usage(), about, FILES].join("\n")
    }

    /// What it does, in a line and at length.
    fn described(self) -> (&'static str, &'static str) {
        match self {
            Self::Encode => ("print a query's bytes", ENCODE),
            Self::Decode => ("print a query as text", DECODE),
            Self::Explain => ("tell a query's table in words", EXPLAIN),
            Self::Draw => ("print a query's table as a graph for Graphviz", DRAW),
            Self::Verify => ("put a supplier's table on trial for a query", VERIFY),
            Self::Counterexample => (
                "show two rows for an order that is not held",
                COUNTEREXAMPLE,
            ),
        }
    }
}

/// How the program is called, and where its commands are listed.
pub fn usage() -> String {
    format!("{USAGE}`order_tables --help` lists the commands.\n")
}

/// The help for the program.
pub fn help() -> String {
    let commands = Command::ALL.map(|command| {
        let call = format!("{} {}", command.name(), command.arguments().join(" "));
        let (summary, _) = command.described();
        format!("  {call:42}  {summary}\n")
    });
    [USAGE, ABOUT, &commands.concat(), FILES, MORE].join("\n")
}
