//! The command line.

use std::ffi::{OsStr, OsString};
use std::fs::File;
use std::io::{self, Read};

use crate::counterexample::{counterexample, Asked};
use crate::draw::draw;
use crate::explain::explain;
use crate::failure::Failure;
use crate::help::{help, usage, Command};
use crate::load::Loaded;
use crate::near::one_of;
use crate::text::{self, TextError};
use crate::verify::verify;
use crate::words::{counted, printable, quoted};

/// The argument that stands for standard input.
const STANDARD_INPUT: &str = "-";
/// The argument that asks for help.
const ASKS_FOR_HELP: &str = "--help";

/// Does what the arguments say, which are those behind the program's name. Gives what is
/// to be printed.
pub fn run(arguments: &[OsString], input: &mut dyn Read) -> Result<Vec<u8>, Failure> {
    let Some((name, arguments)) = arguments.split_first() else {
        return Err(misuse("a command is missing", &usage()));
    };
    if name == ASKS_FOR_HELP {
        return Ok(help().into());
    }
    let command = find_command(name)?;
    if arguments.iter().any(|argument| argument == ASKS_FOR_HELP) {
        return Ok(command.help().into());
    }
    check(command, arguments)?;
    do_command(command, arguments, &mut Files { input })
}

/// Does a command with its arguments.
fn do_command(
    command: Command,
    arguments: &[OsString],
    files: &mut Files,
) -> Result<Vec<u8>, Failure> {
    match (command, arguments) {
        (Command::Encode, [file]) => Ok(files.query(file)?.bytes),
        (Command::Decode, [file]) => Ok(text::write(&files.query(file)?.query).into()),
        (Command::Explain | Command::Draw, [file]) => {
            let query = files.query(file)?;
            let table = query.table()?;
            let tell = if command == Command::Draw {
                draw
            } else {
                explain
            };
            Ok(tell(query.states(&table)).into())
        }
        (Command::Verify, [query, table]) => {
            let (query, table) = (files.read(query)?, files.read(table)?);
            let query = Loaded::new(&query.name, query.content)?;
            verify(&query, &table.name, &table.content)?;
            Ok("accepted\n".into())
        }
        (Command::Counterexample, [query, produced, sets, order]) => {
            let asked = Asked {
                produced: names(command, produced, text::order_names)?,
                sets: names(command, sets, text::set_names)?,
                order: names(command, order, text::order_names)?,
            };
            Ok(counterexample(&files.query(query)?, &asked)?.into())
        }
        (command, given) => {
            let given = counted(given.len(), ["argument was", "arguments were"]);
            Err(misuse(&format!("{given} given"), &command.usage()))
        }
    }
}

/// The command of this name.
fn find_command(name: &OsStr) -> Result<Command, Failure> {
    let mut commands = Command::ALL.into_iter();
    let command = commands.find(|command| name == command.name());
    command.ok_or_else(|| {
        let name = name.to_string_lossy();
        let would_do = one_of(&name, &Command::ALL.map(Command::name), None);
        let what = format!("{} is no command; {would_do} would do", quoted(&name));
        misuse(&what, &usage())
    })
}

/// Checks that the arguments of a command have no option, and standard input once at most.
fn check(command: Command, arguments: &[OsString]) -> Result<(), Failure> {
    let is_option = |argument: &&OsString| {
        let bytes = argument.as_encoded_bytes();
        bytes.starts_with(b"-") && *argument != STANDARD_INPUT
    };
    if let Some(option) = arguments.iter().find(is_option) {
        let option = quoted(option.to_string_lossy());
        let what = format!("{option} is no option; {} would do", quoted(ASKS_FOR_HELP));
        return Err(misuse(&what, &command.usage()));
    }
    let inputs = arguments
        .iter()
        .filter(|argument| *argument == STANDARD_INPUT);
    match inputs.count() {
        0 | 1 => Ok(()),
        _ => Err(misuse("`-` can stand for one file alone", &command.usage())),
    }
}

/// The names in an argument, which must be written as they are read.
fn names<N>(
    command: Command,
    argument: &OsStr,
    read: impl Fn(&[u8]) -> Result<Vec<N>, TextError>,
) -> Result<Vec<N>, Failure> {
    read(argument.as_encoded_bytes()).map_err(|error| {
        let argument = quoted(argument.to_string_lossy());
        let what = format!("in {argument}, character {}: {error}", error.column);
        misuse(&what, &command.usage())
    })
}

/// What is misused, and how it is used.
fn misuse(what: &str, usage: &str) -> Failure {
    Failure::Unusable(format!("order_tables: {what}\n{usage}"))
}

/// A file that has been read, as far as is needed.
struct Contents {
    /// What the file is called.
    name: String,
    /// Its bytes, or the first of them: one more than a text may have, which is more than
    /// a query in bytes or a table may have.
    content: Vec<u8>,
}

/// The files that arguments name, and standard input.
struct Files<'i> {
    input: &'i mut dyn Read,
}

impl Files<'_> {
    /// Reads the file that an argument names.
    fn read(&mut self, argument: &OsStr) -> Result<Contents, Failure> {
        let name = match argument.to_string_lossy() {
            argument if argument == STANDARD_INPUT => "standard input".to_owned(),
            argument if argument.is_empty() => quoted(argument),
            argument => printable(&argument),
        };
        let content = match argument == STANDARD_INPUT {
            true => first_bytes(&mut self.input),
            false => File::open(argument).and_then(first_bytes),
        };
        match content {
            Ok(content) => Ok(Contents { name, content }),
            Err(error) => Err(Failure::Unusable(format!("{name}: {error}"))),
        }
    }

    /// Reads the query in the file that an argument names.
    fn query(&mut self, argument: &OsStr) -> Result<Loaded, Failure> {
        let Contents { name, content } = self.read(argument)?;
        Loaded::new(&name, content)
    }
}

/// The first bytes of a file, one more at the most than a text may have.
fn first_bytes(file: impl Read) -> io::Result<Vec<u8>> {
    let most = text::MOST_BYTES as u64 + 1;
    let mut bytes = Vec::new();
    file.take(most).read_to_end(&mut bytes)?;
    Ok(bytes)
}
