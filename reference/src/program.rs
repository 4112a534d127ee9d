//! Running a program.

use std::ffi::OsStr;
use std::fs;
use std::io::{self, Write};
use std::path::{Path, PathBuf};
use std::process::{Command, Output, Stdio};

/// What a program has written.
#[derive(Clone, Debug, PartialEq, Eq)]
pub struct Written {
    /// On standard output.
    pub output: String,
    /// On standard error.
    pub errors: String,
}

/// What a program prints for a query on standard input.
///
/// # Panics
///
/// When the program can't be run, ends in failure or prints no text.
pub fn printed(program: &Path, query: &[u8]) -> String {
    run(program, &[] as &[&str], query).output
}

/// What a program writes with these arguments and standard input.
///
/// # Panics
///
/// When the program can't be run, ends in failure or writes no text.
pub fn run(program: &Path, arguments: &[impl AsRef<OsStr>], input: &[u8]) -> Written {
    let (read, output) = ended(Command::new(program).args(arguments), input);
    read.expect("the program reads its input");
    assert!(output.status.success(), "the program ends without failure");
    let text = |bytes| String::from_utf8(bytes).expect("what is written is text");
    Written {
        output: text(output.stdout),
        errors: text(output.stderr),
    }
}

/// How a program ends with this standard input, and whether it read that.
///
/// # Panics
///
/// When the program can't be run.
pub fn ended(program: &mut Command, input: &[u8]) -> (io::Result<()>, Output) {
    let mut program = program
        .stdin(Stdio::piped())
        .stdout(Stdio::piped())
        .stderr(Stdio::piped())
        .spawn()
        .expect("the program starts");
    let mut pipe = program.stdin.take().expect("the input is a pipe");
    let read = pipe.write_all(input);
    drop(pipe);
    let output = program.wait_with_output().expect("the program ends");
    (read, output)
}

/// A folder for the files that programs are given, made anew.
///
/// # Panics
///
/// When it can't be made.
pub fn empty_folder(folder: PathBuf) -> PathBuf {
    if folder.exists() {
        fs::remove_dir_all(&folder).expect("the folder can be removed");
    }
    fs::create_dir_all(&folder).expect("the folder can be made");
    folder
}
