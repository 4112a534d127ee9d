//! The command-line tool `order_tables`.

use std::env;
use std::ffi::OsString;
use std::io::{self, Write};
use std::process::ExitCode;

use order_tables_tool::command::run;
use order_tables_tool::failure::Failure;

fn main() -> ExitCode {
    let arguments: Vec<OsString> = env::args_os().skip(1).collect();
    let done = run(&arguments, &mut io::stdin().lock()).and_then(|printed| print(&printed));
    match done {
        Ok(()) => ExitCode::SUCCESS,
        Err(failure) => {
            // Where nothing can be written to standard error, the status still tells.
            let _ = writeln!(io::stderr(), "{}", failure.words().trim_end());
            ExitCode::from(failure.status())
        }
    }
}

/// Writes bytes to standard output. Who closes it has read enough.
fn print(bytes: &[u8]) -> Result<(), Failure> {
    let mut output = io::stdout().lock();
    let written = output.write_all(bytes).and_then(|()| output.flush());
    match written {
        Err(error) if error.kind() != io::ErrorKind::BrokenPipe => {
            Err(Failure::Unusable(format!("standard output: {error}")))
        }
        _ => Ok(()),
    }
}
