//! What `explain` and `draw` print for the trials' queries is what the files in golden/
//! have: `NAME.explain` and `NAME.dot` for a trial's name, or `NAME.refused` with the
//! words about its refusal. Trials of one query have the files of the first one.
//!
//! With the environment variable `ORDER_TABLES_WRITE_GOLDEN` set, the files are written
//! anew before they are compared; they are then to be read.

use std::collections::{BTreeMap, HashSet};
use std::ffi::OsString;
use std::path::PathBuf;
use std::{env, fs};

use order_tables_tool::command::run;
use order_tables_tool::failure::Failure;
use reference::trials;

/// The folder of the files.
fn folder() -> PathBuf {
    PathBuf::from(env!("CARGO_MANIFEST_DIR")).join("tests/golden")
}

/// What a command prints for a query on standard input.
fn printed(command: &str, query: &[u8]) -> Result<String, Failure> {
    let arguments = [command, "-"].map(OsString::from);
    let printed = run(&arguments, &mut &query[..])?;
    Ok(String::from_utf8(printed).expect("what is printed is text"))
}

/// The files for a trial's query: their endings, and what they have.
fn files(query: &[u8]) -> Vec<(&'static str, String)> {
    match [printed("explain", query), printed("draw", query)] {
        [Ok(explained), Ok(drawn)] => vec![("explain", explained), ("dot", drawn)],
        [Err(one), Err(other)] => {
            assert_eq!(one, other);
            vec![("refused", one.words().to_owned() + "\n")]
        }
        [explained, drawn] => panic!("{explained:?} {drawn:?}"),
    }
}

/// The files for all trials, by their names.
fn all_files() -> BTreeMap<String, String> {
    let mut seen = HashSet::new();
    let trials = trials::all().into_iter();
    let trials = trials.filter(|trial| seen.insert(trial.query.clone()));
    let files = trials.flat_map(|trial| {
        let files = files(&trial.query).into_iter();
        files.map(move |(ending, text)| (format!("{}.{ending}", trial.name), text))
    });
    files.collect()
}

#[test]
fn tables_are_told_and_drawn_as_in_the_files() {
    let expected = all_files();
    if env::var_os("ORDER_TABLES_WRITE_GOLDEN").is_some() {
        fs::create_dir_all(folder()).expect("the folder can be made");
        for (name, text) in &expected {
            fs::write(folder().join(name), text).expect("the file can be written");
        }
    }
    let entries = fs::read_dir(folder()).expect("the folder is there");
    let entries = entries.map(|entry| entry.expect("the folder can be read").path());
    let read: BTreeMap<String, String> = entries
        .map(|path| {
            let name = path.file_name().expect("a file has a name");
            let text = fs::read_to_string(&path).expect("the file is text");
            (name.to_string_lossy().into_owned(), text)
        })
        .collect();
    let [named, there] = [&expected, &read].map(|files| files.keys().collect::<Vec<_>>());
    assert_eq!(there, named);
    for (name, text) in &expected {
        assert_eq!(&read[name], text, "{name}");
    }
    assert!(read.len() > 60, "only {} files", read.len());
}
