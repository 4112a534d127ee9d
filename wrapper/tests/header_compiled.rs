//! The header compiles by itself, in C and in C++. Compiled, it has the words of the
//! refusals and the version.

use std::fs;
use std::path::PathBuf;
use std::process::Command;

use order_tables::Refusal;
use reference::program::{empty_folder, run};
use reference::trials::repository;

const WARNINGS: [&str; 4] = ["-Wall", "-Wextra", "-Werror", "-pedantic"];

/// Compiles a source with the header at hand, with every warning an error.
fn compile(compiler: &str, arguments: &[&str], source: &str, name: &str) -> PathBuf {
    let folder = PathBuf::from(env!("CARGO_TARGET_TMPDIR"));
    let folder = empty_folder(folder.join("header").join(name));
    let (source_file, compiled) = (folder.join(name), folder.join("compiled"));
    fs::write(&source_file, source).expect("the source can be written");
    let mut command = Command::new(compiler);
    command.args(arguments).args(WARNINGS).arg("-I");
    command.arg(repository().join("include")).arg(&source_file);
    let status = command.arg("-o").arg(&compiled).status();
    let status = status.unwrap_or_else(|error| panic!("{compiler}: {error}"));
    assert!(status.success(), "{name} can't be compiled");
    compiled
}

/// What a C program prints that has the header and this body.
fn printed(name: &str, body: &str) -> String {
    let source = format!(
        "#include \"order_tables.h\"\n#include <stdio.h>\nint main(void) {{\n{body}\nreturn 0;\n}}\n"
    );
    let program = compile("cc", &["-std=c99"], &source, name);
    run(&program, &[] as &[&str], &[]).output
}

#[test]
fn the_header_compiles_alone_in_both_languages() {
    let source = "#include \"order_tables.h\"\n";
    compile("cc", &["-std=c99", "-c"], source, "alone.c");
    compile("c++", &["-std=c++17", "-c"], source, "alone.cc");
}

#[test]
fn the_header_has_the_words_of_the_refusals() {
    let body = "for (uint32_t n = 0; n < 300; n++) puts(order_table_refusal_word(n));";
    let printed = printed("words.c", body);
    let words: Vec<&str> = printed.lines().collect();
    assert_eq!((words.len(), words[0]), (300, "granted"));
    let (listed, others) = words[1..].split_at(Refusal::ALL.len());
    assert_eq!(listed, Refusal::ALL.map(Refusal::word));
    assert!(others.iter().all(|word| *word == "unknown"));
}

#[test]
fn the_version_is_that_of_the_file() {
    let version = fs::read_to_string(repository().join("VERSION")).expect("the file is there");
    assert_eq!(printed("version.c", "puts(ORDER_TABLES_VERSION);"), version);
    assert_eq!(env!("CARGO_PKG_VERSION"), version.trim_end());
}
