//! Compiles the lookups written by hand, and notes the compilers.

use std::env;
use std::path::Path;
use std::process::Command;

const SOURCE: &str = "src/by_hand.c";

fn main() {
    println!("cargo::rerun-if-changed={SOURCE}");
    let folder = env::var("OUT_DIR").expect("cargo names a folder");
    let object = Path::new(&folder).join("by_hand.o");
    let object = object.to_str().expect("the folder's name is text");
    let library = Path::new(&folder).join("libby_hand.a");
    let library = library.to_str().expect("the folder's name is text");
    run("cc", &["-std=c99", "-O2", "-c", SOURCE, "-o", object]);
    run("ar", &["rcs", library, object]);
    println!("cargo::rustc-link-search=native={folder}");
    println!("cargo::rustc-link-lib=static=by_hand");

    let rustc = env::var("RUSTC").expect("cargo names the compiler");
    println!("cargo::rustc-env=RUST_COMPILER={}", version(&rustc));
    println!("cargo::rustc-env=C_COMPILER={}", version("cc"));
}

/// Runs a program that has to succeed, and gives what it prints.
fn run(program: &str, arguments: &[&str]) -> String {
    let output = Command::new(program).args(arguments).output();
    let output = output.unwrap_or_else(|error| panic!("{program}: {error}"));
    let errors = String::from_utf8_lossy(&output.stderr);
    assert!(output.status.success(), "{program}: {errors}");
    String::from_utf8_lossy(&output.stdout).into_owned()
}

/// The first line of what a compiler says of itself.
fn version(compiler: &str) -> String {
    let version = run(compiler, &["--version"]);
    version.lines().next().unwrap_or_default().to_owned()
}
