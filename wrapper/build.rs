//! Tells the linker where the proved library is: in the folder that
//! `ORDER_TABLES_LIB` names, or where `rt lib` writes it, run in crates/order_tables.

use std::env;
use std::path::{Path, PathBuf};

fn main() {
    let folder = env::var_os("ORDER_TABLES_LIB").map_or_else(
        || Path::new("..").join("crates/order_tables/out"),
        PathBuf::from,
    );
    let folder = std::path::absolute(folder).expect("the current folder is known");
    let library = folder.join("liborder_tables.a");
    assert!(
        library.is_file(),
        "{} is missing: `rt lib` writes it, run in crates/order_tables",
        library.display()
    );
    println!("cargo::rerun-if-env-changed=ORDER_TABLES_LIB");
    println!("cargo::rerun-if-changed={}", library.display());
    println!("cargo::rustc-link-search=native={}", folder.display());
    println!("cargo::rustc-link-lib=static=order_tables");
}
