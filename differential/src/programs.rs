//! The proved programs.

use std::path::PathBuf;

use reference::trials::repository;

/// Where the program of this name is.
///
/// # Panics
///
/// When it is not there.
pub fn built(name: &str) -> PathBuf {
    let path = repository().join(format!("crates/{name}/out/{name}"));
    assert!(
        path.is_file(),
        "{} is missing: `rt run` makes it, run in crates/{name}",
        path.display()
    );
    path
}
