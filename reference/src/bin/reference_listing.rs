//! Prints the listing of the query on standard input.

use std::io::{self, Read};

fn main() -> io::Result<()> {
    let mut query = Vec::new();
    io::stdin().read_to_end(&mut query)?;
    print!("{}", reference::listing(&query));
    Ok(())
}
