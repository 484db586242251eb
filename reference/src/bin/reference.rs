//! Reads a campaign from standard input and prints its report.

use std::io::{self, Read, Write};

fn main() -> io::Result<()> {
    let mut text = Vec::new();
    io::stdin().take(reference::report::MOST_BYTES as u64).read_to_end(&mut text)?;
    io::stdout().write_all(reference::campaign(&text).as_bytes())
}
