//! Reads a campaign from standard input and prints its report.

use std::io::{self, Read, Write};

fn main() -> io::Result<()> {
    let mut text = Vec::with_capacity(32_768);
    io::stdin().lock().take(32_768).read_to_end(&mut text)?;
    io::stdout().write_all(&benchmarks::report(&text)?)
}
