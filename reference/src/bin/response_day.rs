//! `response_day`: assesses the day of wholesale demand response in day.bin and prints one line.

use conformance::response;
use std::io::{self, Write};

fn main() -> io::Result<()> {
    // A file that cannot be read counts as empty.
    let bytes = std::fs::read("day.bin").unwrap_or_default();
    writeln!(io::stdout().lock(), "{}", response::printed(&bytes))
}
