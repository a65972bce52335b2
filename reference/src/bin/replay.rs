//! `replay [FILE]`: runs the calls of FILE (calls.bin) and prints each answer.

use conformance::replay;
use std::io::{self, BufWriter, Write};

fn main() -> io::Result<()> {
    let file = std::env::args_os().nth(1).unwrap_or_else(|| "calls.bin".into());
    // A file that cannot be opened counts as empty, as in the program.
    let bytes = std::fs::read(file).unwrap_or_default();
    let mut out = BufWriter::new(io::stdout().lock());
    replay::run(&bytes, &mut out)?;
    out.flush()
}
