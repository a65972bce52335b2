//! `response_ledger`: runs the calls of ledger.bin on an empty ledger of demand response and prints one line a call.

use conformance::ledger;
use std::io::{self, BufWriter, Write};

fn main() -> io::Result<()> {
    // A file that cannot be read counts as empty.
    let bytes = std::fs::read("ledger.bin").unwrap_or_default();
    let mut out = BufWriter::new(io::stdout().lock());
    ledger::run(&bytes, &mut out)?;
    out.flush()
}
