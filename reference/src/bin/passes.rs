//! `passes`: runs the cases of standard input, in the format of `passes` in the library, and prints what each aggregate's pass
//! returns.

use conformance::passes;
use std::io::{self, BufWriter, Read, Write};

fn main() -> io::Result<()> {
    let mut bytes = Vec::new();
    io::stdin().lock().read_to_end(&mut bytes)?;
    let mut out = BufWriter::new(io::stdout().lock());
    passes::run(&bytes, &mut out)?;
    out.flush()
}
