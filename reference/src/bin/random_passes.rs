//! `random_passes SEED`: writes the cases of a seed to standard output, for `passes`.

use conformance::random_passes;
use std::io::{self, Write};
use std::process::ExitCode;

fn main() -> ExitCode {
    let Some(Ok(seed)) = std::env::args().nth(1).map(|seed| seed.parse()) else {
        eprintln!("random_passes SEED");
        return ExitCode::from(2);
    };
    match io::stdout().lock().write_all(&random_passes::blocks(seed)) {
        Ok(()) => ExitCode::SUCCESS,
        Err(error) => {
            eprintln!("standard output: {error}");
            ExitCode::FAILURE
        }
    }
}
