//! `random_calls SEED OUT`: writes the list of calls of a seed.

use conformance::random_calls;
use std::process::ExitCode;

fn main() -> ExitCode {
    let mut arguments = std::env::args().skip(1);
    let (Some(Ok(seed)), Some(out)) = (arguments.next().map(|seed| seed.parse()), arguments.next()) else {
        eprintln!("random_calls SEED OUT");
        return ExitCode::from(2);
    };
    match std::fs::write(&out, random_calls::list(seed)) {
        Ok(()) => ExitCode::SUCCESS,
        Err(error) => {
            eprintln!("{out}: {error}");
            ExitCode::FAILURE
        }
    }
}
