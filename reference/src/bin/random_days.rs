//! `random_days FIRST LAST FOLDER`: writes the day of each seed from FIRST to LAST to FOLDER/SEED/day.bin, for `response_day`, and
//! to FOLDER/expected what is printed for each.

use conformance::{folders, random_days, response};
use std::io::Write;
use std::process::ExitCode;

fn main() -> ExitCode {
    folders::run("random_days", "day.bin", random_days::day, |day, out| writeln!(out, "{}", response::printed(day)))
}
