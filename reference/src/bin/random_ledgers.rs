//! `random_ledgers FIRST LAST FOLDER`: writes the ledger of each seed from FIRST to LAST to FOLDER/SEED/ledger.bin, for
//! `response_ledger`, and to FOLDER/expected what is printed for each.

use conformance::{folders, ledger, random_ledgers};
use std::process::ExitCode;

fn main() -> ExitCode {
    folders::run("random_ledgers", "ledger.bin", random_ledgers::list, ledger::run)
}
