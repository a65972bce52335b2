//! Folders of random files with what is printed for each: the programs `PROGRAM FIRST LAST FOLDER`.

use std::io::{self, ErrorKind};
use std::path::Path;
use std::process::ExitCode;

/// Runs a program by its arguments: writes the file of each seed from FIRST to LAST to FOLDER/SEED/`name`, unless it is missing,
/// and to FOLDER/expected what `print` prints for each; a missing file counts as empty.
pub fn run(
    program: &str,
    name: &str,
    file: impl Fn(u64) -> Option<Vec<u8>>,
    print: impl Fn(&[u8], &mut Vec<u8>) -> io::Result<()>,
) -> ExitCode {
    let usage = || {
        eprintln!("{program} FIRST LAST FOLDER");
        ExitCode::from(2)
    };
    let arguments: Vec<String> = std::env::args().skip(1).collect();
    let [first, last, folder] = &arguments[..] else { return usage() };
    let (Ok(first), Ok(last)) = (first.parse(), last.parse()) else { return usage() };
    match write(first, last, Path::new(folder), name, file, print) {
        Ok(()) => ExitCode::SUCCESS,
        Err(error) => {
            eprintln!("{folder}: {error}");
            ExitCode::FAILURE
        }
    }
}

fn write(
    first: u64,
    last: u64,
    folder: &Path,
    name: &str,
    file: impl Fn(u64) -> Option<Vec<u8>>,
    print: impl Fn(&[u8], &mut Vec<u8>) -> io::Result<()>,
) -> io::Result<()> {
    std::fs::create_dir_all(folder)?;
    let mut expected = Vec::new();
    for seed in first..=last {
        let of_seed = folder.join(seed.to_string());
        std::fs::create_dir_all(&of_seed)?;
        let path = of_seed.join(name);
        let bytes = file(seed);
        match &bytes {
            Some(bytes) => std::fs::write(path, bytes)?,
            None => match std::fs::remove_file(path) {
                Err(error) if error.kind() != ErrorKind::NotFound => return Err(error),
                _ => {}
            },
        }
        print(&bytes.unwrap_or_default(), &mut expected)?;
    }
    std::fs::write(folder.join("expected"), expected)
}
