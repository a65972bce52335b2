//! `program [--each] [DIR]`: prints the report of DIR/intervals.bin under DIR/register.bin. With `--each` a buffer is read, and its
//! lines are written in one write, before the next is read.

use conformance::program;
use std::fs::{self, File};
use std::io::{self, BufWriter, Read, Write};
use std::path::PathBuf;

fn main() -> io::Result<()> {
    let mut arguments = std::env::args_os().skip(1).peekable();
    let each = arguments.next_if(|word| word == "--each").is_some();
    let folder = arguments.next().map_or_else(|| PathBuf::from("."), PathBuf::from);
    // A file that cannot be opened counts as empty.
    let read = |name: &str| fs::read(folder.join(name)).unwrap_or_default();
    let register = read("register.bin");
    if each {
        let mut intervals: Box<dyn Read> = match File::open(folder.join("intervals.bin")) {
            Ok(file) => Box::new(file),
            Err(_) => Box::new(io::empty()),
        };
        // A file and not the standard library's handle, which holds back what follows the last line end.
        let mut out = File::from(std::os::fd::AsFd::as_fd(&io::stdout()).try_clone_to_owned()?);
        return program::run_each(&register, &mut intervals, &mut out);
    }
    let mut out = BufWriter::new(io::stdout().lock());
    program::run(&register, &read("intervals.bin"), &mut out)?;
    out.flush()
}
