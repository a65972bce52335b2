//! `month PLANT DIR [COUNT]`: writes DIR/register.bin and DIR/intervals.bin of plant 0 to 5, with COUNT interval
//! buffers or a month of them, every five minutes for 31 days.
//!
//! The buffers are those that `bench` works through. Its counterpart in Rattle, bench_monitor, is given those of a COUNT
//! of 16 (tools/bench_input).

use conformance::bench_input::{patch, BenchPlant, BUFFERS, PLANTS};
use std::fs::File;
use std::io::{self, BufWriter, Write};
use std::path::Path;
use std::process::ExitCode;

const MONTH: u64 = 31 * 24 * 12;

fn write(plant: BenchPlant, folder: &Path, count: u64) -> io::Result<()> {
    std::fs::write(folder.join("register.bin"), plant.register())?;
    let mut buffers: Vec<Vec<u8>> = (0..BUFFERS).map(|k| plant.buffer(k)).collect();
    let mut out = BufWriter::new(File::create(folder.join("intervals.bin"))?);
    for i in 0..count {
        let buffer = &mut buffers[(i % BUFFERS) as usize];
        patch(buffer, i, count);
        out.write_all(buffer)?;
    }
    out.flush()
}

fn main() -> ExitCode {
    let arguments: Vec<String> = std::env::args().skip(1).collect();
    let (plant, folder, count) = match &arguments[..] {
        [plant, folder] => (plant, folder, Ok(MONTH)),
        [plant, folder, count] => (plant, folder, count.parse()),
        _ => return usage(),
    };
    let (Ok(plant @ 0..=5), Ok(count)) = (plant.parse::<usize>(), count) else { return usage() };
    match write(PLANTS[plant], Path::new(folder), count) {
        Ok(()) => ExitCode::SUCCESS,
        Err(error) => {
            eprintln!("{folder}: {error}");
            ExitCode::FAILURE
        }
    }
}

fn usage() -> ExitCode {
    eprintln!("month PLANT DIR [COUNT]");
    ExitCode::from(2)
}
