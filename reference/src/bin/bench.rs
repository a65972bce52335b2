//! `bench COUNT [PLANT]`: COUNT intervals from memory for plant 0 to 5, or for all six; prints name, digest and ns per
//! interval.
//!
//! The input and the digest are defined in `bench_input`, for ports. Timed: patching the header, the interval call
//! and the digest.

use conformance::bench_input::{digest, patch, BUFFERS, PLANTS};
use conformance::Monitor;
use std::process::ExitCode;
use std::time::Instant;

fn main() -> ExitCode {
    let arguments: Vec<Option<u64>> = std::env::args().skip(1).map(|text| text.parse().ok()).collect();
    let (count, plants) = match arguments[..] {
        [Some(count)] => (count, &PLANTS[..]),
        [Some(count), Some(plant @ 0..=5)] => (count, &PLANTS[plant as usize..=plant as usize]),
        _ => {
            eprintln!("bench COUNT [PLANT]");
            return ExitCode::from(2);
        }
    };
    for plant in plants {
        let mut monitor = Monitor::new();
        if let Err(refusal) = monitor.load(&plant.register()) {
            println!("{} load {refusal}", plant.name);
            return ExitCode::FAILURE;
        }
        let mut buffers: Vec<Vec<u8>> = (0..BUFFERS).map(|k| plant.buffer(k)).collect();
        let mut report = vec![0; plant.report()];
        let mut d = 0;
        let start = Instant::now();
        for i in 0..count {
            let buffer = &mut buffers[(i % BUFFERS) as usize];
            patch(buffer, i, count);
            if let Err(refusal) = monitor.interval(buffer, &mut report) {
                println!("{} interval {refusal}", plant.name);
                return ExitCode::FAILURE;
            }
            d = digest(d, &report);
        }
        let nanoseconds = start.elapsed().as_nanos() as f64 / count.max(1) as f64;
        println!("{} {d} {nanoseconds:.1}", plant.name);
    }
    ExitCode::SUCCESS
}
