//! The program: a register, then interval buffers one after the other.

use crate::line::LINE;
use crate::monitor::{Monitor, Record, HEADER, RECORD};
use std::io::{self, Read, Write};

/// One line a point, as the program prints them.
pub fn print_report(out: &mut impl Write, interval: u32, report: &[u8]) -> io::Result<()> {
    for (index, bytes) in report.as_chunks::<RECORD>().0.iter().enumerate() {
        let Record { status, mark, small, large, error, trigger, level } = Record::of(bytes);
        writeln!(out, "{interval} {} {status} {mark} {small} {large} {error} {trigger} {level}", index + 1)?;
    }
    Ok(())
}

/// Runs the program on the bytes of the two files. A refusal ends the run.
pub fn run(register: &[u8], intervals: &[u8], out: &mut impl Write) -> io::Result<()> {
    let mut monitor = Monitor::new();
    if let Err(refusal) = monitor.load(register) {
        return writeln!(out, "{refusal}");
    }
    let Some(plant) = monitor.plant() else { return Ok(()) };
    let buffer_length = HEADER + LINE * plant.units();
    let mut report = vec![0; RECORD * plant.points()];
    for buffer in intervals.chunks(buffer_length) {
        if let Err(refusal) = monitor.interval(buffer, &mut report) {
            return writeln!(out, "{refusal}");
        }
        print_report(out, interval_number(buffer), &report)?;
    }
    Ok(())
}

/// The same, an interval at a time: a buffer is read, its lines are written in one write, and only then the next is read.
pub fn run_each(register: &[u8], intervals: &mut impl Read, out: &mut impl Write) -> io::Result<()> {
    let mut monitor = Monitor::new();
    if let Err(refusal) = monitor.load(register) {
        return writeln!(out, "{refusal}");
    }
    let Some(plant) = monitor.plant() else { return Ok(()) };
    let mut buffer = vec![0; HEADER + LINE * plant.units()];
    let mut report = vec![0; RECORD * plant.points()];
    let mut text = Vec::new();
    loop {
        let got = fill(intervals, &mut buffer)?;
        if got == 0 {
            return Ok(());
        }
        text.clear();
        let answer = monitor.interval(&buffer[..got], &mut report);
        match answer {
            Ok(()) => print_report(&mut text, interval_number(&buffer), &report)?,
            Err(refusal) => writeln!(text, "{refusal}")?,
        }
        out.write_all(&text)?;
        if answer.is_err() {
            return Ok(());
        }
    }
}

/// Reads until the buffer is full or the input ends; answers how many bytes were read.
fn fill(input: &mut impl Read, buffer: &mut [u8]) -> io::Result<usize> {
    let mut got = 0;
    while got < buffer.len() {
        match input.read(&mut buffer[got..])? {
            0 => break,
            more => got += more,
        }
    }
    Ok(got)
}

/// The number in an interval header; 0 for a buffer without one.
pub fn interval_number(buffer: &[u8]) -> u32 {
    buffer.first_chunk().map_or(0, |bytes| u32::from_le_bytes(*bytes))
}

#[cfg(test)]
mod tests {
    use super::*;
    use crate::bench_input::{patch, BUFFERS, PLANTS};

    /// Whole and an interval at a time print the same, at any length of the file.
    #[test]
    fn each_prints_the_same() {
        for plant in PLANTS {
            let mut intervals = Vec::new();
            for i in 0..20 {
                let mut buffer = plant.buffer(i % BUFFERS);
                patch(&mut buffer, i, 20);
                intervals.extend(buffer);
            }
            for length in [0, 1, 8, intervals.len() - 1, intervals.len()] {
                let (mut whole, mut each) = (Vec::new(), Vec::new());
                run(&plant.register(), &intervals[..length], &mut whole).unwrap();
                run_each(&plant.register(), &mut &intervals[..length], &mut each).unwrap();
                assert_eq!(whole, each, "{} {length}", plant.name);
            }
        }
    }
}
