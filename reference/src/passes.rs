//! Cases that try the pass over an aggregate's members: read from bytes, run, printed.
//!
//! Up to 4 blocks of 65,536 bytes. No case straddles two blocks, and zeros fill a block that another follows. A case never
//! begins with a zero; a zero there, or the end of the block, ends the cases of that block. A case:
//!
//! | bytes | what |
//! |---|---|
//! | 1 | length L of the label, 1 to 255 |
//! | L | label, ASCII |
//! | 2 | length R of the register, low byte first |
//! | R | register |
//! | 1 | G, how many samples follow, 1 to 255 |
//! | 81 × G | samples: whether a line is kept, this interval's line, the line of the interval before |
//! | 1 | P, how many picks follow, 1 to 255 |
//! | P | picks |
//!
//! The first byte of a sample is 1 where a line is kept and anything else where nothing is; a line has 40 bytes. Unit u, from
//! 1, has sample picks\[(u - 1) % P\] % G, counted from 0. Where a line is kept, what is kept is what the line before leaves,
//! read as that unit's line: nothing if it is unreadable.
//!
//! Printed, for an accepted register, is a line for each aggregate in order, counted from 1: `LABEL: J MARK ERROR TRIGGER
//! LEVEL LOOKED`, what the pass returns, the mark by its number in the report; for a refused one `LABEL: refused N`. A case
//! that is cut off, or has G or P of 0, ends the block and prints nothing.

use crate::line::{Kept, Kind, Line, LINE};
use crate::marks::{assess_aggregate, Member, Pass};
use crate::refusal::Refusal;
use crate::register::Plant;
use std::io::{self, Write};

pub const BLOCK: usize = 65_536;
pub const BLOCKS: usize = 4;
/// Bytes of a sample.
pub const SAMPLE: usize = 1 + 2 * LINE;
/// The first byte of a sample whose line before is kept.
pub const KEPT: u8 = 1;

/// One case.
#[derive(Clone, Copy, PartialEq, Eq, Debug)]
pub struct Case<'a> {
    pub label: &'a [u8],
    pub register: &'a [u8],
    pub samples: &'a [[u8; SAMPLE]],
    pub picks: &'a [u8],
}

/// So many bytes, and those behind them.
fn part(bytes: &[u8], length: usize) -> Option<(&[u8], &[u8])> {
    bytes.split_at_checked(length)
}

/// A byte that is not 0, and those behind it.
fn count(bytes: &[u8]) -> Option<(usize, &[u8])> {
    bytes.split_first().filter(|(&first, _)| first != 0).map(|(&first, rest)| (usize::from(first), rest))
}

impl<'a> Case<'a> {
    /// The first case of what is left of a block, and the bytes behind it.
    fn read(bytes: &'a [u8]) -> Option<(Self, &'a [u8])> {
        let (length, rest) = count(bytes)?;
        let (label, rest) = part(rest, length)?;
        let (&length, rest) = rest.split_first_chunk()?;
        let (register, rest) = part(rest, usize::from(u16::from_le_bytes(length)))?;
        let (length, rest) = count(rest)?;
        let (samples, rest) = part(rest, SAMPLE * length)?;
        let (length, rest) = count(rest)?;
        let (picks, rest) = part(rest, length)?;
        Some((Self { label, register, samples: samples.as_chunks().0, picks }, rest))
    }

    /// The bytes of the case.
    pub fn bytes(&self) -> Vec<u8> {
        let mut bytes = vec![self.label.len() as u8];
        bytes.extend(self.label);
        bytes.extend((self.register.len() as u16).to_le_bytes());
        bytes.extend(self.register);
        bytes.push(self.samples.len() as u8);
        bytes.extend(self.samples.as_flattened());
        bytes.push(self.picks.len() as u8);
        bytes.extend(self.picks);
        bytes
    }

    /// What the pass looks at in a member; units are counted from 0 here.
    fn member(&self, kind: Kind, unit: usize) -> Member {
        let pick = self.picks[unit % self.picks.len()];
        let (line, kept) = read_sample(&self.samples[usize::from(pick) % self.samples.len()], kind);
        Member { kind, line, kept }
    }

    /// The members of each aggregate, in chain order.
    pub fn chains(&self) -> Result<Vec<Vec<Member>>, Refusal> {
        let (plant, _) = Plant::load(self.register)?;
        let member = |&unit: &u8| self.member(plant.kind(usize::from(unit)), usize::from(unit));
        Ok((0..plant.aggregates()).map(|aggregate| plant.members(aggregate).iter().map(member).collect()).collect())
    }

    fn print(&self, out: &mut impl Write) -> io::Result<()> {
        match self.chains() {
            Err(refusal) => {
                out.write_all(self.label)?;
                writeln!(out, ": {refusal}")
            }
            Ok(chains) => chains.iter().zip(1..).try_for_each(|(chain, number)| {
                let Pass { assessment, looked } = assess_aggregate(&mut chain.iter().copied());
                out.write_all(self.label)?;
                write!(out, ": {number} {} {} ", assessment.mark as u8, assessment.error)?;
                writeln!(out, "{} {} {looked}", assessment.trigger, assessment.level)
            }),
        }
    }
}

/// This interval's line of a sample, read as that of a member, and what is kept.
pub(crate) fn read_sample(sample: &[u8; SAMPLE], kind: Kind) -> (Option<Line>, Option<Kept>) {
    let [line, before] = [1, 1 + LINE].map(|at| {
        let mut bytes = [0; LINE];
        bytes.copy_from_slice(&sample[at..at + LINE]);
        Line::read(&bytes, kind, true)
    });
    (line, before.filter(|_| sample[0] == KEPT).map(|before| before.kept()))
}

/// The cases of all blocks. Bytes behind the last block are left aside.
pub fn cases(bytes: &[u8]) -> impl Iterator<Item = Case<'_>> {
    bytes.chunks(BLOCK).take(BLOCKS).flat_map(|mut rest| {
        std::iter::from_fn(move || {
            let (case, behind) = Case::read(rest)?;
            rest = behind;
            Some(case)
        })
    })
}

/// Runs the cases and prints what their passes return.
pub fn run(bytes: &[u8], out: &mut impl Write) -> io::Result<()> {
    cases(bytes).try_for_each(|case| case.print(out))
}

#[cfg(test)]
mod tests {
    use super::*;

    fn text(bytes: &[u8]) -> String {
        let mut out = Vec::new();
        run(bytes, &mut out).unwrap();
        String::from_utf8(out).unwrap()
    }

    fn register(units: &[(u8, u8)], heads: &[u8]) -> Vec<u8> {
        let mut bytes = vec![units.len() as u8, heads.len() as u8, 2, 3, 4, 2, 3, 4];
        bytes.extend([0; 8]);
        bytes.extend(units.iter().flat_map(|&(kind, next)| [kind, next, 0, 0]));
        bytes.extend(heads.iter().flat_map(|&head| [head, 0, 0, 0]));
        bytes
    }

    /// Target and availability 100,000, raise 5,000, rates 3 MW per minute, conformance mode 2.
    fn line(mw: f32) -> [u8; LINE] {
        let mut bytes = [0; LINE];
        bytes[1] = 2;
        for (at, value) in [(4, 100_000u32), (8, 100_000), (12, 5_000), (20, 3_000), (24, 3_000)] {
            bytes[at..at + 4].copy_from_slice(&value.to_le_bytes());
        }
        for (at, value) in [(28, mw), (32, 3.0), (36, 3.0)] {
            bytes[at..at + 4].copy_from_slice(&value.to_le_bytes());
        }
        bytes
    }

    fn sample(first: u8, line: [u8; LINE], before: [u8; LINE]) -> [u8; SAMPLE] {
        let mut bytes = [first; SAMPLE];
        bytes[1..=LINE].copy_from_slice(&line);
        bytes[1 + LINE..].copy_from_slice(&before);
        bytes
    }

    fn with(mut bytes: [u8; LINE], at: usize, value: u8) -> [u8; LINE] {
        bytes[at] = value;
        bytes
    }

    /// A chain through the units in this order; the units left over stand in none.
    fn chain(kinds: &[u8], order: &[u8]) -> Vec<u8> {
        let mut units: Vec<(u8, u8)> = kinds.iter().map(|&kind| (kind, 0)).collect();
        for pair in order.windows(2) {
            units[usize::from(pair[0]) - 1].1 = pair[1];
        }
        register(&units, &order[..1])
    }

    fn case(label: &str, register: &[u8], samples: &[[u8; SAMPLE]], picks: &[u8]) -> Vec<u8> {
        Case { label: label.as_bytes(), register, samples, picks }.bytes()
    }

    /// Orders in which a chain meets units 1 to `length`: rising, falling, and by a stride prime to the length.
    fn orders(length: usize) -> [Vec<u8>; 3] {
        let rising: Vec<u8> = (1..=length as u8).collect();
        let falling = rising.iter().rev().copied().collect();
        let strides = (0..length).map(|place| (place * 7 + 2) % length).map(|unit| unit as u8 + 1).collect();
        [rising, falling, strides]
    }

    #[test]
    fn places_in_chain_order() {
        let good = sample(1, line(100.0), line(100.0));
        let bad = sample(1, with(line(100.0), 0, 2), line(100.0));
        let unreadable = sample(1, with(line(100.0), 0, 3), line(100.0));
        let nothing_kept = sample(0, line(100.0), line(100.0));
        let samples = [good, unreadable, bad, nothing_kept];
        for length in [1, 4, 60, 64] {
            for order in orders(length) {
                let register = chain(&vec![1; length], &order);
                // Sample 1, 2 or 3 at these places of the chain, counted from 1.
                let found = |at: &[(usize, u8)]| {
                    let mut picks = vec![0; length];
                    for &(place, pick) in at {
                        picks[usize::from(order[place - 1]) - 1] = pick;
                    }
                    text(&case("x", &register, &samples, &picks))
                };
                let blank = |looked: usize| format!("x: 1 1 0 0 0 {looked}\n");
                let clear = format!("x: 1 2 0 {} {} {length}\n", 600_000.max(300_000 * length), 100_000 * length);
                assert_eq!(found(&[]), clear);
                let middle = length.div_ceil(2);
                for place in [1, middle, length] {
                    assert_eq!(found(&[(place, 1)]), blank(place));
                    for second in place..=length {
                        assert_eq!(found(&[(place, 1), (second, 1)]), blank(place));
                    }
                    // Quality 2 and nothing kept do not end the pass.
                    for readable in [2, 3] {
                        assert_eq!(found(&[(place, readable)]), blank(length));
                        for second in place + 1..=length {
                            assert_eq!(found(&[(place, readable), (second, 1)]), blank(second));
                        }
                    }
                    assert_eq!(found(&[(1, 2), (length, 3)]), blank(length));
                }
            }
        }
    }

    #[test]
    fn each_aggregate_for_itself() {
        // Chains 5 2, 3 and 6 1 4; unit 7, semi-scheduled, in none.
        let register = register(&[(1, 4), (2, 0), (3, 0), (1, 0), (1, 2), (3, 1), (4, 0)], &[5, 3, 6]);
        let good = sample(1, line(100.0), line(100.0));
        let high = sample(1, line(112.0), line(100.0));
        let unreadable = sample(1, with(line(100.0), 1, 3), line(100.0));
        // Unit 1: unreadable; 2: a load, on target; 3: 12 MW high; 7: unreadable.
        let printed = text(&case("a b", &register, &[good, high, unreadable], &[2, 0, 1, 0, 1, 0, 2]));
        // Aggregate 1: 112 - 100 against 100 - 100 with 10 up; its greater side has MWO 100,000.
        assert_eq!(printed, "a b: 1 2 2000 600000 12000 2\na b: 2 5 7000 600000 112000 1\na b: 3 1 0 0 0 2\n");
    }

    #[test]
    fn what_is_kept() {
        let register = register(&[(1, 0)], &[1]);
        let found = |first, line, before| text(&case("k", &register, &[sample(first, line, before)], &[0]));
        let off = with(line(120.0), 1, 0);
        let blank = "k: 1 1 0 0 0 1\n";
        assert_eq!(found(1, line(120.0), line(7.0)), "k: 1 5 15000 600000 120000 1\n");
        assert_eq!(found(1, with(line(120.0), 0, 1), line(7.0)), "k: 1 3 15000 600000 120000 1\n");
        assert_eq!(found(1, off, line(7.0)), "k: 1 0 0 0 0 1\n");
        // The quality and the mode of the line before play no part, its floats only unless its quality is 2.
        let before = with(with(with(line(7.0), 0, 2), 1, 1), 31, 0xFF);
        assert_eq!(found(1, line(120.0), before), "k: 1 5 15000 600000 120000 1\n");
        for first in [0, 2, 3, 255] {
            assert_eq!(found(first, line(120.0), line(7.0)), blank);
            assert_eq!(found(first, off, line(7.0)), "k: 1 0 0 0 0 1\n");
        }
        assert_eq!(found(1, line(120.0), with(line(7.0), 3, 1)), blank);
        // A negative target is readable for kind 3 alone, in the line before too.
        let negative = |mw| {
            let mut bytes = line(mw);
            bytes[4..8].copy_from_slice(&(-100_000i32).to_le_bytes());
            bytes
        };
        let samples = [sample(1, line(-100.0), negative(0.0)), sample(1, negative(-100.0), negative(0.0))];
        for (kind, printed) in [(1, "1 0 0 0"), (2, "1 0 0 0"), (3, "2 0 600000 -100000")] {
            for pick in [0, 1] {
                let found = text(&case("n", &chain(&[kind], &[1]), &samples, &[pick]));
                assert_eq!(found, format!("n: 1 {printed} 1\n"));
            }
        }
    }

    #[test]
    fn picks_go_round() {
        let good = sample(1, line(100.0), line(100.0));
        let unreadable = sample(1, with(line(100.0), 0, 3), line(100.0));
        // Falling chain of 5; picks 0 0 1 0 0: unit 3, at place 3.
        let register = chain(&[1; 5], &[5, 4, 3, 2, 1]);
        let found = |samples: &[[u8; SAMPLE]], picks: &[u8]| text(&case("p", &register, samples, picks));
        assert_eq!(found(&[good, unreadable], &[0, 0, 1]), "p: 1 1 0 0 0 3\n");
        // Picks 1 0 1 0 1: unit 5, at place 1.
        assert_eq!(found(&[good, unreadable], &[1, 0]), "p: 1 1 0 0 0 1\n");
        // More picks than units; 255 % 2 is 1, 254 % 3 is 2.
        assert_eq!(found(&[good, unreadable], &[0, 255, 0, 0, 0, 1, 1]), "p: 1 1 0 0 0 4\n");
        assert_eq!(found(&[good, good, unreadable], &[0, 1, 253, 255, 252]), "p: 1 2 0 1500000 500000 5\n");
        assert_eq!(found(&[good, good, unreadable], &[254, 1, 253, 255, 252]), "p: 1 1 0 0 0 5\n");
    }

    #[test]
    fn blocks_and_their_ends() {
        let good = [sample(1, line(100.0), line(100.0))];
        let one = case("one", &chain(&[1], &[1]), &good, &[9]);
        let printed = "one: 1 2 0 600000 100000 1\n";
        assert_eq!(text(&[]), "");
        assert_eq!(text(&[0; 10]), "");
        assert_eq!(text(&one), printed);
        assert_eq!(text(&[&one[..], &one, &[0], &one].concat()), printed.repeat(2));
        for length in 1..one.len() {
            assert_eq!(text(&[&one[..], &one[..length]].concat()), printed);
        }
        // G of 0, P of 0.
        let empty = [case("one", &chain(&[1], &[1]), &[], &[9]), case("one", &chain(&[1], &[1]), &good, &[])];
        for empty in empty {
            assert_eq!(text(&[&one[..], &empty, &one].concat()), printed);
        }
        // Refused, and without aggregates.
        let refused = case("no", &chain(&[4], &[1]), &good, &[0]);
        let none = case("none", &register(&[(4, 0)], &[]), &good, &[0]);
        let short = case("short", &[], &good, &[0]);
        assert_eq!(
            text(&[&refused[..], &none, &short, &one].concat()),
            format!("no: refused 30\nshort: refused 1\n{printed}")
        );
        // A block that ends in zeros, one that ends in a case cut off, and a fifth.
        let mut bytes = one.clone();
        bytes.resize(BLOCK, 0);
        bytes.extend(&one);
        while bytes.len() < 2 * BLOCK {
            bytes.extend(&one);
        }
        let whole = BLOCK / one.len();
        bytes.truncate(2 * BLOCK);
        bytes.extend(&one);
        assert_eq!(text(&bytes), printed.repeat(1 + whole + 1));
        bytes.resize(3 * BLOCK, 0);
        bytes.extend(&one);
        bytes.resize(4 * BLOCK, 0);
        bytes.extend(&one);
        assert_eq!(text(&bytes), printed.repeat(1 + whole + 2));
    }
}
