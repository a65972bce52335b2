//! Calls on the monitor, and the program on the data folders.

use conformance::monitor::Record;
use conformance::replay::{self, Script};
use conformance::{program, Look, Mark, Monitor, Reason, Target};

fn register(lengths: [u8; 6], units: &[(u8, u8)], heads: &[u8]) -> Vec<u8> {
    let mut bytes = vec![units.len() as u8, heads.len() as u8];
    bytes.extend(lengths);
    bytes.extend([0; 8]);
    for &(kind, next) in units {
        bytes.extend([kind, next, 0, 0]);
    }
    for &head in heads {
        bytes.extend([head, 0, 0, 0]);
    }
    bytes
}

/// A line with target and availability 100,000, no regulation, rates 3 MW per minute.
fn line(mw: f32) -> [u8; 40] {
    let mut bytes = [0; 40];
    for (at, value) in [(4, 100_000u32), (8, 100_000), (20, 3_000), (24, 3_000)] {
        bytes[at..at + 4].copy_from_slice(&value.to_le_bytes());
    }
    for (at, value) in [(28, mw), (32, 3.0), (36, 3.0)] {
        bytes[at..at + 4].copy_from_slice(&value.to_le_bytes());
    }
    bytes
}

/// The same with availability 200,000 and rates 9 MW per minute: small trigger 600,000, large 1,000,000.
fn wide(mw: f32) -> [u8; 40] {
    let mut bytes = line(mw);
    bytes[8..12].copy_from_slice(&200_000u32.to_le_bytes());
    for at in [20, 24] {
        bytes[at..at + 4].copy_from_slice(&9_000u32.to_le_bytes());
    }
    for at in [32, 36] {
        bytes[at..at + 4].copy_from_slice(&9.0f32.to_le_bytes());
    }
    bytes
}

fn member(mw: f32, mode: u8) -> [u8; 40] {
    let mut bytes = line(mw);
    bytes[1] = mode;
    bytes
}

fn with(mut bytes: [u8; 40], at: usize, value: u8) -> [u8; 40] {
    bytes[at] = value;
    bytes
}

fn buffer(number: u32, mask: u8, lines: &[[u8; 40]]) -> Vec<u8> {
    let mut bytes = number.to_le_bytes().to_vec();
    bytes.extend([mask, 0, 0, 0]);
    bytes.extend(lines.concat());
    bytes
}

/// A line of a semi-scheduled unit.
fn flagged(mw: f32, cap_flag: u8) -> [u8; 40] {
    with(line(mw), 2, cap_flag)
}

/// A monitor with one generating unit, or one of another kind, and shorthands for its intervals.
struct One(Monitor);

impl One {
    fn new(lengths: [u8; 6]) -> Self {
        Self::of_kind(1, lengths)
    }

    fn of_kind(kind: u8, lengths: [u8; 6]) -> Self {
        let mut monitor = Monitor::new();
        assert_eq!(monitor.load(&register(lengths, &[(kind, 0)], &[])), Ok(0));
        Self(monitor)
    }

    fn interval(&mut self, number: u32, mask: u8, line: [u8; 40]) -> Record {
        let mut report = [0; 16];
        self.0.interval(&buffer(number, mask, &[line]), &mut report).unwrap();
        Record::of(&report)
    }

    /// Intervals with these marks, numbered from the first on.
    fn marks(&mut self, first: u32, mask: u8, marks: &str) {
        for (number, letter) in (first..=u32::MAX).zip(marks.chars()) {
            let (mark, line) = marked(letter);
            assert_eq!(self.interval(number, mask, line).mark, mark as u8, "interval {number}");
        }
    }

    fn reason(&self) -> Result<Reason, u32> {
        self.0.reason(1).map_err(|refusal| refusal.number())
    }

    fn refused(&mut self, bytes: &[u8], report: usize) -> u32 {
        let before = self.0.clone();
        let mut report = vec![0xEE; report];
        let refusal = self.0.interval(bytes, &mut report).unwrap_err();
        assert!(report.iter().all(|&byte| byte == 0xEE) && self.0 == before);
        refusal.number()
    }
}

/// The line that gets a mark, by its first letter, when a target of 100,000 is kept.
fn marked(letter: char) -> (Mark, [u8; 40]) {
    match letter {
        'B' => (Mark::Blank, with(wide(120.0), 0, 2)),
        'C' => (Mark::Clear, wide(100.0)),
        'D' => (Mark::Doubt, with(wide(120.0), 0, 1)),
        'S' => (Mark::Small, wide(108.0)),
        'L' => (Mark::Large, wide(120.0)),
        _ => panic!("{letter}"),
    }
}

fn small(first: u32, last: u32) -> Result<Reason, u32> {
    Ok(Reason::Small { first, last })
}

fn large(first: u32, last: u32) -> Result<Reason, u32> {
    Ok(Reason::Large { first, last })
}

fn summary(record: Record) -> (u8, u8, u8, u8) {
    (record.status, record.mark, record.small, record.large)
}

#[test]
fn worked_example() {
    let register = register([2, 3, 4, 2, 3, 4], &[(1, 0)], &[]);
    let intervals = [(10, 100.0), (11, 107.0), (12, 93.0)].map(|(number, mw)| buffer(number, 1, &[line(mw)])).concat();
    let mut out = Vec::new();
    program::run(&register, &intervals, &mut out).unwrap();
    assert_eq!(
        String::from_utf8(out).unwrap(),
        "10 1 0 1 0 0 0 0 0\n11 1 1 5 1 1 7000 600000 0\n12 1 2 5 2 2 -7000 600000 0\n"
    );
}

#[test]
fn a_tripped_unit_printed() {
    let intervals = [(10, 100.0), (11, -0.3), (12, -0.3), (13, -0.3), (14, -0.3)]
        .map(|(number, mw)| buffer(number, 1, &[line(mw)]))
        .concat();
    let first = "10 1 0 1 0 0 0 0 0\n11 1 1 5 1 1 -100300 600000 0\n12 1 2 5 2 2 -100300 600000 0\n\
                 13 1 3 5 3 3 -100300 600000 0\n14 1 4 5 0 0 -100300 600000 ";
    for (kind, level) in [(1, "0\n"), (2, "0\n"), (3, "-300\n")] {
        let mut out = Vec::new();
        program::run(&register([2, 3, 4, 2, 3, 4], &[(kind, 0)], &[]), &intervals, &mut out).unwrap();
        assert_eq!(String::from_utf8(out).unwrap(), [first, level].concat());
    }
}

#[test]
fn report_bytes() {
    let mut monitor = Monitor::new();
    monitor.load(&register([2, 3, 4, 2, 3, 4], &[(1, 0)], &[])).unwrap();
    let mut report = [0xFF; 16];
    monitor.interval(&buffer(1, 1, &[line(100.0)]), &mut report).unwrap();
    assert_eq!(report, [0, 1, 0, 0, 0, 0, 0, 0, 0, 0, 0, 0, 0, 0, 0, 0]);
    monitor.interval(&buffer(2, 1, &[line(93.0)]), &mut report).unwrap();
    // -7000 is FFFFE4A8, 600,000 is 000927C0.
    assert_eq!(report, [1, 5, 1, 1, 0xA8, 0xE4, 0xFF, 0xFF, 0xC0, 0x27, 0x09, 0, 0, 0, 0, 0]);
}

#[test]
fn order_of_interval_refusals() {
    let good = buffer(5, 1, &[line(100.0)]);
    let mut fresh = One(Monitor::new());
    assert_eq!(fresh.refused(&[], 0), 20);
    assert_eq!(fresh.refused(&good, 16), 20);
    let mut one = One::new([2, 3, 4, 2, 3, 4]);
    one.interval(5, 1, line(100.0));
    assert_eq!(one.refused(&good, 16), 21);
    assert_eq!(one.refused(&buffer(4, 1, &[line(100.0)]), 16), 21);
    let mut wrong_mask = good.clone();
    wrong_mask[4] = 32;
    assert_eq!(one.refused(&wrong_mask, 16), 9);
    assert_eq!(one.refused(&wrong_mask, 17), 8);
    assert_eq!(one.refused(&wrong_mask[..47], 16), 8);
    for spare in 5..8 {
        let mut bytes = good.clone();
        bytes[spare] = 1;
        assert_eq!(one.refused(&bytes, 16), 9);
    }
    assert_eq!(one.refused(&good, 0), 8);
    assert_eq!(one.refused(&good, 32), 8);
}

#[test]
fn numbers_do_not_wrap() {
    let mut one = One::new([2, 3, 4, 2, 3, 4]);
    one.interval(u32::MAX - 1, 1, line(100.0));
    assert_eq!(one.interval(u32::MAX, 1, line(100.0)).mark, 2);
    assert_eq!(one.refused(&buffer(0, 1, &[line(100.0)]), 16), 21);
    assert_eq!(one.refused(&buffer(u32::MAX, 1, &[line(100.0)]), 16), 21);
    one.0.load(&register([2, 3, 4, 2, 3, 4], &[(1, 0)], &[])).unwrap();
    assert_eq!(one.interval(0, 1, line(100.0)).mark, 1);
    assert_eq!(one.interval(1, 1, line(100.0)).mark, 2);
}

#[test]
fn automatic_mode_declares() {
    let mut one = One::new([2, 3, 4, 2, 3, 4]);
    one.interval(1, 1, line(100.0));
    let statuses: Vec<_> =
        (2..=7).map(|number| one.interval(number, 1, line(107.0))).map(|r| (r.status, r.small, r.level)).collect();
    assert_eq!(statuses, [(1, 1, 0), (2, 2, 0), (3, 3, 0), (4, 0, 107_000), (4, 0, 107_000), (4, 0, 107_000)]);
    // The level stands, also when back on target; the mark goes on.
    let record = one.interval(8, 1, line(100.0));
    assert_eq!((record.status, record.mark, record.level), (4, 2, 107_000));
    assert_eq!(one.0.declare(1, 5).unwrap_err().number(), 22);
    one.0.reinstate(1).unwrap();
    assert_eq!(one.0.look(1), Ok(Look { status: 0, small: 0, large: 0, level: 0 }));
    assert_eq!(one.0.reinstate(1).unwrap_err().number(), 23);
    assert_eq!(summary(one.interval(9, 1, line(107.0))), (1, 5, 1, 1));
}

#[test]
fn large_run_declares_alone() {
    // Small lengths 8 9 10, large 2 3 4: SMALL between clears the large run.
    let mut one = One::new([8, 9, 10, 2, 3, 4]);
    one.interval(1, 1, wide(100.0));
    let marks: Vec<_> = [120.0, 120.0, 108.0, 120.0, 120.0, 120.0, 120.0]
        .iter()
        .zip(2..)
        .map(|(&mw, number)| summary(one.interval(number, 1, wide(mw))))
        .collect();
    assert_eq!(
        marks,
        [(1, 5, 1, 1), (2, 5, 2, 2), (1, 4, 3, 0), (1, 5, 4, 1), (2, 5, 5, 2), (3, 5, 6, 3), (4, 5, 0, 0)]
    );
}

#[test]
fn manual_mode_shows_two_and_its_backlog_declares() {
    let mut one = One::new([2, 3, 4, 2, 3, 4]);
    one.interval(1, 0, line(100.0));
    let statuses: Vec<_> = (2..=7).map(|number| one.interval(number, 0, line(107.0)).status).collect();
    assert_eq!(statuses, [1, 2, 2, 2, 2, 2]);
    assert_eq!(one.0.look(1), Ok(Look { status: 2, small: 6, large: 6, level: 0 }));
    // BLANK and DOUBT never declare: status 3 in automatic mode.
    assert_eq!(summary(one.interval(8, 1, with(line(107.0), 0, 2))), (3, 1, 6, 6));
    assert_eq!(summary(one.interval(9, 1, with(line(107.0), 0, 1))), (3, 3, 6, 6));
    assert_eq!(summary(one.interval(10, 0, with(line(107.0), 0, 1))), (2, 3, 6, 6));
    assert_eq!(summary(one.interval(11, 1, line(93.0))), (4, 5, 0, 0));
    assert_eq!(one.0.look(1), Ok(Look { status: 4, small: 0, large: 0, level: 93_000 }));
}

/// The register with its units in these regions, the first ones first.
fn in_regions(mut register: Vec<u8>, regions: &[u8]) -> Vec<u8> {
    for (unit, &region) in regions.iter().enumerate() {
        register[18 + 4 * unit] = region;
    }
    register
}

/// An interval of this monitor; the status of each point.
fn statuses(monitor: &mut Monitor, number: u32, mask: u8, lines: &[[u8; 40]]) -> Vec<u8> {
    let mut report = vec![0; 16 * monitor.plant().unwrap().points()];
    monitor.interval(&buffer(number, mask, lines), &mut report).unwrap();
    report.as_chunks().0.iter().map(|bytes| Record::of(bytes).status).collect()
}

#[test]
fn masks_up_to_31() {
    for region in 0..=4 {
        let mut one = One::new([2, 3, 4, 2, 3, 4]);
        one.0.load(&in_regions(register([2, 3, 4, 2, 3, 4], &[(1, 0)], &[]), &[region])).unwrap();
        for mask in 0..=31 {
            assert_eq!(one.interval(u32::from(mask), mask, line(100.0)).status, 0);
        }
        for mask in 32..=255 {
            assert_eq!(one.refused(&buffer(32, mask, &[line(100.0)]), 16), 9);
            // 8 goes before, 21 behind.
            assert_eq!(one.refused(&buffer(32, mask, &[line(100.0)]), 15), 8);
            assert_eq!(one.refused(&buffer(31, mask, &[line(100.0)]), 16), 9);
        }
        assert_eq!(one.refused(&buffer(31, 31, &[line(100.0)]), 16), 21);
        // A spare beside a mask that is allowed.
        for spare in 5..8 {
            let mut bytes = buffer(32, 31, &[line(100.0)]);
            bytes[spare] = 1;
            assert_eq!(one.refused(&bytes, 16), 9);
        }
    }
}

#[test]
fn each_region_by_its_own_bit() {
    // The regions of two units in no chain, the mask, and which of the two it has in automatic mode.
    let cases: [([u8; 2], u8, [bool; 2]); 15] = [
        ([0, 1], 0b00000, [false, false]),
        ([0, 1], 0b00001, [true, false]),
        ([0, 1], 0b00010, [false, true]),
        ([0, 1], 0b00011, [true, true]),
        // Bits of regions without units.
        ([0, 1], 0b11100, [false, false]),
        ([0, 1], 0b11101, [true, false]),
        ([0, 4], 0b11110, [false, true]),
        ([0, 4], 0b01111, [true, false]),
        ([4, 2], 0b10000, [true, false]),
        ([4, 2], 0b00100, [false, true]),
        ([4, 2], 0b01011, [false, false]),
        ([4, 2], 0b11111, [true, true]),
        ([3, 3], 0b01000, [true, true]),
        ([3, 3], 0b10111, [false, false]),
        ([2, 1], 0b00101, [true, false]),
    ];
    for (regions, mask, automatic) in cases {
        let mut monitor = Monitor::new();
        monitor.load(&in_regions(register([2, 3, 4, 2, 3, 4], &[(1, 0), (1, 0)], &[]), &regions)).unwrap();
        let mut found = [Vec::new(), Vec::new()];
        for (number, mw) in [(1, 100.0), (2, 107.0), (3, 107.0), (4, 107.0), (5, 107.0), (6, 107.0)] {
            let statuses = statuses(&mut monitor, number, mask, &[line(mw); 2]);
            found[0].push(statuses[0]);
            found[1].push(statuses[1]);
        }
        for (found, automatic) in found.into_iter().zip(automatic) {
            assert_eq!(found, if automatic { [0, 1, 2, 3, 4, 4] } else { [0, 1, 2, 2, 2, 2] }, "{regions:?} {mask}");
        }
    }
}

#[test]
fn a_point_waits_in_manual_mode_beside_a_declared_one() {
    // Unit 1 in region 2, unit 2 in region 0.
    let mut monitor = Monitor::new();
    monitor.load(&in_regions(register([2, 3, 4, 2, 3, 4], &[(1, 0), (1, 0)], &[]), &[2, 0])).unwrap();
    let away = [line(107.0); 2];
    assert_eq!(statuses(&mut monitor, 1, 0b00001, &[line(100.0); 2]), [0, 0]);
    for (number, expected) in [(2, [1, 1]), (3, [2, 2]), (4, [2, 3]), (5, [2, 4]), (6, [2, 4])] {
        assert_eq!(statuses(&mut monitor, number, 0b00001, &away), expected);
    }
    assert_eq!(monitor.look(1), Ok(Look { status: 2, small: 5, large: 5, level: 0 }));
    assert_eq!(monitor.look(2), Ok(Look { status: 4, small: 0, large: 0, level: 107_000 }));
    // BLANK and DOUBT never declare, in automatic mode they show 3.
    assert_eq!(statuses(&mut monitor, 7, 0b00100, &[with(away[0], 0, 2), away[1]]), [3, 4]);
    assert_eq!(statuses(&mut monitor, 8, 0b00101, &[with(away[0], 0, 1), away[1]]), [3, 4]);
    assert_eq!(statuses(&mut monitor, 9, 0b11011, &away), [2, 4]);
    assert_eq!(statuses(&mut monitor, 10, 0b00100, &away), [4, 4]);
    assert_eq!(monitor.reason(1), Ok(Reason::Large { first: 2, last: 10 }));
    assert_eq!(monitor.reason(2), Ok(Reason::Large { first: 2, last: 5 }));
    // A declaration stands whatever its region's mode.
    assert_eq!(statuses(&mut monitor, 11, 0, &[line(100.0); 2]), [4, 4]);
}

#[test]
fn a_bit_flipped_between_intervals() {
    // One unit, in region 1. The mask, the letter of the mark, the status and the run.
    let intervals = [
        (0b00010, 'B', 0, 0),
        (0b00010, 'L', 1, 1),
        (0b11101, 'L', 2, 2),
        (0b00010, 'L', 3, 3),
        (0b11101, 'L', 2, 4),
        (0b00010, 'D', 3, 4),
        (0b11101, 'D', 2, 4),
        (0b00010, 'B', 3, 4),
        (0b11101, 'B', 2, 4),
        // The others' bits alone.
        (0b00000, 'L', 2, 5),
        (0b00100, 'L', 2, 6),
        (0b10001, 'L', 2, 7),
        (0b11111, 'D', 3, 7),
        (0b00010, 'D', 3, 7),
        (0b01010, 'L', 4, 0),
        (0b10101, 'L', 4, 0),
    ];
    let mut one = One::new([2, 3, 4, 2, 3, 4]);
    one.0.load(&in_regions(register([2, 3, 4, 2, 3, 4], &[(1, 0)], &[]), &[1])).unwrap();
    for (number, (mask, letter, status, run)) in (1..).zip(intervals) {
        let (mark, line) = marked(letter);
        assert_eq!(summary(one.interval(number, mask, line)), (status, mark as u8, run, run), "interval {number}");
    }
    assert_eq!(one.reason(), large(2, 15));
    // Not-Responding by its runs, and Pending shown as that in manual mode: an operator may declare at either.
    let mut one = One::new([2, 3, 4, 2, 3, 4]);
    one.0.load(&in_regions(register([2, 3, 4, 2, 3, 4], &[(1, 0)], &[]), &[1])).unwrap();
    for (number, letter) in (1..=5).zip("BLLLL".chars()) {
        one.interval(number, 0b11101, marked(letter).1);
    }
    assert_eq!(one.0.declare(1, 7), Ok(()));
    assert_eq!(one.reason(), Ok(Reason::Operator));
}

#[test]
fn an_aggregate_by_its_members_region() {
    // Units 3 and 1 a chain in region 3: point 4. Unit 2 in none, in region 0.
    let units = [(1, 0), (1, 0), (1, 1)];
    let bytes = in_regions(register([2, 3, 4, 2, 3, 4], &units, &[3]), &[3, 0, 3]);
    for (mask, expected) in [
        (0b01000, [[1; 4], [2; 4], [3, 2, 3, 3], [4, 2, 4, 4], [4, 2, 4, 4]]),
        (0b10111, [[1; 4], [2; 4], [2, 3, 2, 2], [2, 4, 2, 2], [2, 4, 2, 2]]),
        (0b00001, [[1; 4], [2; 4], [2, 3, 2, 2], [2, 4, 2, 2], [2, 4, 2, 2]]),
        (0b11110, [[1; 4], [2; 4], [3, 2, 3, 3], [4, 2, 4, 4], [4, 2, 4, 4]]),
        (0b01001, [[1; 4], [2; 4], [3; 4], [4; 4], [4; 4]]),
        (0b10110, [[1; 4], [2; 4], [2; 4], [2; 4], [2; 4]]),
    ] {
        let mut monitor = Monitor::new();
        assert_eq!(monitor.load(&bytes), Ok(2));
        let lines = |mw| [member(mw, 2), line(mw), member(mw, 2)];
        assert_eq!(statuses(&mut monitor, 1, mask, &lines(100.0)), [0; 4]);
        for (number, expected) in (2..).zip(expected) {
            assert_eq!(statuses(&mut monitor, number, mask, &lines(107.0)), expected, "{mask} {number}");
        }
        // The sum of its members' MW where it is declared.
        let level = if mask & 0b01000 == 0 { 0 } else { 214_000 };
        assert_eq!(monitor.look(4).unwrap().level, level);
    }
    // A unit 4,000 above its target and a load 4,000 below: neither is away, and their aggregate is, by 8,000.
    let mut monitor = Monitor::new();
    let units = [(2, 0), (1, 0), (1, 1)];
    monitor.load(&in_regions(register([2, 3, 4, 2, 3, 4], &units, &[3]), &[3, 0, 3])).unwrap();
    let lines = [member(96.0, 2), line(107.0), member(104.0, 2)];
    assert_eq!(statuses(&mut monitor, 1, 0b00001, &lines), [0; 4]);
    for (number, expected) in [(2, [0, 1, 0, 1]), (3, [0, 2, 0, 2]), (4, [0, 3, 0, 2]), (5, [0, 4, 0, 2])] {
        assert_eq!(statuses(&mut monitor, number, 0b00001, &lines), expected);
    }
    assert_eq!(statuses(&mut monitor, 6, 0b01000, &lines), [0, 4, 0, 4]);
    // 104,000 less the load's 96,000.
    assert_eq!(monitor.look(4), Ok(Look { status: 4, small: 0, large: 0, level: 8_000 }));
}

#[test]
fn regions_of_the_register_loaded_last() {
    let mut monitor = Monitor::new();
    let load = |monitor: &mut Monitor, regions: &[u8], heads: &[u8]| {
        let bytes = register([2, 3, 4, 2, 3, 4], &[(1, 0), (1, if heads.is_empty() { 0 } else { 1 })], heads);
        monitor.load(&in_regions(bytes, regions)).map_err(|refusal| refusal.number())
    };
    let lines = |mw| [line(mw); 2];
    for (regions, expected) in [([4, 0], [4, 2]), ([0, 4], [2, 4]), ([4, 4], [4, 4]), ([1, 3], [2, 2])] {
        assert_eq!(load(&mut monitor, &regions, &[]), Ok(0));
        assert_eq!(statuses(&mut monitor, 1, 0b10000, &lines(100.0)), [0; 2]);
        for number in 2..=4 {
            statuses(&mut monitor, number, 0b10000, &lines(107.0));
        }
        // Refused loads leave the regions as they were: one above 4, and a chain across two.
        let before = monitor.clone();
        assert_eq!(load(&mut monitor, &[5, 0], &[]), Err(4));
        assert_eq!(load(&mut monitor, &[0, 255], &[2]), Err(4));
        assert_eq!(load(&mut monitor, &[0, 4], &[2]), Err(37));
        assert_eq!(load(&mut monitor, &[4, 0], &[2]), Err(37));
        assert!(monitor == before);
        assert_eq!(statuses(&mut monitor, 5, 0b10000, &lines(107.0)), expected);
    }
    // The same units as a chain in one region.
    assert_eq!(load(&mut monitor, &[2, 2], &[2]), Ok(2));
}

#[test]
fn every_region_prints_the_worked_example() {
    let example = "10 1 0 1 0 0 0 0 0\n11 1 1 5 1 1 7000 600000 0\n12 1 2 5 2 2 -7000 600000 0\n";
    for region in 0..=4 {
        let register = in_regions(register([2, 3, 4, 2, 3, 4], &[(1, 0)], &[]), &[region]);
        for (mask, last) in [(1 << region, "13 1 3 5 3 3"), (31, "13 1 3 5 3 3"), (31 - (1 << region), "13 1 2 5 3 3")]
        {
            let intervals = [(10, 100.0), (11, 107.0), (12, 93.0), (13, 93.0)]
                .map(|(number, mw)| buffer(number, mask, &[line(mw)]))
                .concat();
            let mut out = Vec::new();
            program::run(&register, &intervals, &mut out).unwrap();
            assert_eq!(String::from_utf8(out).unwrap(), format!("{example}{last} -7000 600000 0\n"));
        }
    }
}

#[test]
fn runs_stop_at_255() {
    let mut one = One::new([2, 3, 255, 2, 3, 255]);
    one.interval(1, 0, line(100.0));
    for number in 2..=300 {
        let record = one.interval(number, 0, line(107.0));
        let run = (number - 1).min(255) as u8;
        assert_eq!((record.small, record.large), (run, run));
    }
    assert_eq!(summary(one.interval(301, 1, line(107.0))), (4, 5, 0, 0));
    let mut one = One::new([2, 3, 255, 2, 3, 255]);
    one.interval(1, 1, line(100.0));
    for number in 2..=255 {
        assert_ne!(one.interval(number, 1, line(107.0)).status, 4);
    }
    assert_eq!(one.interval(256, 1, line(107.0)).status, 4);
}

#[test]
fn jumps_and_unreadable_lines_leave_nothing_kept() {
    let mut one = One::new([2, 3, 4, 2, 3, 4]);
    one.interval(1, 1, line(100.0));
    assert_eq!(summary(one.interval(2, 1, line(107.0))), (1, 5, 1, 1));
    // A jump: BLANK, the run stands.
    assert_eq!(summary(one.interval(4, 1, line(107.0))), (1, 1, 1, 1));
    assert_eq!(summary(one.interval(5, 1, line(107.0))), (2, 5, 2, 2));
    // Unreadable: BLANK now and, nothing being kept, next time.
    assert_eq!(summary(one.interval(6, 1, with(line(107.0), 2, 1))), (2, 1, 2, 2));
    assert_eq!(summary(one.interval(7, 1, line(107.0))), (2, 1, 2, 2));
    // Quality 2: BLANK now, but kept.
    assert_eq!(summary(one.interval(8, 1, with(line(107.0), 0, 2))), (2, 1, 2, 2));
    assert_eq!(summary(one.interval(9, 1, line(107.0))), (3, 5, 3, 3));
    // A refused interval keeps nothing and makes nothing stale.
    assert_eq!(one.refused(&buffer(10, 32, &[line(100.0)]), 16), 9);
    assert_eq!(summary(one.interval(10, 1, line(100.0))), (0, 2, 0, 0));
}

#[test]
fn the_kept_target_counts() {
    let mut one = One::new([2, 3, 4, 2, 3, 4]);
    one.interval(1, 1, line(100.0));
    // This interval's target is 0 and is kept for the next alone.
    let mut other = line(100.0);
    other[4..8].fill(0);
    assert_eq!(one.interval(2, 1, other).mark, 2);
    let record = one.interval(3, 1, line(100.0));
    assert_eq!((record.mark, record.error), (5, 100_000));
}

#[test]
fn operator_calls() {
    let mut monitor = Monitor::new();
    assert_eq!(monitor.declare(0, i32::MIN).unwrap_err().number(), 20);
    assert_eq!(monitor.reinstate(0).unwrap_err().number(), 20);
    assert_eq!(monitor.look(0).unwrap_err().number(), 20);
    monitor.load(&register([2, 3, 4, 2, 3, 4], &[(1, 0)], &[1])).unwrap();
    for point in [0, 3, 257, 65_537, u32::MAX] {
        assert_eq!(monitor.declare(point, i32::MAX).unwrap_err().number(), 10);
        assert_eq!(monitor.reinstate(point).unwrap_err().number(), 10);
        assert_eq!(monitor.look(point).unwrap_err().number(), 10);
    }
    for level in [128_000_001, -128_000_001, i32::MIN, i32::MAX] {
        assert_eq!(monitor.declare(1, level).unwrap_err().number(), 11);
        assert_eq!(monitor.declare(2, level).unwrap_err().number(), 11);
    }
    // The unit's level cannot be negative, its aggregate's can.
    for (level, unit) in [(128_000_000, 22), (0, 22), (-1, 11), (-128_000_000, 11)] {
        assert_eq!(monitor.declare(1, level).unwrap_err().number(), unit);
        assert_eq!(monitor.declare(2, level).unwrap_err().number(), 22);
    }
    assert_eq!(monitor.reinstate(2).unwrap_err().number(), 23);
    let mut report = [0; 32];
    for number in 1..=3 {
        let mw = if number == 1 { 100.0 } else { 107.0 };
        monitor.interval(&buffer(number, 0, &[member(mw, 2)]), &mut report).unwrap();
    }
    // Both at status 2; the aggregate alone is declared.
    monitor.declare(2, -128_000_000).unwrap();
    assert_eq!(monitor.look(2), Ok(Look { status: 4, small: 0, large: 0, level: -128_000_000 }));
    assert_eq!(monitor.look(1), Ok(Look { status: 2, small: 2, large: 2, level: 0 }));
    // A level of 0 is a declaration too.
    monitor.declare(1, 0).unwrap();
    assert_eq!(monitor.look(1).unwrap().status, 4);
    // A refused load leaves everything, an accepted one starts afresh.
    assert_eq!(monitor.load(&[]).unwrap_err().number(), 1);
    assert_eq!(monitor.look(2).unwrap().level, -128_000_000);
    assert_eq!(monitor.load(&register([2, 3, 4, 2, 3, 4], &[(1, 0)], &[1])), Ok(1));
    assert_eq!(monitor.look(2), Ok(Look { status: 0, small: 0, large: 0, level: 0 }));
}

/// MW at a declaration, the same in kW, its error against a target of 100,000, and the level for kinds 1 and 2.
const DECLARED_AT: [(f32, i32, i32, i32); 11] = [
    (-2_000.0, -2_000_000, -2_100_000, 0),
    (-0.3, -300, -100_300, 0),
    (-0.001, -1, -100_001, 0),
    (-0.0006, -1, -100_001, 0),
    (-0.0004, 0, -100_000, 0),
    (-0.0, 0, -100_000, 0),
    (0.0, 0, -100_000, 0),
    (0.0006, 1, -99_999, 1),
    (0.001, 1, -99_999, 1),
    (93.999, 93_999, -6_001, 93_999),
    (107.0, 107_000, 7_000, 107_000),
];

#[test]
fn levels_in_no_chain() {
    for (mw, kw, error, floored) in DECLARED_AT {
        for (kind, level) in [(1, floored), (2, floored), (3, kw)] {
            let mut one = One::of_kind(kind, [2, 3, 4, 2, 3, 4]);
            one.interval(1, 1, line(100.0));
            for (number, status) in [(2, 1), (3, 2), (4, 3)] {
                let record = one.interval(number, 1, line(92.0));
                assert_eq!((record.status, record.level), (status, 0));
            }
            // The error is the power's own.
            let record = one.interval(5, 1, line(mw));
            assert_eq!(record, Record { status: 4, mark: 5, small: 0, large: 0, error, trigger: 600_000, level });
            assert_eq!(one.0.look(1), Ok(Look { status: 4, small: 0, large: 0, level }));
            // The level stands.
            for (number, later) in [(6, -0.3), (7, 150.0), (8, 100.0)] {
                assert_eq!(one.interval(number, 1, line(later)).level, level);
            }
        }
    }
}

#[test]
fn below_a_target_of_zero() {
    // Ramp up 9,000, ramp down 4,000: below the target, small trigger 1,800,000 and large 3,600,000.
    let uncovered = |mw: f32| {
        let mut bytes = line(mw);
        for (at, value) in [(4, 0u32), (8, 2_000_000), (20, 9_000), (24, 4_000)] {
            bytes[at..at + 4].copy_from_slice(&value.to_le_bytes());
        }
        for (at, value) in [(32, 9.0f32), (36, 4.0)] {
            bytes[at..at + 4].copy_from_slice(&value.to_le_bytes());
        }
        bytes
    };
    for (kind, level) in [(1, 0), (2, 0), (3, -36_001)] {
        let mut one = One::of_kind(kind, [2, 3, 4, 2, 3, 4]);
        one.interval(1, 1, uncovered(0.0));
        for (number, mw, mark, error) in [
            (2, -0.3, 2, -300),
            (3, -18.0, 2, -18_000),
            (4, -18.001, 4, -18_001),
            (5, -36.0, 4, -36_000),
            (6, -36.001, 5, -36_001),
        ] {
            let record = one.interval(number, 1, uncovered(mw));
            assert_eq!((record.mark, record.error, record.trigger, record.level), (mark, error, 1_800_000, 0));
        }
        let record = one.interval(7, 1, uncovered(-36.001));
        assert_eq!((record.status, record.error, record.level), (4, -36_001, level));
    }
}

#[test]
fn levels_in_a_chain() {
    for (mw, kw, error, floored) in DECLARED_AT {
        // Kind, level and error of the unit, then of its aggregate: a load is subtracted there.
        for (kind, level, sum, sum_error) in [(1, floored, kw, error), (2, floored, -kw, -error), (3, kw, kw, error)] {
            let mut monitor = Monitor::new();
            assert_eq!(monitor.load(&register([2, 3, 4, 2, 3, 4], &[(kind, 0)], &[1])), Ok(1));
            let mut report = [0; 32];
            for number in 1..=5 {
                let mw = [100.0, 92.0, 92.0, 92.0, mw][number as usize - 1];
                monitor.interval(&buffer(number, 1, &[member(mw, 2)]), &mut report).unwrap();
            }
            let declared =
                |error, level| Record { status: 4, mark: 5, small: 0, large: 0, error, trigger: 600_000, level };
            let records: Vec<Record> = report.as_chunks().0.iter().map(Record::of).collect();
            assert_eq!(records, [declared(error, level), declared(sum_error, sum)]);
        }
    }
}

#[test]
fn an_aggregate_adds_powers_and_not_levels() {
    // The MW of members of these kinds, their levels, and that of their aggregate.
    type Case<'a> = (&'a [(u8, f32, i32)], i32);
    let cases: [Case; 6] = [
        (&[(1, -0.3, 0), (2, -0.2, 0), (3, -0.1, -100)], -200),
        (&[(1, -0.3, 0), (1, 0.3, 300)], 0),
        (&[(1, -0.3, 0), (1, 0.301, 301)], 1),
        (&[(2, -0.3, 0), (2, -0.3, 0)], 600),
        (&[(2, 0.5, 500), (3, -0.3, -300), (1, 0.001, 1), (1, -0.001, 0)], -800),
        (&[(3, -2_000.0, -2_000_000), (1, -2_000.0, 0)], -4_000_000),
    ];
    for (members, sum) in cases {
        let chain: Vec<(u8, u8)> = members
            .iter()
            .enumerate()
            .map(|(at, &(kind, ..))| (kind, if at + 1 == members.len() { 0 } else { at as u8 + 2 }))
            .collect();
        let mut monitor = Monitor::new();
        monitor.load(&register([2, 3, 4, 2, 3, 4], &chain, &[1])).unwrap();
        let mut report = vec![0; 16 * members.len() + 16];
        for number in 1..=5 {
            let power = |&(_, mw, _): &(u8, f32, i32)| member(if number == 1 { 100.0 } else { mw }, 2);
            let lines: Vec<[u8; 40]> = members.iter().map(power).collect();
            monitor.interval(&buffer(number, 1, &lines), &mut report).unwrap();
        }
        let found: Vec<(u8, i32)> = report.as_chunks().0.iter().map(Record::of).map(|r| (r.status, r.level)).collect();
        let levels: Vec<(u8, i32)> = members.iter().map(|&(.., level)| (4, level)).chain([(4, sum)]).collect();
        assert_eq!(found, levels);
    }
}

#[test]
fn a_semi_scheduled_unit_is_declared_above_zero() {
    // With a target of 0 the least MW that counts is 6,001 kW.
    let uncovered = |mw: f32| {
        let mut bytes = flagged(mw, 1);
        bytes[4..8].fill(0);
        bytes
    };
    let mut one = One::of_kind(4, [2, 3, 4, 2, 3, 4]);
    one.interval(1, 1, uncovered(0.0));
    assert_eq!(summary(one.interval(2, 1, uncovered(6.0))), (0, 2, 0, 0));
    for (number, status) in [(3, 1), (4, 2), (5, 3)] {
        assert_eq!(one.interval(number, 1, uncovered(107.0)).status, status);
    }
    let record = one.interval(6, 1, uncovered(6.001));
    assert_eq!((record.status, record.error, record.level), (4, 6_001, 6_001));
    // Tripped it is CLEAR, however long.
    let mut one = One::of_kind(4, [2, 3, 4, 2, 3, 4]);
    one.interval(1, 1, flagged(100.0, 1));
    for number in 2..=20 {
        let record = one.interval(number, 1, flagged(-0.3, 1));
        assert_eq!((record.status, record.mark, record.error, record.level), (0, 2, -100_300, 0));
    }
}

/// An operator's levels, and 11 where it applies to them: for kinds 1, 2 and 4, then for kind 3 and aggregates.
const OPERATOR_LEVELS: [(i32, u32, u32); 12] = [
    (i32::MIN, 11, 11),
    (-128_000_001, 11, 11),
    (-128_000_000, 11, 0),
    (-2_000_001, 11, 0),
    (-300, 11, 0),
    (-1, 11, 0),
    (0, 0, 0),
    (1, 0, 0),
    (300, 0, 0),
    (128_000_000, 0, 0),
    (128_000_001, 11, 11),
    (i32::MAX, 11, 11),
];

#[test]
fn operator_levels() {
    // Kind, in a chain or in none, the point, and whether its level may be negative.
    for (kind, chained, point, signed) in [
        (1, false, 1, false),
        (2, false, 1, false),
        (3, false, 1, true),
        (4, false, 1, false),
        (1, true, 1, false),
        (2, true, 1, false),
        (3, true, 1, true),
        (1, true, 2, true),
        (2, true, 2, true),
        (3, true, 2, true),
    ] {
        let heads: &[u8] = if chained { &[1] } else { &[] };
        let own = |mw| match (kind, chained) {
            (4, _) => flagged(mw, 1),
            (_, true) => member(mw, 2),
            (_, false) => line(mw),
        };
        // How many intervals away, with which mask, and the status then.
        for (away, mask, status) in [(0, 1, 0), (1, 1, 1), (2, 1, 2), (3, 0, 2), (9, 0, 2), (3, 1, 3), (4, 1, 4)] {
            let mut monitor = Monitor::new();
            monitor.load(&register([2, 3, 4, 2, 3, 4], &[(kind, 0)], heads)).unwrap();
            let mut report = vec![0; 16 + 16 * heads.len()];
            monitor.interval(&buffer(1, mask, &[own(100.0)]), &mut report).unwrap();
            for number in 2..2 + away {
                monitor.interval(&buffer(number, mask, &[own(107.0)]), &mut report).unwrap();
            }
            assert_eq!(monitor.look(point).unwrap().status, status);
            for (level, floored_kinds, signed_points) in OPERATOR_LEVELS {
                let mut after = monitor.clone();
                let answer = after.declare(point, level).map_err(|refusal| refusal.number());
                match if signed { signed_points } else { floored_kinds } {
                    // 11 goes before 22.
                    11 => assert_eq!(answer, Err(11)),
                    _ if [2, 3].contains(&status) => {
                        assert_eq!(answer, Ok(()));
                        assert_eq!(after.look(point), Ok(Look { status: 4, small: 0, large: 0, level }));
                    }
                    _ => assert_eq!(answer, Err(22)),
                }
                assert!(answer.is_ok() || after == monitor);
                // 10 goes before 11.
                for outside in [0, 3, 256 + point, u32::MAX] {
                    assert_eq!(monitor.declare(outside, level).unwrap_err().number(), 10);
                }
                // 20 goes before 10 and 11.
                assert_eq!(Monitor::new().declare(0, level).unwrap_err().number(), 20);
                assert_eq!(Monitor::new().declare(point, level).unwrap_err().number(), 20);
            }
        }
    }
}

#[test]
fn operator_levels_in_the_largest_register() {
    // Chains of three of the kinds 1, 2 and 3, sixteen of them; units 49 to 64 are of kind 4.
    let units: Vec<(u8, u8)> =
        (1..=64).map(|u| if u > 48 { (4, 0) } else { ((u - 1) % 3 + 1, if u % 3 == 0 { 0 } else { u + 1 }) }).collect();
    let heads: Vec<u8> = (0..16).map(|a| 3 * a + 1).collect();
    let mut monitor = Monitor::new();
    assert_eq!(monitor.load(&register([2, 3, 4, 2, 3, 4], &units, &heads)), Ok(48));
    for point in 1..=80 {
        let negative = if point > 64 || (point <= 48 && point % 3 == 0) { 22 } else { 11 };
        assert_eq!(monitor.declare(point, -1).unwrap_err().number(), negative);
        assert_eq!(monitor.declare(point, -128_000_000).unwrap_err().number(), negative);
        assert_eq!(monitor.declare(point, -128_000_001).unwrap_err().number(), 11);
        assert_eq!(monitor.declare(point, 0).unwrap_err().number(), 22);
        assert_eq!(monitor.declare(point, 128_000_001).unwrap_err().number(), 11);
    }
    assert_eq!(monitor.declare(81, -1).unwrap_err().number(), 10);
}

#[test]
fn a_refused_level_leaves_the_point_to_an_interval() {
    let mut one = One::new([2, 3, 4, 2, 3, 4]);
    one.interval(1, 1, line(100.0));
    for (number, run) in [(2, 1), (3, 2), (4, 3)] {
        one.interval(number, 1, line(-0.3));
        assert_eq!(one.0.declare(1, -300).unwrap_err().number(), 11);
        assert_eq!(one.0.look(1), Ok(Look { status: run, small: run, large: run, level: 0 }));
    }
    assert_eq!(summary(one.interval(5, 1, line(-0.3))), (4, 5, 0, 0));
    assert_eq!(one.0.declare(1, -300).unwrap_err().number(), 11);
    assert_eq!(one.0.declare(1, 0).unwrap_err().number(), 22);
    assert_eq!(one.0.look(1), Ok(Look { status: 4, small: 0, large: 0, level: 0 }));
}

/// Masks with region 0 in manual mode and in automatic mode.
const MANUAL: u8 = 0;
const AUTOMATIC: u8 = 1;

#[test]
fn reasons_of_runs() {
    // Stretches of marks: the number of the first, the mask, the letters. The first interval is BLANK, nothing being kept.
    type Case<'a> = ([u8; 6], &'a [(u32, u8, &'a str)], Result<Reason, u32>);
    let cases: [Case; 27] = [
        // Declaration at 5 marks of the small run, 4 of the large one.
        ([2, 3, 5, 2, 3, 4], &[(10, AUTOMATIC, "BSSSSS")], small(11, 15)),
        ([2, 3, 5, 2, 3, 4], &[(10, AUTOMATIC, "BSSLSL")], small(11, 15)),
        ([2, 3, 5, 2, 3, 4], &[(10, AUTOMATIC, "BSSLLL")], small(11, 15)),
        ([2, 3, 5, 2, 3, 4], &[(10, AUTOMATIC, "BLLLS")], Err(36)),
        ([2, 3, 5, 2, 3, 4], &[(10, AUTOMATIC, "BLLLSS")], small(11, 15)),
        ([2, 3, 5, 2, 3, 4], &[(10, AUTOMATIC, "BLLLL")], large(11, 14)),
        // Both at their lengths: large, from the mark where that run begins.
        ([2, 3, 5, 2, 3, 4], &[(10, AUTOMATIC, "BSLLLL")], large(12, 15)),
        ([2, 3, 4, 2, 3, 4], &[(10, AUTOMATIC, "BLLLL")], large(11, 14)),
        ([2, 3, 9, 2, 3, 4], &[(10, AUTOMATIC, "BSLSSLLLL")], large(15, 18)),
        ([2, 3, 8, 2, 3, 4], &[(10, AUTOMATIC, "BSLSSLLLL")], large(15, 18)),
        ([2, 3, 7, 2, 3, 4], &[(10, AUTOMATIC, "BSLSSLLL")], small(11, 17)),
        // BLANK and DOUBT before a run, inside it, between its marks and those of the other.
        ([2, 3, 5, 2, 3, 4], &[(10, AUTOMATIC, "BSBDSSBSDS")], small(11, 19)),
        ([2, 3, 5, 2, 3, 4], &[(10, AUTOMATIC, "BDDBLBBLDLL")], large(14, 20)),
        ([2, 3, 5, 2, 3, 4], &[(10, AUTOMATIC, "BSDBLDLLL")], large(14, 18)),
        // CLEAR before it.
        ([2, 3, 5, 2, 3, 4], &[(10, AUTOMATIC, "BSSSSCSSSSS")], small(16, 20)),
        ([2, 3, 5, 2, 3, 4], &[(10, AUTOMATIC, "BLLLCBLLLL")], large(16, 19)),
        // Jumps: the first interval after one is BLANK.
        ([2, 3, 5, 2, 3, 4], &[(10, AUTOMATIC, "BSS"), (20, AUTOMATIC, "BSS"), (90, AUTOMATIC, "BS")], small(11, 91)),
        ([2, 3, 5, 2, 3, 4], &[(10, AUTOMATIC, "BL"), (13, AUTOMATIC, "BLLL")], large(11, 16)),
        // Manual mode counts; the next SMALL or LARGE in automatic mode declares, beyond the lengths too.
        ([2, 3, 5, 2, 3, 4], &[(10, MANUAL, "BSSSSSSS")], Err(36)),
        ([2, 3, 5, 2, 3, 4], &[(10, MANUAL, "BSSSSSSS"), (18, AUTOMATIC, "S")], small(11, 18)),
        ([2, 3, 5, 2, 3, 4], &[(10, MANUAL, "BSSSSSSS"), (18, AUTOMATIC, "L")], small(11, 18)),
        ([2, 3, 5, 2, 3, 4], &[(10, MANUAL, "BSSLLLLL"), (18, AUTOMATIC, "L")], large(13, 18)),
        ([2, 3, 5, 2, 3, 4], &[(10, MANUAL, "BLLLLLLL"), (18, AUTOMATIC, "S")], small(11, 18)),
        ([2, 3, 9, 2, 3, 4], &[(10, MANUAL, "BLLLLLLL"), (18, AUTOMATIC, "S")], Err(36)),
        ([2, 3, 5, 2, 3, 4], &[(10, MANUAL, "BLLLL"), (15, AUTOMATIC, "BD")], Err(36)),
        ([2, 3, 5, 2, 3, 4], &[(10, MANUAL, "BLLLL"), (15, AUTOMATIC, "BD"), (17, AUTOMATIC, "L")], large(11, 17)),
        // From the first number that can count to the last there is.
        ([2, 3, 5, 2, 3, 4], &[(0, AUTOMATIC, "BLLL"), (u32::MAX - 1, AUTOMATIC, "BL")], large(1, u32::MAX)),
    ];
    for (lengths, stretches, reason) in cases {
        let mut one = One::new(lengths);
        for &(first, mask, marks) in stretches {
            assert_eq!(one.reason(), Err(36));
            one.marks(first, mask, marks);
        }
        assert_eq!(one.reason(), reason, "{lengths:?} {stretches:?}");
    }
}

#[test]
fn reasons_past_255() {
    // The 254th LARGE declares; with a SMALL before it, both runs are at their lengths then.
    let mut one = One::new([2, 3, 255, 2, 3, 254]);
    one.marks(1, AUTOMATIC, &["B", &"L".repeat(254)].concat());
    assert_eq!(one.reason(), large(2, 255));
    let mut one = One::new([2, 3, 255, 2, 3, 254]);
    one.marks(1, AUTOMATIC, &["BS", &"L".repeat(253)].concat());
    assert_eq!(one.reason(), Err(36));
    one.marks(256, AUTOMATIC, "L");
    assert_eq!(one.reason(), large(3, 256));
    // Marks in manual mode and the letter of the one in automatic mode that follows, from 1 on.
    for (marks, declaring, reason) in [
        ("L".repeat(254), "L", large(2, 256)),
        ("L".repeat(255), "L", large(2, 257)),
        ("L".repeat(256), "L", large(2, 258)),
        ("L".repeat(600), "L", large(2, 602)),
        ("L".repeat(600), "S", small(2, 602)),
        ("S".repeat(600), "L", small(2, 602)),
        // The small run stands at 255 when the large one begins.
        (["S".repeat(300), "L".repeat(254)].concat(), "L", large(302, 556)),
        (["S".repeat(300), "L".repeat(253)].concat(), "L", small(2, 555)),
        (["S".repeat(300), "L".repeat(300)].concat(), "L", large(302, 602)),
        // Both stand at 255, and the large one begins anew.
        (["L".repeat(300), "S".into(), "L".repeat(300)].concat(), "L", large(303, 603)),
        (["L".repeat(300), "S".into(), "L".repeat(100)].concat(), "L", small(2, 403)),
        // BLANK and DOUBT in a run that stands at 255.
        (["L".repeat(300), "BD".into(), "L".repeat(10)].concat(), "L", large(2, 314)),
        // CLEAR ends one.
        (["L".repeat(300), "C".into(), "L".repeat(254)].concat(), "L", large(303, 557)),
    ] {
        let mut one = One::new([2, 3, 255, 2, 3, 255]);
        one.marks(1, MANUAL, &["B", &marks].concat());
        assert_eq!(one.reason(), Err(36));
        one.marks(2 + marks.len() as u32, AUTOMATIC, declaring);
        assert_eq!(one.reason(), reason);
    }
}

#[test]
fn marks_after_a_declaration_change_no_reason() {
    for (declaring, reason) in [("SSSSS", small(11, 15)), ("LLLL", large(11, 14)), ("SSLLL", small(11, 15))] {
        let mut one = One::new([2, 3, 5, 2, 3, 4]);
        one.marks(10, AUTOMATIC, "B");
        one.marks(11, AUTOMATIC, declaring);
        assert_eq!(one.reason(), reason);
        // Each of them, and both runs at their lengths once more, in either mode.
        for (first, mask, marks) in [
            (20, AUTOMATIC, "BLLLLLLLL"),
            (30, MANUAL, "BSSSSSSSS"),
            (40, AUTOMATIC, "BCLLLLLL"),
            (50, AUTOMATIC, "BSSSSSDBC"),
        ] {
            one.marks(first, mask, marks);
            assert_eq!(one.reason(), reason);
            assert_eq!(one.0.look(1).map(|look| (look.status, look.small, look.large)), Ok((4, 0, 0)));
        }
        // Refused calls change nothing either, nor does asking.
        assert_eq!(one.0.declare(1, 0).unwrap_err().number(), 22);
        assert_eq!(one.0.load(&[]).unwrap_err().number(), 1);
        assert_eq!(one.refused(&buffer(58, 1, &[wide(120.0)]), 16), 21);
        let before = one.0.clone();
        assert_eq!(one.reason(), reason);
        assert!(one.0 == before);
    }
}

#[test]
fn a_reinstatement_clears_the_reason() {
    let mut one = One::new([2, 3, 5, 2, 3, 4]);
    one.marks(10, AUTOMATIC, "BSSSSSLLL");
    assert_eq!(one.reason(), small(11, 15));
    // The marks up to it count no more.
    one.0.reinstate(1).unwrap();
    assert_eq!(one.reason(), Err(36));
    one.marks(19, AUTOMATIC, "LLL");
    assert_eq!(one.reason(), Err(36));
    one.marks(22, AUTOMATIC, "L");
    assert_eq!(one.reason(), large(19, 22));
    // A reinstatement that is refused leaves it.
    one.0.reinstate(1).unwrap();
    assert_eq!(one.0.reinstate(1).unwrap_err().number(), 23);
    one.marks(23, MANUAL, "LL");
    assert_eq!(one.0.reinstate(1).unwrap_err().number(), 23);
    one.0.declare(1, 7).unwrap();
    assert_eq!(one.reason(), Ok(Reason::Operator));
    one.0.reinstate(1).unwrap();
    one.marks(25, AUTOMATIC, "BSDSSSS");
    assert_eq!(one.reason(), small(26, 31));
}

#[test]
fn an_operator_is_the_reason_until_reinstated() {
    for away in ["SS", "LL", "LLL", "SSSSSSSS", "LLLLLLLL"] {
        let mut one = One::new([2, 3, 5, 2, 3, 4]);
        one.marks(10, MANUAL, "B");
        one.marks(11, MANUAL, away);
        assert_eq!(one.reason(), Err(36));
        one.0.declare(1, 0).unwrap();
        assert_eq!(one.reason(), Ok(Reason::Operator));
        // The runs of before would declare at the first mark, and later ones by themselves.
        one.marks(11 + away.len() as u32, AUTOMATIC, "LLLLLLLLSSSSSSSSC");
        assert_eq!(one.reason(), Ok(Reason::Operator));
        one.0.reinstate(1).unwrap();
        assert_eq!(one.reason(), Err(36));
        one.marks(28 + away.len() as u32, AUTOMATIC, "LLLL");
        assert_eq!(one.reason(), large(28 + away.len() as u32, 31 + away.len() as u32));
    }
}

#[test]
fn a_load_clears_what_a_reason_needs() {
    let register = register([2, 3, 5, 2, 3, 4], &[(1, 0)], &[]);
    let mut one = One::new([2, 3, 5, 2, 3, 4]);
    one.marks(10, AUTOMATIC, "BLLL");
    // A refused one leaves the runs.
    assert_eq!(one.0.load(&register[..19]).unwrap_err().number(), 1);
    one.marks(14, AUTOMATIC, "L");
    assert_eq!(one.reason(), large(11, 14));
    one.0.load(&register).unwrap();
    assert_eq!(one.reason(), Err(36));
    one.marks(3, AUTOMATIC, "BSS");
    one.0.load(&register).unwrap();
    one.marks(3, AUTOMATIC, "BSSLS");
    assert_eq!(one.reason(), Err(36));
    one.marks(8, AUTOMATIC, "L");
    assert_eq!(one.reason(), small(4, 8));
}

#[test]
fn reason_refusals() {
    let mut monitor = Monitor::new();
    let number = |monitor: &Monitor, point| monitor.reason(point).unwrap_err().number();
    for point in [0, 1, u32::MAX] {
        assert_eq!(number(&monitor, point), 20);
    }
    monitor.load(&register([2, 3, 4, 2, 3, 4], &[(1, 0)], &[1])).unwrap();
    let mut report = [0; 32];
    // 36 at the statuses 0 to 3, and not at 4.
    for (interval, status) in (1..=5).zip([0, 1, 2, 3, 4]) {
        let mw = if interval == 1 { 100.0 } else { 107.0 };
        monitor.interval(&buffer(interval, 1, &[member(mw, 2)]), &mut report).unwrap();
        for point in [1, 2] {
            assert_eq!(monitor.look(point).unwrap().status, status);
            let answer = monitor.reason(point).map_err(|refusal| refusal.number());
            assert_eq!(answer, if status == 4 { large(2, 5) } else { Err(36) });
        }
        for point in [0, 3, 257, 65_537, u32::MAX] {
            assert_eq!(number(&monitor, point), 10);
        }
    }
}

#[test]
fn a_reason_for_each_point_of_a_group() {
    // Units 1 and 2 a chain: point 4. Its small trigger is 1,200,000, its large one 2,000,000. Unit 3 in none.
    let mut monitor = Monitor::new();
    assert_eq!(monitor.load(&register([2, 3, 5, 2, 3, 4], &[(1, 2), (1, 0), (1, 0)], &[1])), Ok(2));
    let off = |line| with(line, 1, 1);
    let on = |mw| with(wide(mw), 1, 2);
    let mut report = [0; 64];
    let mut run = |number, lines: &[[u8; 40]]| {
        monitor.interval(&buffer(number, 1, lines), &mut report).unwrap();
        let marks: Vec<u8> = report.as_chunks().0.iter().map(|bytes| Record::of(bytes).mark).collect();
        let reasons: Vec<_> = (1..=4).map(|point| monitor.reason(point).map_err(|refusal| refusal.number())).collect();
        (marks, reasons)
    };
    let none = vec![Err(36); 4];
    assert_eq!(run(1, &[on(100.0), on(100.0), wide(100.0)]), (vec![1, 1, 1, 1], none.clone()));
    // Unit 1 at 20,000 is LARGE, its aggregate SMALL; OFF clears the unit's runs alone.
    assert_eq!(run(2, &[on(120.0), on(100.0), wide(108.0)]), (vec![5, 2, 4, 4], none.clone()));
    assert_eq!(run(3, &[off(on(120.0)), on(100.0), wide(108.0)]), (vec![0, 2, 4, 4], none.clone()));
    assert_eq!(run(4, &[on(120.0), on(100.0), wide(108.0)]), (vec![5, 2, 4, 4], none.clone()));
    // One unreadable: BLANK for it and for the aggregate, twice.
    assert_eq!(run(5, &[on(120.0), with(on(100.0), 3, 1), wide(108.0)]), (vec![5, 1, 4, 1], none.clone()));
    assert_eq!(run(6, &[on(120.0), on(100.0), wide(100.0)]), (vec![5, 1, 2, 1], none));
    assert_eq!(
        run(7, &[on(120.0), on(100.0), wide(120.0)]),
        (vec![5, 2, 5, 4], vec![large(4, 7), Err(36), Err(36), Err(36)])
    );
    assert_eq!(
        run(8, &[on(120.0), on(100.0), wide(120.0)]),
        (vec![5, 2, 5, 4], vec![large(4, 7), Err(36), Err(36), small(2, 8)])
    );
    // All members off: OFF, and the reasons stand.
    assert_eq!(
        run(9, &[with(wide(120.0), 1, 0), with(wide(100.0), 1, 0), wide(120.0)]),
        (vec![0, 0, 5, 0], vec![large(4, 7), Err(36), Err(36), small(2, 8)])
    );
    assert_eq!(
        run(10, &[on(100.0), on(100.0), wide(120.0)]),
        (vec![2, 2, 5, 2], vec![large(4, 7), Err(36), large(7, 10), small(2, 8)])
    );
}

#[test]
fn a_reason_for_a_semi_scheduled_unit() {
    let mut one = One::of_kind(4, [2, 3, 5, 2, 3, 4]);
    for (number, line, mark) in [
        (1, flagged(100.0, 1), 1),
        (2, flagged(107.0, 1), 5),
        (3, flagged(107.0, 0), 5),
        // A kept flag of 0, and an error below the target, clear the runs.
        (4, flagged(107.0, 1), 0),
        (5, flagged(107.0, 1), 5),
        (6, flagged(93.0, 1), 2),
        (7, flagged(107.0, 1), 5),
        (8, flagged(107.0, 2), 1),
        (9, flagged(107.0, 1), 1),
        (10, flagged(107.0, 1), 5),
        (11, flagged(107.0, 1), 5),
    ] {
        assert_eq!(one.interval(number, 1, line).mark, mark);
        assert_eq!(one.reason(), Err(36));
    }
    assert_eq!(one.interval(12, 1, flagged(107.0, 0)).mark, 5);
    assert_eq!(one.reason(), large(7, 12));
    assert_eq!(one.interval(13, 1, flagged(107.0, 0)).mark, 0);
    assert_eq!(one.reason(), large(7, 12));
}

#[test]
fn reasons_printed() {
    let mut script = Script::new();
    let interval = |script: &mut Script, number, marks: [char; 2]| {
        script.interval(32, &buffer(number, 1, &marks.map(|letter| marked(letter).1)));
    };
    script.reason(1);
    script.load(&register([2, 3, 5, 2, 3, 4], &[(1, 0), (1, 0)], &[]));
    for (number, marks) in (7..).zip([['B', 'B'], ['L', 'S'], ['L', 'S'], ['L', 'S'], ['L', 'S'], ['C', 'S']]) {
        interval(&mut script, number, marks);
    }
    for point in 0..=3 {
        script.reason(point);
    }
    script.reinstate(2);
    script.reason(2);
    for (number, marks) in (13..).zip([['C', 'S'], ['C', 'S']]) {
        interval(&mut script, number, marks);
    }
    script.declare(2, 0);
    script.reason(2);
    script.call(6, &[1, 0, 0]);
    script.reason(1);
    let place = script.len() - 12 - 11;
    let mut out = Vec::new();
    replay::run(&script.into_bytes(), &mut out).unwrap();
    let printed = String::from_utf8(out).unwrap();
    let lines: Vec<&str> = printed.lines().filter(|line| line.starts_with(['r', 's'])).collect();
    assert_eq!(
        lines,
        [
            "reason refused 20",
            "reason refused 10",
            "reason accepted large 8 11",
            "reason accepted small 8 12",
            "reason refused 10",
            "reinstate accepted",
            "reason refused 36",
            "reason accepted operator 0 0",
            &format!("script error at byte {place}"),
        ]
    );
}

/// A member's line with this target, raise and lower.
fn aimed(target: i32, raise: u32, lower: u32) -> [u8; 40] {
    let mut bytes = member(100.0, 2);
    for (at, value) in [(4, target as u32), (12, raise), (16, lower)] {
        bytes[at..at + 4].copy_from_slice(&value.to_le_bytes());
    }
    bytes
}

/// The answer to a target: its values in the order in which they are printed.
fn target(monitor: &Monitor, point: u32) -> Result<(i32, u32, u32, bool), u32> {
    let before = monitor.clone();
    let answer = monitor.target(point);
    assert!(*monitor == before);
    answer.map(|Target { target, raise, lower, kept }| (target, raise, lower, kept)).map_err(|refusal| refusal.number())
}

/// Chain 3 1 2 is point 6, chain 5 is point 7; unit 4 stands in none.
fn two_chains() -> Vec<u8> {
    register([2, 3, 4, 2, 3, 4], &[(1, 2), (2, 0), (3, 1), (4, 0), (2, 0)], &[3, 5])
}

/// Lines for it: -250,000 + 100,000 - 30,000 in the first chain, -2,000,000 in the second.
fn lines_of_two_chains() -> [[u8; 40]; 5] {
    let loner = with(with(aimed(900_000, 9, 9), 1, 0), 2, 1);
    [aimed(100_000, 5_000, 2_000), aimed(30_000, 700, 40), aimed(-250_000, 1, 3), loner, aimed(2_000_000, 2_000_000, 0)]
}

const FIRST_CHAIN: Result<(i32, u32, u32, bool), u32> = Ok((-180_000, 5_701, 2_043, true));
const SECOND_CHAIN: Result<(i32, u32, u32, bool), u32> = Ok((-2_000_000, 2_000_000, 0, true));
const NOTHING_KEPT: Result<(i32, u32, u32, bool), u32> = Ok((0, 0, 0, false));

#[test]
fn target_refusals() {
    let mut monitor = Monitor::new();
    for point in [0, 1, 6, u32::MAX] {
        assert_eq!(target(&monitor, point), Err(20));
    }
    assert_eq!(monitor.load(&[]).unwrap_err().number(), 1);
    assert_eq!(target(&monitor, 6), Err(20));
    assert_eq!(monitor.load(&two_chains()), Ok(4));
    let mut report = [0; 7 * 16];
    for number in 0..3 {
        // Units in a chain and in none, and points outside the register.
        for point in [0, 1, 2, 3, 4, 5, 8, 9, 256, 262, 65_542, 0x8000_0006, u32::MAX] {
            assert_eq!(target(&monitor, point), Err(10));
        }
        assert!(target(&monitor, 6).is_ok() && target(&monitor, 7).is_ok());
        monitor.interval(&buffer(number, 1, &lines_of_two_chains()), &mut report).unwrap();
    }
    // A register without aggregates, and the most there are.
    monitor.load(&register([2, 3, 4, 2, 3, 4], &[(1, 0), (1, 0)], &[])).unwrap();
    for point in 0..=3 {
        assert_eq!(target(&monitor, point), Err(10));
    }
    let heads: Vec<u8> = (1..=16).collect();
    monitor.load(&register([2, 3, 4, 2, 3, 4], &[(1, 0); 64], &heads)).unwrap();
    for point in 0..=82 {
        assert_eq!(target(&monitor, point), if (65..=80).contains(&point) { NOTHING_KEPT } else { Err(10) });
    }
}

#[test]
fn targets_of_kept_members() {
    let mut monitor = Monitor::new();
    monitor.load(&two_chains()).unwrap();
    assert_eq!([target(&monitor, 6), target(&monitor, 7)], [NOTHING_KEPT; 2]);
    let mut report = [0; 7 * 16];
    // Unreadable units, and what is left of the first chain.
    type Case<'a> = (&'a [usize], (i32, u32, u32, bool));
    let cases: [Case; 9] = [
        (&[], (-180_000, 5_701, 2_043, true)),
        // The first place, the middle one, the last.
        (&[3], (70_000, 5_700, 2_040, false)),
        (&[1], (-280_000, 701, 43, false)),
        (&[2], (-150_000, 5_001, 2_003, false)),
        // Two of them, then all.
        (&[3, 1], (-30_000, 700, 40, false)),
        (&[3, 2], (100_000, 5_000, 2_000, false)),
        (&[1, 2], (-250_000, 1, 3, false)),
        (&[1, 2, 3], (0, 0, 0, false)),
        // The unit in no chain is in no sum.
        (&[4], (-180_000, 5_701, 2_043, true)),
    ];
    // In sequence; then each a jump.
    for (step, start) in [(1, 10), (2, 100)] {
        for ((unreadable, sums), number) in cases.into_iter().zip((start..).step_by(step)) {
            let mut lines = lines_of_two_chains();
            for &unit in unreadable {
                lines[unit - 1][3] = 1;
            }
            monitor.interval(&buffer(number, 1, &lines), &mut report).unwrap();
            assert_eq!(target(&monitor, 6), Ok(sums), "{unreadable:?}");
            assert_eq!(target(&monitor, 7), SECOND_CHAIN);
            // The second chain's only member.
            lines[4][1] = 3;
            monitor.interval(&buffer(number + 1_000, 1, &lines), &mut report).unwrap();
            assert_eq!(target(&monitor, 6), Ok(sums), "{unreadable:?}");
            assert_eq!(target(&monitor, 7), NOTHING_KEPT);
            monitor.load(&two_chains()).unwrap();
        }
    }
}

#[test]
fn a_target_is_that_of_the_latest_interval() {
    let mut monitor = Monitor::new();
    monitor.load(&register([2, 3, 4, 2, 3, 4], &[(1, 2), (2, 0)], &[1])).unwrap();
    let mut report = [0; 48];
    let mut sums = |number, lines: [[u8; 40]; 2]| {
        monitor.interval(&buffer(number, 1, &lines), &mut report).unwrap();
        let marks: Vec<u8> = report.as_chunks().0.iter().map(|bytes| Record::of(bytes).mark).collect();
        (marks, target(&monitor, 3))
    };
    // Kept at once, though nothing was kept before it; then others in their place.
    assert_eq!(sums(5, [aimed(100_000, 10, 20), aimed(100_000, 30, 40)]), (vec![1; 3], Ok((0, 40, 60, true))));
    assert_eq!(sums(6, [aimed(100_000, 1, 2), aimed(99_999, 3, 4)]), (vec![2; 3], Ok((1, 4, 6, true))));
    // A jump: BLANK, and kept none the less.
    assert_eq!(sums(8, [aimed(7, 0, 0), aimed(9, 5, 0)]), (vec![1; 3], Ok((-2, 5, 0, true))));
    // Nothing of the interval before stands in for an unreadable line.
    assert_eq!(sums(9, [aimed(2_000_001, 1, 1), aimed(9, 6, 7)]).1, Ok((-9, 6, 7, false)));
    assert_eq!(sums(20, [aimed(8, 1, 1), aimed(-1, 6, 7)]).1, Ok((8, 1, 1, false)));
    // Whatever the quality, floats that are not read, conformance mode and mark.
    let bad = with(with(aimed(50_000, 2, 3), 0, 2), 31, 0xFF);
    assert_eq!(sums(21, [bad, with(aimed(20_000, 4, 5), 0, 1)]), (vec![1; 3], Ok((30_000, 6, 8, true))));
    let off = |line| with(line, 1, 0);
    assert_eq!(sums(22, [off(aimed(1_000, 2, 3)), off(bad)]), (vec![0; 3], Ok((-49_000, 4, 6, true))));
    // All 0, and every member kept.
    assert_eq!(sums(u32::MAX, [aimed(0, 0, 0), aimed(0, 0, 0)]).1, Ok((0, 0, 0, true)));
}

#[test]
fn what_changes_no_target() {
    let mut monitor = Monitor::new();
    monitor.load(&two_chains()).unwrap();
    let mut report = [0; 7 * 16];
    let mut lines = lines_of_two_chains();
    // All units at 100 MW: points 2, 3 and 6 are away from their targets.
    for number in 1..=3 {
        monitor.interval(&buffer(number, 0, &lines), &mut report).unwrap();
    }
    let stands = |monitor: &Monitor| assert_eq!([target(monitor, 6), target(monitor, 7)], [FIRST_CHAIN, SECOND_CHAIN]);
    stands(&monitor);
    // Refused intervals whose lines have other sums.
    lines[0] = aimed(1, 1, 1);
    lines[2][0] = 3;
    lines[4][0] = 3;
    let other = buffer(4, 0, &lines);
    for (bytes, length) in [(&other[..], 111), (&other[..], 0), (&other[..207], 112), (&other[..8], 112)] {
        assert_eq!(monitor.interval(bytes, &mut report[..length]).unwrap_err().number(), 8);
        stands(&monitor);
    }
    for (bytes, refusal) in [
        (buffer(4, 32, &lines), 9),
        ([&[4, 0, 0, 0, 0, 0, 1, 0][..], &other[8..]].concat(), 9),
        (buffer(3, 0, &lines), 21),
        (buffer(0, 1, &lines), 21),
    ] {
        assert_eq!(monitor.interval(&bytes, &mut report).unwrap_err().number(), refusal);
        stands(&monitor);
    }
    // Refused loads.
    for (bytes, refusal) in [(&two_chains()[..43], 1), (&register([2, 3, 4, 2, 3, 4], &[(4, 0)], &[1]), 30)] {
        assert_eq!(monitor.load(bytes).unwrap_err().number(), refusal);
        stands(&monitor);
    }
    // Operator calls, accepted and refused, on the aggregate and on its members.
    for (point, level) in [(6, -5), (3, -5), (2, 128_000_000)] {
        assert_eq!(monitor.declare(point, level), Ok(()));
        stands(&monitor);
        assert_eq!(monitor.declare(point, level).unwrap_err().number(), 22);
        assert!(monitor.look(point).is_ok() && monitor.reason(point).is_ok());
        stands(&monitor);
    }
    for point in [6, 2] {
        assert_eq!(monitor.reinstate(point), Ok(()));
        assert_eq!(monitor.reinstate(point).unwrap_err().number(), 23);
        stands(&monitor);
    }
    // The next interval changes both.
    monitor.interval(&other, &mut report).unwrap();
    assert_eq!([target(&monitor, 6), target(&monitor, 7)], [Ok((-29_999, 701, 41, false)), NOTHING_KEPT]);
}

#[test]
fn a_load_leaves_no_target() {
    let mut monitor = Monitor::new();
    let mut report = [0; 7 * 16];
    for first in [7, 3, 3] {
        // The same bytes again; the next interval may have any number.
        monitor.load(&two_chains()).unwrap();
        assert_eq!([target(&monitor, 6), target(&monitor, 7)], [NOTHING_KEPT; 2]);
        assert_eq!(monitor.interval(&buffer(9, 32, &lines_of_two_chains()), &mut report).unwrap_err().number(), 9);
        assert_eq!([target(&monitor, 6), target(&monitor, 7)], [NOTHING_KEPT; 2]);
        monitor.interval(&buffer(first, 1, &lines_of_two_chains()), &mut report).unwrap();
        assert_eq!([target(&monitor, 6), target(&monitor, 7)], [FIRST_CHAIN, SECOND_CHAIN]);
    }
    // Another register, whose aggregates are points 3 and 4, then one whose only aggregate is point 6.
    monitor.load(&register([2, 3, 4, 2, 3, 4], &[(1, 0), (2, 0)], &[2, 1])).unwrap();
    assert_eq!([target(&monitor, 3), target(&monitor, 4)], [NOTHING_KEPT; 2]);
    assert_eq!([target(&monitor, 6), target(&monitor, 7)], [Err(10); 2]);
    let lines = [aimed(11, 1, 2), aimed(22, 3, 4)];
    monitor.interval(&buffer(0, 1, &lines), &mut report[..64]).unwrap();
    assert_eq!([target(&monitor, 3), target(&monitor, 4)], [Ok((-22, 3, 4, true)), Ok((11, 1, 2, true))]);
    monitor.load(&register([2, 3, 4, 2, 3, 4], &[(1, 0); 5], &[5])).unwrap();
    assert_eq!([target(&monitor, 3), target(&monitor, 6), target(&monitor, 7)], [Err(10), NOTHING_KEPT, Err(10)]);
}

#[test]
fn targets_at_their_bounds() {
    for (kind, own, sum) in
        [(1, 2_000_000, 128_000_000), (2, 2_000_000, -128_000_000), (3, -2_000_000, -128_000_000), (3, 0, 0)]
    {
        let units: Vec<(u8, u8)> = (1..=64).map(|unit| (kind, if unit == 64 { 0 } else { unit + 1 })).collect();
        let mut monitor = Monitor::new();
        assert_eq!(monitor.load(&register([2, 3, 4, 2, 3, 4], &units, &[1])), Ok(64));
        let mut report = [0; 65 * 16];
        let mut lines = [aimed(own, 2_000_000, 2_000_000); 64];
        monitor.interval(&buffer(1, 1, &lines), &mut report).unwrap();
        assert_eq!(target(&monitor, 65), Ok((sum, 128_000_000, 128_000_000, true)));
        // Each place unreadable in its turn.
        for number in 2..=65 {
            lines[number as usize - 2][2] = 255;
            monitor.interval(&buffer(number, 1, &lines), &mut report).unwrap();
            assert_eq!(target(&monitor, 65), Ok((sum / 64 * 63, 126_000_000, 126_000_000, false)));
            lines[number as usize - 2][2] = 0;
        }
    }
}

#[test]
fn targets_printed() {
    let mut script = Script::new();
    script.target(6);
    script.load(&two_chains());
    for point in [0, 5, 6, 7, 8] {
        script.target(point);
    }
    script.interval(112, &buffer(1, 1, &lines_of_two_chains()));
    script.target(6);
    let mut lines = lines_of_two_chains();
    lines[2][3] = 1;
    script.interval(112, &buffer(2, 1, &lines));
    for point in [6, 7, 262] {
        script.target(point);
    }
    script.call(7, &[6, 0, 0, 0, 0]);
    script.target(6);
    let place = script.len() - 12 - 13;
    let mut out = Vec::new();
    replay::run(&script.into_bytes(), &mut out).unwrap();
    let printed = String::from_utf8(out).unwrap();
    let lines: Vec<&str> = printed.lines().filter(|line| line.starts_with(['t', 's'])).collect();
    assert_eq!(
        lines,
        [
            "target refused 20",
            "target refused 10",
            "target refused 10",
            "target accepted 0 0 0 0",
            "target accepted 0 0 0 0",
            "target refused 10",
            "target accepted -180000 5701 2043 1",
            "target accepted 70000 5700 2040 0",
            "target accepted -2000000 2000000 0 1",
            "target refused 10",
            &format!("script error at byte {place}"),
        ]
    );
}

#[test]
fn members_and_their_aggregate() {
    // Unit 1 generating, unit 2 a load; aggregate of 2 then 1.
    let mut monitor = Monitor::new();
    assert_eq!(monitor.load(&register([2, 3, 4, 2, 3, 4], &[(1, 0), (2, 1)], &[2])), Ok(2));
    let mut report = [0; 48];
    let mut run = |number, lines: &[[u8; 40]]| {
        monitor.interval(&buffer(number, 1, lines), &mut report).unwrap();
        report.as_chunks().0.iter().map(Record::of).map(|r| (r.mark, r.error, r.status)).collect::<Vec<_>>()
    };
    assert_eq!(run(1, &[member(100.0, 2), member(100.0, 2)]), [(1, 0, 0); 3]);
    // Generating 8,000 above, load 8,000 above: the signed sum is 0.
    assert_eq!(run(2, &[member(108.0, 2), member(108.0, 2)]), [(5, 8_000, 1), (5, 8_000, 1), (2, 0, 0)]);
    // Opposite errors add up.
    assert_eq!(run(3, &[member(104.0, 2), member(96.0, 2)]), [(2, 4_000, 0), (2, -4_000, 0), (5, 8_000, 1)]);
    // One off: the aggregate goes on with it.
    assert_eq!(run(4, &[member(104.0, 1), member(96.0, 0)]), [(0, 0, 0), (0, 0, 0), (5, 8_000, 2)]);
    assert_eq!(run(5, &[member(104.0, 0), member(96.0, 0)]), [(0, 0, 0), (0, 0, 0), (0, 0, 0)]);
    // One unreadable: BLANK for it and the aggregate alone.
    assert_eq!(run(6, &[member(104.0, 3), member(96.0, 2)]), [(1, 0, 0), (2, -4_000, 0), (1, 0, 0)]);
    assert_eq!(run(7, &[member(104.0, 2), member(96.0, 2)]), [(1, 0, 0), (2, -4_000, 0), (1, 0, 0)]);
    assert_eq!(
        run(8, &[with(member(104.0, 2), 0, 1), member(96.0, 2)]),
        [(2, 4_000, 0), (2, -4_000, 0), (3, 8_000, 0)]
    );
}

#[test]
fn members_beyond_an_unreadable_one() {
    // Chain 3 1 4 2 5; unit 6 in none.
    let mut monitor = Monitor::new();
    let units = [(1, 4), (2, 5), (1, 1), (3, 2), (1, 0), (1, 0)];
    assert_eq!(monitor.load(&register([2, 3, 4, 2, 3, 4], &units, &[3])), Ok(5));
    let mut interval = |number, lines: [[u8; 40]; 6]| {
        let mut report = [0; 7 * 16];
        monitor.interval(&buffer(number, 1, &lines), &mut report).unwrap();
        report.as_chunks().0.iter().map(Record::of).map(|record| record.mark).collect::<Vec<_>>()
    };
    let on_target = || {
        let mut lines = [member(100.0, 2); 6];
        lines[5] = line(100.0);
        lines
    };
    let unreadable = with(member(100.0, 2), 2, 1);
    assert_eq!(interval(1, on_target()), [1; 7]);
    assert_eq!(interval(2, on_target()), [2; 7]);
    let mut number = 2;
    for place in [3, 1, 4, 2, 5] {
        // The others are marked and kept, before that place and beyond it; a second one unreadable beyond changes its own.
        for second in [place, 5] {
            let mut lines = on_target();
            (lines[place - 1], lines[second - 1]) = (unreadable, unreadable);
            let mut marks = [2; 7];
            (marks[place - 1], marks[second - 1], marks[6]) = (1, 1, 1);
            number += 1;
            assert_eq!(interval(number, lines), marks);
            // Nothing is kept for it alone.
            number += 1;
            assert_eq!(interval(number, on_target()), marks);
            number += 1;
            assert_eq!(interval(number, on_target()), [2; 7]);
        }
    }
}

#[test]
fn the_kept_cap_flag_counts() {
    let mut one = One::of_kind(4, [2, 3, 9, 2, 3, 9]);
    // Nothing kept: BLANK, whatever the flags.
    assert_eq!(summary(one.interval(1, 1, flagged(107.0, 0))), (0, 1, 0, 0));
    // Kept 0: OFF, without error and trigger.
    let record = one.interval(2, 1, flagged(107.0, 1));
    assert_eq!((record.mark, record.error, record.trigger), (0, 0, 0));
    // Kept 1, this line's 0.
    let record = one.interval(3, 1, flagged(107.0, 0));
    assert_eq!((record.mark, record.error, record.trigger), (5, 7_000, 600_000));
    assert_eq!(summary(record), (1, 5, 1, 1));
    // OFF clears the run.
    assert_eq!(summary(one.interval(4, 1, flagged(107.0, 1))), (0, 0, 0, 0));
    assert_eq!(summary(one.interval(5, 1, flagged(107.0, 1))), (1, 5, 1, 1));
    assert_eq!(summary(one.interval(6, 1, flagged(107.0, 1))), (2, 5, 2, 2));
    // Any other flag: unreadable, BLANK now and next time, the runs stand.
    assert_eq!(summary(one.interval(7, 1, flagged(107.0, 2))), (2, 1, 2, 2));
    assert_eq!(summary(one.interval(8, 1, flagged(107.0, 1))), (2, 1, 2, 2));
    assert_eq!(summary(one.interval(9, 1, flagged(107.0, 255))), (2, 1, 2, 2));
    assert_eq!(summary(one.interval(10, 1, flagged(107.0, 0))), (2, 1, 2, 2));
    // Kept 0, but stale by a jump: BLANK.
    assert_eq!(summary(one.interval(12, 1, flagged(107.0, 0))), (2, 1, 2, 2));
    // Kept 0, but quality 2: BLANK. Its own flag is kept.
    assert_eq!(summary(one.interval(13, 1, with(flagged(107.0, 1), 0, 2))), (2, 1, 2, 2));
    assert_eq!(summary(one.interval(14, 1, flagged(107.0, 0))), (3, 5, 3, 3));
    // Kept 0 and substituted: OFF.
    assert_eq!(summary(one.interval(15, 1, with(flagged(107.0, 0), 0, 1))), (0, 0, 0, 0));
    assert_eq!(summary(one.interval(16, 1, flagged(93.0, 0))), (0, 0, 0, 0));
}

#[test]
fn below_a_capped_target() {
    let mut one = One::of_kind(4, [2, 3, 9, 2, 3, 9]);
    one.interval(1, 1, flagged(100.0, 1));
    let mut found = |number, line| {
        let record = one.interval(number, 1, line);
        (record.mark, record.error, record.trigger, record.small)
    };
    assert_eq!(found(2, flagged(106.0, 1)), (2, 6_000, 600_000, 0));
    assert_eq!(found(3, flagged(106.001, 1)), (5, 6_001, 600_000, 1));
    // CLEAR at the trigger and past it, and the run ends.
    assert_eq!(found(4, flagged(93.999, 1)), (2, -6_001, 600_000, 0));
    assert_eq!(found(5, flagged(107.0, 1)), (5, 7_000, 600_000, 1));
    assert_eq!(found(6, flagged(94.0, 1)), (2, -6_000, 600_000, 0));
    // Substituted: DOUBT above, which leaves the run; CLEAR below, which ends it.
    assert_eq!(found(7, flagged(107.0, 1)), (5, 7_000, 600_000, 1));
    assert_eq!(found(8, with(flagged(106.001, 1), 0, 1)), (3, 6_001, 600_000, 1));
    assert_eq!(found(9, with(flagged(93.999, 1), 0, 1)), (2, -6_001, 600_000, 0));
    assert_eq!(found(10, with(flagged(106.0, 1), 0, 1)), (2, 6_000, 600_000, 0));
    // With a power of 0 and of less.
    assert_eq!(found(11, flagged(0.0, 1)), (2, -100_000, 600_000, 0));
    assert_eq!(found(12, flagged(-1.0, 1)), (2, -101_000, 600_000, 0));
}

#[test]
fn semi_scheduled_regulation_sides() {
    // As a generating unit: FCR above, FCL below.
    let mut one = One::of_kind(4, [2, 3, 9, 2, 3, 9]);
    let regulated = |mw: f32| {
        let mut bytes = flagged(mw, 1);
        bytes[12..16].copy_from_slice(&5_000u32.to_le_bytes());
        bytes[16..20].copy_from_slice(&2_000u32.to_le_bytes());
        bytes
    };
    one.interval(1, 1, regulated(100.0));
    for (number, mw, mark, error) in [
        (2, 105.0, 2, 0),
        (3, 111.0, 2, 6_000),
        (4, 111.001, 5, 6_001),
        (5, 98.0, 2, 0),
        (6, 92.0, 2, -6_000),
        (7, 91.999, 2, -6_001),
    ] {
        let record = one.interval(number, 1, regulated(mw));
        assert_eq!((record.mark, record.error), (mark, error));
    }
}

#[test]
fn a_declared_semi_scheduled_unit() {
    let mut one = One::of_kind(4, [2, 3, 4, 2, 3, 4]);
    one.interval(1, 1, flagged(100.0, 1));
    let statuses: Vec<_> = (2..=5)
        .map(|number| one.interval(number, 1, flagged(107.0, 1)))
        .map(|r| (r.status, r.small, r.large, r.level))
        .collect();
    assert_eq!(statuses, [(1, 1, 1, 0), (2, 2, 2, 0), (3, 3, 3, 0), (4, 0, 0, 107_000)]);
    // The marks go on, the level stands: CLEAR below target, OFF, LARGE.
    let declared = |record: Record| (record.status, record.mark, record.small, record.large, record.level);
    assert_eq!(declared(one.interval(6, 1, flagged(93.0, 0))), (4, 2, 0, 0, 107_000));
    assert_eq!(declared(one.interval(7, 1, flagged(107.0, 1))), (4, 0, 0, 0, 107_000));
    assert_eq!(declared(one.interval(8, 1, flagged(108.0, 1))), (4, 5, 0, 0, 107_000));
    one.0.reinstate(1).unwrap();
    assert_eq!(one.0.look(1), Ok(Look { status: 0, small: 0, large: 0, level: 0 }));
    assert_eq!(summary(one.interval(9, 1, flagged(107.0, 1))), (1, 5, 1, 1));
    // OFF and CLEAR begin the run anew; four more marks declare.
    assert_eq!(summary(one.interval(10, 1, flagged(107.0, 0))), (2, 5, 2, 2));
    assert_eq!(summary(one.interval(11, 1, flagged(107.0, 1))), (0, 0, 0, 0));
    for (number, status) in [(12, 1), (13, 2), (14, 3)] {
        assert_eq!(one.interval(number, 1, flagged(107.0, 1)).status, status);
    }
    assert_eq!(summary(one.interval(15, 1, flagged(93.0, 1))), (0, 2, 0, 0));
    for (number, status) in [(16, 1), (17, 2), (18, 3), (19, 4)] {
        assert_eq!(one.interval(number, 1, flagged(109.0, 1)).status, status);
    }
    assert_eq!(one.0.look(1).unwrap().level, 109_000);
}

#[test]
fn an_operator_declares_a_semi_scheduled_unit() {
    let mut one = One::of_kind(4, [2, 3, 4, 2, 3, 4]);
    one.interval(1, 0, flagged(100.0, 1));
    one.interval(2, 0, flagged(107.0, 1));
    assert_eq!(one.0.declare(1, 50_000).unwrap_err().number(), 22);
    one.interval(3, 0, flagged(107.0, 0));
    one.0.declare(1, 50_000).unwrap();
    assert_eq!(one.0.look(1), Ok(Look { status: 4, small: 0, large: 0, level: 50_000 }));
    // OFF does not reinstate.
    assert_eq!(summary(one.interval(4, 0, flagged(107.0, 0))), (4, 0, 0, 0));
    one.0.reinstate(1).unwrap();
    // After an OFF there is nothing to declare.
    assert_eq!(summary(one.interval(5, 0, flagged(107.0, 0))), (0, 0, 0, 0));
    assert_eq!(one.0.declare(1, 50_000).unwrap_err().number(), 22);
}

#[test]
fn a_semi_scheduled_unit_beside_a_chain() {
    // Unit 2 semi-scheduled, units 1 and 3 a chain: point 4.
    let mut monitor = Monitor::new();
    let units = [(1, 3), (4, 0), (1, 0)];
    assert_eq!(monitor.load(&register([2, 3, 4, 2, 3, 4], &units, &[1])), Ok(2));
    let mut report = [0; 64];
    let mut run = |number, lines: &[[u8; 40]]| {
        monitor.interval(&buffer(number, 1, lines), &mut report).unwrap();
        report.as_chunks().0.iter().map(Record::of).map(|r| (r.mark, r.error)).collect::<Vec<_>>()
    };
    let on = member(100.0, 2);
    assert_eq!(run(1, &[on, flagged(107.0, 1), on]), [(1, 0); 4]);
    assert_eq!(run(2, &[on, flagged(107.0, 0), on]), [(2, 0), (5, 7_000), (2, 0), (2, 0)]);
    assert_eq!(run(3, &[on, flagged(107.0, 2), on]), [(2, 0), (1, 0), (2, 0), (2, 0)]);
    assert_eq!(run(4, &[on, flagged(107.0, 0), on]), [(2, 0), (1, 0), (2, 0), (2, 0)]);
    assert_eq!(run(5, &[on, flagged(107.0, 0), on]), [(2, 0), (0, 0), (2, 0), (2, 0)]);
    // A flag in a member's line is a nonzero spare.
    assert_eq!(run(6, &[with(on, 2, 1), flagged(107.0, 0), on]), [(1, 0), (0, 0), (2, 0), (1, 0)]);
    // A register that chains it leaves everything as it was.
    let before = monitor.clone();
    assert_eq!(monitor.load(&register([2, 3, 4, 2, 3, 4], &units, &[2])).unwrap_err().number(), 7);
    assert_eq!(monitor.load(&register([2, 3, 4, 2, 3, 4], &units, &[1, 2])).unwrap_err().number(), 30);
    assert!(monitor == before);
}

#[test]
fn program_refusals() {
    let text = |register: &[u8], intervals: &[u8]| {
        let mut out = Vec::new();
        program::run(register, intervals, &mut out).unwrap();
        String::from_utf8(out).unwrap()
    };
    let good = register([2, 3, 4, 2, 3, 4], &[(1, 0)], &[]);
    assert_eq!(text(&[], &[1, 2, 3]), "refused 1\n");
    assert_eq!(text(&register([2, 3, 4, 2, 3, 4], &[(4, 0)], &[1]), &[]), "refused 30\n");
    assert_eq!(text(&register([2, 3, 4, 2, 3, 4], &[(5, 0)], &[]), &[]), "refused 4\n");
    assert_eq!(text(&in_regions(register([2, 3, 4, 2, 3, 4], &[(1, 2), (1, 0)], &[1]), &[1, 0]), &[]), "refused 37\n");
    assert_eq!(text(&in_regions(good.clone(), &[5]), &[]), "refused 4\n");
    assert_eq!(text(&good, &buffer(7, 32, &[line(100.0)])), "refused 9\n");
    assert_eq!(text(&good, &[]), "");
    assert_eq!(text(&good, &[0; 5]), "refused 8\n");
    let bytes = [buffer(7, 1, &[line(100.0)]), buffer(7, 1, &[line(100.0)]), buffer(8, 1, &[line(100.0)])].concat();
    assert_eq!(text(&good, &bytes), "7 1 0 1 0 0 0 0 0\nrefused 21\n");
}

#[test]
fn program_on_the_data_folders() {
    let root = std::path::Path::new(env!("CARGO_MANIFEST_DIR")).join("../tests/program");
    let mut folders: Vec<_> = std::fs::read_dir(root).unwrap().map(|entry| entry.unwrap().path()).collect();
    folders.sort();
    assert!(folders.len() >= 6);
    for folder in folders {
        let read = |name: &str| std::fs::read(folder.join(name)).unwrap_or_default();
        let mut out = Vec::new();
        program::run(&read("register.bin"), &read("intervals.bin"), &mut out).unwrap();
        assert_eq!(
            String::from_utf8(out).unwrap(),
            String::from_utf8(read("expected")).unwrap(),
            "{}",
            folder.display()
        );
    }
}
