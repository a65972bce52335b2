//! Days of wholesale demand response, worked out by hand; then random days against a second working of the paper.

use conformance::response::{assess, printed, Assessment, Flag};
use conformance::{random_days, Refusal};
use std::process::Command;

/// Target, BSQ, ME.
type Record = (u32, i32, i32);

const IDLE: Record = (0, 0, 0);

/// A file whose records are these, at their places from 0, and otherwise idle.
fn day(earlier: u32, placed: &[(usize, Record)]) -> Vec<u8> {
    let mut records = [IDLE; 288];
    for &(place, record) in placed {
        records[place] = record;
    }
    file(earlier, &records)
}

fn file(earlier: u32, records: &[Record]) -> Vec<u8> {
    let mut bytes = earlier.to_le_bytes().to_vec();
    for (target, baseline, metered) in records {
        bytes.extend(target.to_le_bytes());
        bytes.extend(baseline.to_le_bytes());
        bytes.extend(metered.to_le_bytes());
    }
    bytes
}

/// What is printed for a first record after an earlier target.
fn first(record: Record) -> String {
    printed(&day(1, &[(0, record)]))
}

#[test]
fn without_dispatch() {
    assert_eq!(printed(&day(0, &[])), "0 0 none 0 0");
    assert_eq!(printed(&day(2_000_000, &[])), "0 0 none 0 0");
    let bounds = (0, 200_000_000, -200_000_000);
    assert_eq!(printed(&file(5, &[bounds; 288])), "0 0 none 0 0");
    assert_eq!(printed(&file(5, &[(0, -200_000_000, 200_000_000); 288])), "0 0 none 0 0");
}

#[test]
fn little_endian_in_the_order_of_the_paper() {
    let mut bytes = day(0, &[]);
    bytes[..4].copy_from_slice(&[1, 0, 0, 0]);
    // 0x000249F0 = 150,000 kW; 0x00BEBC20 = 12,500,000 Wh; -1 Wh.
    bytes[4..16].copy_from_slice(&[0xF0, 0x49, 2, 0, 0x20, 0xBC, 0xBE, 0, 0xFF, 0xFF, 0xFF, 0xFF]);
    assert_eq!(printed(&bytes), "12500001 150000 none 0 0");
}

#[test]
fn error_at_the_thresholds() {
    // 12,000 kW less 12 × 500,000 Wh is 6 MW; the day is at 50 % then.
    assert_eq!(first((12_000, 500_000, 0)), "500000 12000 under 1 0");
    assert_eq!(first((12_000, 499_999, 0)), "499999 12000 under 1 0");
    assert_eq!(first((12_000, 500_001, 0)), "500001 12000 none 0 0");
    // 12,002,000 - 6,002,004 = 5,999,996; 12,001,000 - 6,000,996 = 6,000,004.
    assert_eq!(first((12_002, 500_167, 0)), "500167 12002 none 0 0");
    assert_eq!(first((12_001, 500_083, 0)), "500083 12001 none 1 0");
    // 12,000 kW less 12 × 1,500,000 Wh is -6 MW; the day is at 150 % then.
    assert_eq!(first((12_000, 1_500_000, 0)), "1500000 12000 over 0 1");
    assert_eq!(first((12_000, 1_500_001, 0)), "1500001 12000 over 0 1");
    assert_eq!(first((12_000, 1_499_999, 0)), "1499999 12000 none 0 0");
    // 12,001,000 - 18,000,996 = -5,999,996; 12,002,000 - 18,002,004 = -6,000,004.
    assert_eq!(first((12_001, 1_500_083, 0)), "1500083 12001 none 0 0");
    assert_eq!(first((12_002, 1_500_167, 0)), "1500167 12002 none 0 1");
    // The same by ME, and by both.
    assert_eq!(first((12_000, 0, -500_000)), "500000 12000 under 1 0");
    assert_eq!(first((12_000, 200_000_000, 198_500_000)), "1500000 12000 over 0 1");
    assert_eq!(first((12_000, -199_500_000, -200_000_000)), "500000 12000 under 1 0");
    // No response at all: the target itself is the error.
    assert_eq!(first((6_000, 7, 7)), "0 6000 under 1 0");
    assert_eq!(first((5_999, 7, 7)), "0 5999 under 0 0");
}

#[test]
fn half_and_one_and_a_half() {
    // 24 × D against 24,000 and 72,000: no interval comes near its thresholds.
    for (response, flag) in [
        (-1, "under"),
        (0, "under"),
        (999, "under"),
        (1_000, "under"),
        (1_001, "none"),
        (2_000, "none"),
        (2_999, "none"),
        (3_000, "over"),
        (3_001, "over"),
    ] {
        for earlier in [0, 24] {
            assert_eq!(printed(&day(earlier, &[(100, (24, response, 0))])), format!("{response} 24 {flag} 0 0"));
        }
        // In two records, with another response where the target is 0.
        let parts = [(3, (20, 7, 8)), (4, (0, 9_000, -9_000)), (287, (4, response, -1))];
        assert_eq!(printed(&day(0, &parts)), format!("{response} 24 {flag} 0 0"));
    }
    // 1000 / 24 lies between 41 and 42, 2000 / 24 between 83 and 84; 3000 / 24 is 125.
    for (target, response, flag) in [
        (1, 41, "under"),
        (1, 42, "none"),
        (1, 124, "none"),
        (1, 125, "over"),
        (2, 83, "under"),
        (2, 84, "none"),
        (2, 249, "none"),
        (2, 250, "over"),
    ] {
        assert_eq!(first((target, response, 0)), format!("{response} {target} {flag} 0 0"));
    }
    // 288 × 2,000,000 kW: 50 % is 24,000,000,000 Wh, 150 % three times that; in each record 83,333,333 1/3 and 250,000,000.
    let at = |each: Record, last: Record| {
        let mut records = [each; 288];
        records[287] = last;
        printed(&file(0, &records))
    };
    // 287 × 83,333,333 = 23,916,666,571, and 83,333,429 is missing.
    let half = (2_000_000, 83_333_333, 0);
    assert_eq!(at(half, (2_000_000, 83_333_429, 0)), "24000000000 576000000 under 287 0");
    assert_eq!(at(half, (2_000_000, 83_333_430, 0)), "24000000001 576000000 none 287 0");
    assert_eq!(at(half, (2_000_000, 83_333_428, 0)), "23999999999 576000000 under 287 0");
    let more = (2_000_000, 100_000_000, -150_000_000);
    assert_eq!(at(more, more), "72000000000 576000000 over 0 287");
    assert_eq!(at(more, (2_000_000, 100_000_000, -149_999_999)), "71999999999 576000000 none 0 287");
    assert_eq!(at(more, (2_000_000, 100_000_001, -150_000_000)), "72000000001 576000000 over 0 287");
}

#[test]
fn the_target_before() {
    // 30,000 kW without response is under, with 5,000,000 Wh (60 MW) over; with 2,500,000 Wh neither.
    let under = (30_000, 0, 0);
    let over = (30_000, 5_000_000, 0);
    let good = (30_000, 2_500_000, 0);
    // First record.
    assert_eq!(printed(&day(0, &[(0, under)])), "0 30000 under 0 0");
    assert_eq!(printed(&day(1, &[(0, under)])), "0 30000 under 1 0");
    assert_eq!(printed(&day(0, &[(0, over)])), "5000000 30000 over 0 0");
    assert_eq!(printed(&day(1, &[(0, over)])), "5000000 30000 over 0 1");
    assert_eq!(printed(&day(2_000_000, &[(0, over)])), "5000000 30000 over 0 1");
    // The earlier target stands before the first record alone.
    assert_eq!(printed(&day(1, &[(1, under)])), "0 30000 under 0 0");
    assert_eq!(printed(&day(0, &[(0, under), (1, over)])), "5000000 60000 none 0 1");
    assert_eq!(printed(&day(1, &[(0, under), (1, over)])), "5000000 60000 none 1 1");
    // Last record.
    assert_eq!(printed(&day(1, &[(287, over)])), "5000000 30000 over 0 0");
    assert_eq!(printed(&day(0, &[(286, good), (287, under)])), "2500000 60000 under 1 0");
    assert_eq!(printed(&day(0, &[(286, under), (287, IDLE)])), "0 30000 under 0 0");
    // The first of each event is left out of the counts and stays in the sums.
    let gap = |zeros: usize| {
        let again = 12 + zeros;
        let placed = [(10, good), (11, under), (again, under), (again + 1, over), (again + 2, over)];
        printed(&day(0, &placed))
    };
    assert_eq!(gap(0), "12500000 150000 none 2 2");
    for zeros in 1..4 {
        assert_eq!(gap(zeros), "12500000 150000 none 1 2");
    }
    // What a record of target 0 holds plays no part, nor is it a target before.
    let taken = (0, 200_000_000, -200_000_000);
    assert_eq!(
        printed(&day(9, &[(0, taken), (1, under), (2, taken), (3, taken), (4, over)])),
        "5000000 60000 none 0 0"
    );
    assert_eq!(printed(&day(9, &[(0, under), (1, taken), (286, over), (287, taken)])), "5000000 60000 none 1 0");
    // A target of 1 kW before is a target before.
    assert_eq!(printed(&day(0, &[(5, (1, 0, 0)), (6, under)])), "0 30001 under 1 0");
    // Every other interval: 144 in the sums, and at most the first in the counts.
    let alternate: Vec<Record> = (0..288).map(|place| if place % 2 == 0 { under } else { IDLE }).collect();
    assert_eq!(printed(&file(30_000, &alternate)), "0 4320000 under 1 0");
    assert_eq!(printed(&file(0, &alternate)), "0 4320000 under 0 0");
    assert_eq!(printed(&file(0, &[under; 288])), "0 8640000 under 287 0");
    assert_eq!(printed(&file(1, &[under; 288])), "0 8640000 under 288 0");
    assert_eq!(printed(&file(1, &[over; 288])), "1440000000 8640000 over 0 288");
    assert_eq!(printed(&file(1, &[good; 288])), "720000000 8640000 none 0 0");
}

#[test]
fn an_event() {
    // Targets 20, 20, 30 and 10 MW: 12 × 1.0, 1.2, 3.0 and 0.3 MWh are 12, 14.4, 36 and 3.6 MW; errors 8 (left out), 5.6, -6
    // and 6.4 MW. D is 5.5 MWh, 66 MW over an interval, against 80.
    let event = [
        (140, (20_000, 9_000_000, 8_000_000)),
        (141, (20_000, 9_000_000, 7_800_000)),
        (142, (30_000, 2_000_000, -1_000_000)),
        (143, (10_000, -700_000, -1_000_000)),
    ];
    let found = "5500000 80000 none 1 1";
    assert_eq!(printed(&day(0, &event)), found);
    let bytes = day(0, &event);
    let whole = Assessment { response: 5_500_000, target: 80_000, flag: Flag::None, under: 1, over: 1 };
    assert_eq!(assess(0, &bytes[4..]), Ok(whole));
    assert_eq!(assess(2_000_001, &bytes[4..]), Err(Refusal::DayValue));
    assert_eq!(assess(2_000_001, &bytes[5..]), Err(Refusal::DayLength));
}

#[test]
fn at_the_bounds() {
    let most = (2_000_000, 200_000_000, -200_000_000);
    let least = (2_000_000, -200_000_000, 200_000_000);
    assert_eq!(printed(&file(2_000_000, &[most; 288])), "115200000000 576000000 over 0 288");
    assert_eq!(printed(&file(0, &[most; 288])), "115200000000 576000000 over 0 287");
    assert_eq!(printed(&file(2_000_000, &[least; 288])), "-115200000000 576000000 under 288 0");
    assert_eq!(printed(&file(0, &[least; 288])), "-115200000000 576000000 under 287 0");
    assert_eq!(first(most), "400000000 2000000 over 0 1");
    assert_eq!(first(least), "-400000000 2000000 under 1 0");
    assert_eq!(first((1, 200_000_000, 200_000_000)), "0 1 under 0 0");
    assert_eq!(first((1, -200_000_000, -200_000_000)), "0 1 under 0 0");
    assert_eq!(first((1, -200_000_000, 200_000_000)), "-400000000 1 under 1 0");
}

#[test]
fn values_beyond_their_bounds() {
    let refused = |earlier: u32, place: usize, record: Record| {
        assert_eq!(printed(&day(earlier, &[(place, record)])), "refused 32", "{earlier} {place} {record:?}");
    };
    for target in [2_000_001, 0x8000_0000, u32::MAX] {
        refused(target, 0, IDLE);
        for place in [0, 1, 150, 286, 287] {
            refused(0, place, (target, 0, 0));
        }
    }
    for energy in [200_000_001, -200_000_001, i32::MAX, i32::MIN] {
        for target in [0, 1, 2_000_000] {
            for place in [0, 1, 150, 286, 287] {
                refused(0, place, (target, energy, 0));
                refused(7, place, (target, 0, energy));
                refused(7, place, (target, energy, energy));
            }
        }
    }
}

#[test]
fn other_lengths() {
    let good = day(0, &[(0, (24, 1_000, 0))]);
    assert_eq!(good.len(), 3_460);
    assert_eq!(printed(&good), "1000 24 under 0 0");
    let longer = [&good[..], &good].concat();
    for length in (0..=6_920).filter(|&length| length != 3_460) {
        assert_eq!(printed(&longer[..length]), "refused 31", "{length}");
    }
    // 31 goes first, whatever the values.
    for fill in [0xFF, 0x80, 0x7F] {
        assert_eq!(printed(&[fill; 3_460]), "refused 32");
        for length in [0, 1, 3, 4, 5, 15, 16, 3_448, 3_456, 3_459, 3_461, 3_471, 3_472] {
            assert_eq!(printed(&vec![fill; length]), "refused 31", "{length}");
        }
    }
}

#[test]
fn the_program() {
    let folder = std::path::Path::new(env!("CARGO_TARGET_TMPDIR")).join("response_day");
    let file = folder.join("day.bin");
    std::fs::create_dir_all(&folder).unwrap();
    let _ = std::fs::remove_file(&file);
    let run = || {
        let ended = Command::new(env!("CARGO_BIN_EXE_response_day")).current_dir(&folder).output().unwrap();
        assert_eq!(ended.status.code(), Some(0));
        assert!(ended.stderr.is_empty());
        String::from_utf8(ended.stdout).unwrap()
    };
    assert_eq!(run(), "refused 31\n");
    for (bytes, line) in [
        (vec![], "refused 31\n"),
        (vec![0; 3_459], "refused 31\n"),
        (vec![0; 3_460], "0 0 none 0 0\n"),
        (vec![0xFF; 3_460], "refused 32\n"),
        (day(1, &[(0, (12_000, 0, 500_000))]), "-500000 12000 under 1 0\n"),
    ] {
        std::fs::write(&file, bytes).unwrap();
        assert_eq!(run(), line);
    }
    std::fs::remove_file(&file).unwrap();
    // Not a file that can be read.
    std::fs::create_dir(&file).unwrap();
    assert_eq!(run(), "refused 31\n");
    std::fs::remove_dir(&file).unwrap();
}

/// A second working, by 128 bits on the bytes alone; each thing by its own definition.
fn by_the_paper(bytes: &[u8]) -> String {
    if bytes.len() != 3_460 {
        return "refused 31".into();
    }
    let unsigned = |at: usize| (0..4).map(|i| i128::from(bytes[at + i]) << (8 * i)).sum::<i128>();
    let signed = |at: usize| unsigned(at) - if bytes[at + 3] >= 128 { 1 << 32 } else { 0 };
    // Interval n from 1; target 0 is the earlier one.
    let target = |n: usize| if n == 0 { unsigned(0) } else { unsigned(12 * n - 8) };
    let (baseline, metered) = (|n: usize| signed(12 * n - 4), |n: usize| signed(12 * n));
    let bounded = |energy: i128| (-200_000_000..=200_000_000).contains(&energy);
    let acceptable =
        (0..=288).all(|n| target(n) <= 2_000_000) && (1..=288).all(|n| bounded(baseline(n)) && bounded(metered(n)));
    if !acceptable {
        return "refused 32".into();
    }
    let dispatched: Vec<usize> = (1..=288).filter(|&n| target(n) != 0).collect();
    let response: i128 = dispatched.iter().map(|&n| baseline(n) - metered(n)).sum();
    let sum: i128 = dispatched.iter().map(|&n| target(n)).sum();
    let errors: Vec<i128> = (1..=288)
        .filter(|&n| target(n - 1) != 0 && target(n) != 0)
        .map(|n| 1000 * target(n) - 12 * (baseline(n) - metered(n)))
        .collect();
    let under = errors.iter().filter(|&&error| error >= 6_000_000).count();
    let over = errors.iter().filter(|&&error| error <= -6_000_000).count();
    // The ratio is D over T / 12, in Wh 1000 × T / 12: at most 1/2, at least 3/2.
    let flag = match sum {
        0 => "none",
        _ if 2 * 12 * response <= 1000 * sum => "under",
        _ if 2 * 12 * response >= 3 * 1000 * sum => "over",
        _ => "none",
    };
    format!("{response} {sum} {flag} {under} {over}")
}

#[test]
fn random_days_by_the_paper() {
    for seed in 0..4_000 {
        let bytes = random_days::day(seed).unwrap_or_default();
        assert_eq!(printed(&bytes), by_the_paper(&bytes), "seed {seed}");
    }
}

#[test]
fn program_on_the_data_folders() {
    let root = std::path::Path::new(env!("CARGO_MANIFEST_DIR")).join("../tests/days");
    let mut folders: Vec<_> = std::fs::read_dir(root).unwrap().map(|entry| entry.unwrap().path()).collect();
    folders.sort();
    assert!(folders.len() >= 6);
    for folder in folders {
        let read = |name: &str| std::fs::read(folder.join(name)).unwrap_or_default();
        let expected = String::from_utf8(read("expected")).unwrap();
        assert_eq!(printed(&read("day.bin")) + "\n", expected, "{}", folder.display());
    }
}
