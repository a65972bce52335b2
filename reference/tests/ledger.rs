//! Ledgers of wholesale demand response, worked out by hand; then random ledgers against a second working of the paper.

use conformance::ledger::{run, Call, Calls, Conduct, Date, Ledger};
use conformance::replay::Script;
use conformance::response::{self, Assessment, Flag};
use conformance::{random_ledgers, Refusal};
use std::process::Command;

type Ymd = (u32, u32, u32);

fn date((year, month, day): Ymd) -> Date {
    Date { year, month, day }
}

const INSTANCE: Assessment = Assessment { response: 1_000, target: 24, flag: Flag::Under, under: 0, over: 0 };
const CONFORMANT: Assessment = Assessment { response: 2_000, target: 24, flag: Flag::None, under: 0, over: 0 };
const WITHOUT_DISPATCH: Assessment = Assessment { response: 0, target: 0, flag: Flag::None, under: 0, over: 0 };

/// A ledger after these days, all of them accepted: i instance, c conformant, o without dispatch.
fn ledger(days: &[(char, Ymd)]) -> Ledger {
    let mut ledger = Ledger::new();
    for &(conduct, day) in days {
        assert_eq!(ledger.day(date(day), assessment(conduct)), Ok(()), "{day:?}");
        assert_eq!(ledger.latest(), Some(date(day)));
    }
    ledger
}

fn assessment(conduct: char) -> Assessment {
    match conduct {
        'i' => INSTANCE,
        'c' => CONFORMANT,
        'o' => WITHOUT_DISPATCH,
        _ => panic!("{conduct}"),
    }
}

/// Whether the unit is declared after each of these days.
fn declared(days: &[(char, Ymd)]) -> Vec<bool> {
    (1..=days.len()).map(|count| ledger(&days[..count]).is_declared()).collect()
}

#[track_caller]
fn only_the_last_declares(days: &[(char, Ymd)]) {
    let mut expected = vec![false; days.len()];
    expected[days.len() - 1] = true;
    assert_eq!(declared(days), expected);
}

#[track_caller]
fn none_declares(days: &[(char, Ymd)]) {
    assert_eq!(declared(days), vec![false; days.len()]);
}

#[test]
fn what_a_day_is() {
    let conduct = |target, flag, under, over| Conduct::of(Assessment { response: 5, target, flag, under, over });
    assert_eq!(conduct(0, Flag::None, 0, 0), Conduct::WithoutDispatch);
    assert_eq!(conduct(1, Flag::None, 0, 0), Conduct::Conformant);
    assert_eq!(conduct(1, Flag::Under, 0, 0), Conduct::Instance);
    assert_eq!(conduct(1, Flag::Over, 0, 0), Conduct::Instance);
    assert_eq!(conduct(1, Flag::None, 1, 0), Conduct::Instance);
    assert_eq!(conduct(1, Flag::None, 0, 1), Conduct::Instance);
    assert_eq!(conduct(576_000_000, Flag::Over, 3, 288), Conduct::Instance);
}

#[test]
fn dates() {
    for day in [
        (2_000, 1, 1),
        (2_000, 2, 29),
        (2_004, 2, 29),
        (2_096, 2, 29),
        (2_001, 2, 28),
        (2_050, 4, 30),
        (2_050, 12, 31),
        (2_099, 12, 31),
    ] {
        assert!(date(day).exists(), "{day:?}");
    }
    for day in [
        (1_999, 12, 31),
        (2_100, 1, 1),
        (0, 1, 1),
        (u32::MAX, 1, 1),
        (2_000, 0, 1),
        (2_000, 13, 1),
        (2_000, u32::MAX, 1),
        (2_000, 1, 0),
        (2_000, 1, 32),
        (2_000, 1, u32::MAX),
        (2_000, 2, 30),
        (2_001, 2, 29),
        (2_099, 2, 29),
        (2_050, 4, 31),
        (2_050, 6, 31),
        (2_050, 9, 31),
        (2_050, 11, 31),
        // Right in their lowest bytes.
        (2_050 + 65_536, 1, 1),
        (2_050, 1 + 256, 1),
        (2_050, 1, 1 + 256),
    ] {
        assert!(!date(day).exists(), "{day:?}");
        assert_eq!(Ledger::new().day(date(day), INSTANCE), Err(Refusal::NoSuchDate));
    }
    // 100 years with 25 leap days; each day once.
    let mut at = Date::new(2_000, 1, 1);
    let mut count = 0;
    while at.exists() {
        count += 1;
        at = at.day_after();
    }
    assert_eq!((count, at), (36_525, Date::new(2_100, 1, 1)));
}

#[test]
fn three_months_later() {
    for (day, there) in [
        ((2_001, 1, 1), (2_001, 4, 1)),
        ((2_001, 1, 30), (2_001, 4, 30)),
        ((2_001, 1, 31), (2_001, 4, 30)),
        ((2_001, 2, 28), (2_001, 5, 28)),
        ((2_004, 2, 29), (2_004, 5, 29)),
        ((2_001, 3, 31), (2_001, 6, 30)),
        ((2_001, 4, 30), (2_001, 7, 30)),
        ((2_001, 5, 31), (2_001, 8, 31)),
        ((2_001, 8, 31), (2_001, 11, 30)),
        ((2_001, 9, 30), (2_001, 12, 30)),
        ((2_001, 10, 31), (2_002, 1, 31)),
        ((2_001, 11, 28), (2_002, 2, 28)),
        ((2_001, 11, 29), (2_002, 2, 28)),
        ((2_001, 11, 30), (2_002, 2, 28)),
        ((2_003, 11, 28), (2_004, 2, 28)),
        ((2_003, 11, 29), (2_004, 2, 29)),
        ((2_003, 11, 30), (2_004, 2, 29)),
        ((2_095, 11, 30), (2_096, 2, 29)),
        ((2_001, 12, 31), (2_002, 3, 31)),
        ((2_099, 9, 30), (2_099, 12, 30)),
        // No leap year.
        ((2_099, 11, 30), (2_100, 2, 28)),
    ] {
        assert_eq!(date(day).three_months_later(), date(there), "{day:?}");
    }
}

#[test]
fn the_border() {
    // First, the very day, one day late.
    for (first, second, very_day, late) in [
        ((2_001, 5, 10), (2_001, 6, 1), (2_001, 8, 10), (2_001, 8, 11)),
        ((2_001, 1, 31), (2_001, 2, 28), (2_001, 4, 30), (2_001, 5, 1)),
        ((2_001, 11, 30), (2_001, 12, 31), (2_002, 2, 28), (2_002, 3, 1)),
        ((2_001, 11, 29), (2_002, 1, 1), (2_002, 2, 28), (2_002, 3, 1)),
        ((2_003, 11, 30), (2_004, 1, 31), (2_004, 2, 29), (2_004, 3, 1)),
        ((2_003, 11, 28), (2_004, 1, 31), (2_004, 2, 28), (2_004, 2, 29)),
        ((2_004, 2, 29), (2_004, 4, 1), (2_004, 5, 29), (2_004, 5, 30)),
        ((2_001, 4, 30), (2_001, 5, 31), (2_001, 7, 30), (2_001, 7, 31)),
        ((2_001, 12, 31), (2_002, 1, 31), (2_002, 3, 31), (2_002, 4, 1)),
        ((2_099, 9, 30), (2_099, 10, 31), (2_099, 12, 30), (2_099, 12, 31)),
    ] {
        let after = |day: Ymd| {
            let Date { year, month, day } = date(day).day_after();
            (year, month, day)
        };
        let between = [after(first), after(second)];
        for conformant in 0..4 {
            let days = |third| {
                let mut days = vec![('i', first)];
                if conformant & 1 != 0 {
                    days.push(('c', between[0]));
                }
                days.push(('i', second));
                if conformant & 2 != 0 {
                    days.push(('c', between[1]));
                }
                days.push(('i', third));
                days
            };
            only_the_last_declares(&days(very_day));
            if conformant == 0 {
                only_the_last_declares(&days(late));
            } else {
                none_declares(&days(late));
            }
        }
        // Days without dispatch are not conformant, nor do days before the first lie between.
        only_the_last_declares(&[('i', first), ('o', between[0]), ('i', second), ('o', between[1]), ('i', late)]);
        only_the_last_declares(&[('c', (2_000, 1, 1)), ('i', first), ('i', second), ('i', late)]);
    }
}

#[test]
fn three_in_a_row() {
    only_the_last_declares(&[('i', (2_099, 12, 29)), ('i', (2_099, 12, 30)), ('i', (2_099, 12, 31))]);
    // Years apart, without a conformant day.
    only_the_last_declares(&[('i', (2_000, 1, 1)), ('i', (2_050, 1, 1)), ('o', (2_060, 1, 1)), ('i', (2_099, 12, 31))]);
    // A conformant day before the first and after the second instance, and three within three months.
    only_the_last_declares(&[
        ('c', (2_010, 1, 1)),
        ('i', (2_010, 1, 2)),
        ('i', (2_010, 1, 3)),
        ('c', (2_010, 1, 4)),
        ('i', (2_010, 4, 2)),
    ]);
}

#[test]
fn later_instances() {
    // The latest three count: one day late of the first, in time of the second.
    let four =
        [('i', (2_010, 1, 1)), ('c', (2_010, 1, 2)), ('i', (2_010, 3, 1)), ('i', (2_010, 4, 2)), ('i', (2_010, 6, 1))];
    only_the_last_declares(&four);
    // Late of both: the conformant day lies before the second.
    let mut late = four;
    late[4].1 = (2_010, 6, 2);
    only_the_last_declares(&late);
    // The fifth, after conformant days that lie between for the third and the fourth.
    let mut five = vec![
        ('i', (2_010, 1, 1)),
        ('i', (2_010, 3, 1)),
        ('c', (2_010, 3, 2)),
        ('i', (2_010, 4, 2)),
        ('i', (2_010, 6, 2)),
        ('i', (2_010, 7, 2)),
    ];
    only_the_last_declares(&five);
    five[5].1 = (2_011, 7, 3);
    only_the_last_declares(&five);
    five.insert(5, ('c', (2_010, 6, 3)));
    none_declares(&five);
    five.push(('i', (2_011, 7, 4)));
    five.push(('i', (2_011, 7, 5)));
    only_the_last_declares(&five);
    // No conformant day since the first of the latest three.
    five.remove(5);
    five.insert(3, ('c', (2_010, 3, 3)));
    five.truncate(7);
    only_the_last_declares(&five);
}

#[test]
fn declared_until_reinstated() {
    let mut ledger = ledger(&[('i', (2_010, 1, 1)), ('i', (2_010, 1, 2)), ('i', (2_010, 1, 3))]);
    assert!(ledger.is_declared());
    for (conduct, day) in
        [('c', (2_010, 1, 4)), ('o', (2_010, 1, 5)), ('i', (2_011, 1, 1)), ('c', (2_012, 1, 1)), ('i', (2_013, 1, 1))]
    {
        assert_eq!(ledger.day(date(day), assessment(conduct)), Ok(()));
        assert!(ledger.is_declared());
    }
    assert_eq!(ledger.reinstate(), Ok(()));
    assert!(!ledger.is_declared());
    assert_eq!(ledger.reinstate(), Err(Refusal::UnitNotDeclared));
    // The latest date stays, the instances do not.
    assert_eq!(ledger.latest(), Some(Date::new(2_013, 1, 1)));
    assert_eq!(ledger.day(Date::new(2_013, 1, 1), INSTANCE), Err(Refusal::NotLater));
    for (day, declared) in [(2, false), (3, false), (4, true), (5, true)] {
        assert_eq!(ledger.day(Date::new(2_013, 1, day), INSTANCE), Ok(()));
        assert_eq!(ledger.is_declared(), declared);
    }
    assert_eq!(ledger.reinstate(), Ok(()));
    for (day, declared) in [(6, false), (7, false), (8, true)] {
        assert_eq!(ledger.day(Date::new(2_013, 1, day), INSTANCE), Ok(()));
        assert_eq!(ledger.is_declared(), declared);
    }
}

#[test]
fn refused_calls_change_nothing() {
    let mut ledger = ledger(&[('i', (2_010, 5, 30)), ('o', (2_010, 6, 1)), ('i', (2_010, 6, 15))]);
    let before = ledger.clone();
    for (day, refusal) in [
        ((2_010, 6, 15), Refusal::NotLater),
        ((2_010, 6, 14), Refusal::NotLater),
        ((2_010, 5, 31), Refusal::NotLater),
        ((2_009, 12, 31), Refusal::NotLater),
        ((2_000, 1, 1), Refusal::NotLater),
        ((2_010, 6, 31), Refusal::NoSuchDate),
        // Neither later nor a date.
        ((2_010, 6, 0), Refusal::NoSuchDate),
        ((2_010, 0, 16), Refusal::NoSuchDate),
        ((2_009, 2, 29), Refusal::NoSuchDate),
        ((1_999, 12, 31), Refusal::NoSuchDate),
        ((2_100, 1, 1), Refusal::NoSuchDate),
    ] {
        for conduct in ['i', 'c', 'o'] {
            assert_eq!(ledger.day(date(day), assessment(conduct)), Err(refusal), "{day:?}");
        }
    }
    assert_eq!(ledger.reinstate(), Err(Refusal::UnitNotDeclared));
    assert_eq!(ledger, before);
    // 30 August would be in time; the refused conformant days do not lie between.
    assert_eq!(ledger.day(Date::new(2_010, 8, 31), INSTANCE), Ok(()));
    assert!(ledger.is_declared());
    assert_eq!(Ledger::new().reinstate(), Err(Refusal::UnitNotDeclared));
    // A day without dispatch moves the latest date.
    let mut idle = self::ledger(&[('o', (2_010, 1, 1))]);
    assert_eq!(idle.day(Date::new(2_010, 1, 1), INSTANCE), Err(Refusal::NotLater));
}

/// The file of a day with one record: target and BSQ.
fn file(target: u32, baseline: i32) -> Vec<u8> {
    let mut bytes = vec![0; 3_460];
    bytes[100..104].copy_from_slice(&target.to_le_bytes());
    bytes[104..108].copy_from_slice(&baseline.to_le_bytes());
    bytes
}

fn day(script: &mut Script, day: Ymd, file: &[u8]) {
    script.call(1, &[&date(day).bytes()[..], file].concat());
}

fn text(bytes: &[u8]) -> String {
    let mut out = Vec::new();
    run(bytes, &mut out).unwrap();
    String::from_utf8(out).unwrap()
}

fn a_list() -> (Vec<u8>, &'static str) {
    let mut script = Script::new();
    script.call(2, &[]);
    day(&mut script, (2_001, 2, 29), &file(24, 1_000));
    day(&mut script, (2_001, 2, 28), &file(24, 1_000));
    day(&mut script, (2_001, 2, 28), &file(24, 1_000));
    day(&mut script, (2_001, 3, 1), &file(24, 3_000));
    // 31 and 32 go before 33 and 34.
    day(&mut script, (2_001, 3, 1), &[0; 3]);
    day(&mut script, (2_001, 13, 1), &[]);
    day(&mut script, (2_001, 3, 1), &file(2_000_001, 0));
    day(&mut script, (2_001, 3, 0), &file(24, i32::MIN));
    day(&mut script, (2_001, 3, 2), &file(0, i32::MAX));
    day(&mut script, (2_001, 3, 2), &file(0, 200_000_000));
    day(&mut script, (2_001, 3, 3), &file(24, 2_000));
    day(&mut script, (2_001, 5, 28), &file(12_000, -500_000));
    day(&mut script, (2_001, 5, 29), &file(24, 2_000));
    script.call(2, &[]);
    script.call(2, &[]);
    day(&mut script, (2_001, 5, 29), &file(24, 2_000));
    day(&mut script, (2_001, 5, 30), &file(24, 1_000));
    let printed = "reinstate refused 35
day refused 33
day accepted 1000 24 under 0 0 0
day refused 34
day accepted 3000 24 over 0 0 0
day refused 31
day refused 31
day refused 32
day refused 32
day refused 32
day accepted 0 0 none 0 0 0
day accepted 2000 24 none 0 0 0
day accepted -500000 12000 under 0 0 1
day accepted 2000 24 none 0 0 1
reinstate accepted
reinstate refused 35
day refused 34
day accepted 1000 24 under 0 0 0
";
    (script.into_bytes(), printed)
}

#[test]
fn printed() {
    let (bytes, expected) = a_list();
    assert_eq!(text(&bytes), expected);
    assert_eq!(text(&[]), "");
    assert_eq!(&bytes[8..28], [1, 0, 0, 0, 0x90, 0x0D, 0, 0, 0xD1, 7, 0, 0, 2, 0, 0, 0, 29, 0, 0, 0]);
}

#[test]
fn script_errors() {
    let mut good = Script::new();
    good.call(2, &[]);
    day(&mut good, (2_001, 1, 1), &[1, 2, 3, 4]);
    let good = good.into_bytes();
    let start = "reinstate refused 35\nday refused 31\n";
    let after = |tail: &[u8]| text(&[&good[..], tail].concat());
    let error = format!("{start}script error at byte 32\n");
    assert_eq!(after(&[]), start);
    for length in 1..8 {
        assert_eq!(after(&[2, 0, 0, 0, 0, 0, 0, 0][..length]), error);
        assert_eq!(text(&[2, 0, 0, 0, 0, 0, 0, 0][..length]), "script error at byte 0\n");
    }
    let call = |tag: u32, length: u32, payload: usize| {
        let mut bytes = [tag.to_le_bytes(), length.to_le_bytes()].concat();
        bytes.resize(8 + payload, 0);
        bytes
    };
    // More bytes than there are.
    for (tag, length, payload) in [(1, 3_472, 3_471), (1, 12, 11), (1, 12, 0), (2, 1, 0), (1, u32::MAX, 9_000)] {
        assert_eq!(after(&call(tag, length, payload)), error, "{tag} {length} {payload}");
    }
    // Whole calls that cannot be read, and a call after them.
    for (tag, length) in [
        (0, 0),
        (3, 0),
        (4, 12),
        (257, 12),
        (258, 0),
        (0x0100_0000, 12),
        (u32::MAX, 0),
        (2, 1),
        (2, 4),
        (2, 8_192),
        (1, 0),
        (1, 11),
        (1, 8_193),
        (2, 8_193),
        (3, 8_193),
    ] {
        let tail = [call(tag, length, length as usize), call(2, 0, 0)].concat();
        assert_eq!(after(&tail), error, "{tag} {length}");
    }
    // The shortest day and the longest.
    assert_eq!(after(&call(1, 12, 12)), format!("{start}day refused 31\n"));
    assert_eq!(after(&call(1, 8_192, 8_192)), format!("{start}day refused 31\n"));
    assert_eq!(after(&call(1, 15, 15)), format!("{start}day refused 31\n"));
    assert_eq!(after(&call(1, 3_472, 3_472)), format!("{start}day refused 33\n"));
}

#[test]
fn read_as_calls() {
    let mut script = Script::new();
    day(&mut script, (1, 0x0203_0405, u32::MAX), &[7]);
    script.call(2, &[]);
    script.raw(&[9]);
    let bytes = script.into_bytes();
    let calls: Vec<_> = Calls::new(&bytes).collect();
    let date = Date::new(1, 0x0203_0405, u32::MAX);
    assert_eq!(calls, [Ok(Call::Day { date, file: &[7] }), Ok(Call::Reinstate), Err(29)]);
}

#[test]
fn the_program() {
    let folder = std::path::Path::new(env!("CARGO_TARGET_TMPDIR")).join("response_ledger");
    let file = folder.join("ledger.bin");
    std::fs::create_dir_all(&folder).unwrap();
    let _ = std::fs::remove_file(&file);
    let run = || {
        let ended = Command::new(env!("CARGO_BIN_EXE_response_ledger")).current_dir(&folder).output().unwrap();
        assert_eq!(ended.status.code(), Some(0));
        assert!(ended.stderr.is_empty());
        String::from_utf8(ended.stdout).unwrap()
    };
    assert_eq!(run(), "");
    let (bytes, printed) = a_list();
    for (bytes, printed) in [(vec![], ""), (bytes, printed), (vec![2], "script error at byte 0\n")] {
        std::fs::write(&file, bytes).unwrap();
        assert_eq!(run(), printed);
    }
    std::fs::remove_file(&file).unwrap();
    // Not a file that can be read.
    std::fs::create_dir(&file).unwrap();
    assert_eq!(run(), "");
    std::fs::remove_dir(&file).unwrap();
}

/// A second working: dates as places in a calendar that is written out, and the rule over every three instances in a row.
fn by_the_paper(calendar: &[Ymd], bytes: &[u8]) -> String {
    let mut printed = String::new();
    let word = |at: usize| -> Option<u64> {
        let bytes = bytes.get(at..at + 4)?;
        Some(bytes.iter().rev().fold(0, |word, &byte| 256 * word + u64::from(byte)))
    };
    // Day number, and 0 without dispatch, 1 conformant, 2 instance; all that were ever accepted.
    let mut accepted: Vec<(usize, u8)> = Vec::new();
    // Of those, the ones before the last reinstatement.
    let mut settled = 0;
    let declared = |days: &[(usize, u8)]| {
        let instances: Vec<usize> = days.iter().filter(|day| day.1 == 2).map(|day| day.0).collect();
        instances.windows(3).any(|three| {
            let (year, month, day) = calendar[three[0]];
            let months = 12 * year + month - 1 + 3;
            // The last day of that month whose number is not above; none in 2100, where no day is later.
            let border = calendar.iter().rposition(|&(y, m, d)| 12 * y + m - 1 == months && d <= day);
            let in_time = border.is_none_or(|border| three[2] <= border);
            in_time || (three[0]..three[2]).all(|number| !days.contains(&(number, 1)))
        })
    };
    let mut at = 0;
    while at < bytes.len() {
        let error = format!("script error at byte {at}\n");
        let (Some(tag), Some(length)) = (word(at), word(at + 4)) else { return printed + &error };
        let end = at + 8 + length as usize;
        let readable = (tag == 1 && (12..=8_192).contains(&length)) || (tag == 2 && length == 0);
        if !readable || end > bytes.len() {
            return printed + &error;
        }
        let line = if tag == 2 {
            let stands = declared(&accepted[settled..]);
            settled = if stands { accepted.len() } else { settled };
            if stands { "reinstate accepted" } else { "reinstate refused 35" }.to_string()
        } else {
            let found = response::printed(&bytes[at + 20..end]);
            let parts: Vec<u64> = (0..3).filter_map(|part| word(at + 8 + 4 * part)).collect();
            let number = calendar
                .iter()
                .position(|&(year, month, day)| parts == [u64::from(year), u64::from(month), u64::from(day)]);
            match number {
                _ if found.starts_with("refused") => format!("day {found}"),
                None => "day refused 33".to_string(),
                Some(number) if accepted.iter().any(|day| day.0 >= number) => "day refused 34".to_string(),
                Some(number) => {
                    let conduct = match found.split(' ').collect::<Vec<_>>()[1..] {
                        ["0", ..] => 0,
                        [_, "none", "0", "0"] => 1,
                        _ => 2,
                    };
                    accepted.push((number, conduct));
                    format!("day accepted {found} {}", u8::from(declared(&accepted[settled..])))
                }
            }
        };
        printed += &line;
        printed.push('\n');
        at = end;
    }
    printed
}

#[test]
fn random_ledgers_by_the_paper() {
    let mut calendar = Vec::new();
    for year in 2_000..2_100 {
        let february = if year % 4 == 0 { 29 } else { 28 };
        for (month, days) in (1..).zip([31, february, 31, 30, 31, 30, 31, 31, 30, 31, 30, 31]) {
            calendar.extend((1..=days).map(|day| (year, month, day)));
        }
    }
    for seed in 0..150 {
        let bytes = random_ledgers::list(seed).unwrap_or_default();
        assert_eq!(text(&bytes), by_the_paper(&calendar, &bytes), "seed {seed}");
    }
}

#[test]
fn program_on_the_data_folders() {
    let root = std::path::Path::new(env!("CARGO_MANIFEST_DIR")).join("../tests/ledgers");
    let mut folders: Vec<_> = std::fs::read_dir(root).unwrap().map(|entry| entry.unwrap().path()).collect();
    folders.sort();
    assert!(folders.len() >= 6);
    for folder in folders {
        let read = |name: &str| std::fs::read(folder.join(name)).unwrap_or_default();
        assert_eq!(text(&read("ledger.bin")).into_bytes(), read("expected"), "{}", folder.display());
    }
}
