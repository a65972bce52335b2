//! `statistics FIRST LAST`: what the random lists of these seeds reach, what the random pairs of seeds 1 to 1000 reach, what
//! the random passes of seeds 1 to 12 reach, what the random days of seeds 1 to 2000 reach, and what the random ledgers of
//! seeds 1 to 1000 reach; fails when something stays rare.

use conformance::frames::{HEAD, MAX_PAYLOAD};
use conformance::ledger::{self, Conduct, Date, Ledger};
use conformance::line::{Kind, Line, Quality, LINE};
use conformance::marks::{assess_aggregate, Member, Pass};
use conformance::monitor::{Record, HEADER, HIGHEST_MASK, NON_CONFORMING, NOT_RESPONDING, PENDING};
use conformance::random_ledgers::{Sort, SORTS};
use conformance::random_pairs::{self, Pair};
use conformance::register::REGIONS;
use conformance::replay::{self, Call, Calls, MAX_REPORT};
use conformance::response::{self, Assessment, Flag};
use conformance::{passes, random_calls, random_days, random_ledgers, random_passes};
use conformance::{Look, Mark, Monitor, Plant, Reason, Refusal, Target};
use std::collections::{BTreeMap, BTreeSet};
use std::process::ExitCode;

const MARKS: [&str; 6] = ["OFF", "BLANK", "CLEAR", "DOUBT", "SMALL", "LARGE"];
const STATUSES: [&str; 5] = ["Normal", "Off-Target", "Not-Responding", "NC-Pending", "Non-Conforming"];
const REASONS: [&str; 3] = ["small", "large", "operator"];
const SEMI_SCHEDULED: &str = "semi-scheduled";
/// The tag after the last that a call has.
const FIRST_UNKNOWN: u32 = replay::TARGET + 1;
/// Bounds of an operator's level and their neighbours.
const LEVELS: [i32; 9] = [i32::MIN, -128_000_001, -128_000_000, -1, 0, 1, 128_000_000, 128_000_001, i32::MAX];
/// Least count of each thing for the check to pass.
const LEAST: u64 = 100;
/// Seeds of the random passes.
const PASS_SEEDS: std::ops::RangeInclusive<u64> = 1..=12;
/// What is asked of the passes over members, in lists of calls and for themselves.
const PASSES: [&str; 7] = [
    "ended at the first place of two or more",
    "ended at a middle place",
    "ended at the last place of two or more",
    "looked at all, none unreadable",
    "left an unreadable member beyond its end",
    "went past quality 2 and ended at an unreadable member",
    "went past quality 2 and looked at all",
];
/// What is asked of the declarations by a run whose reason is asked for, of either run.
const RUN_REASONS: [&str; 9] = [
    "BLANK inside the run",
    "DOUBT inside the run",
    "jump inside the run",
    "first mark in manual mode",
    "at its length before the declaring mark",
    "past 255 marks",
    "after a run that OFF ended",
    "after a run that CLEAR ended",
    "marks counted up to the reinstatement before it",
];
/// The same of both runs together.
const FIRST_MARK_AT_1: &str = "reason by a run, first mark in interval 1";
const LAST_MARK_AT_BOUND: &str = "reason by a run, declaring mark in interval 4294967295";
/// The same of one run.
const ONE_RUN_REASONS: [&str; 8] = [
    "small, SMALL and LARGE in the run",
    "small, declared by a LARGE mark",
    "large, alone at its length",
    "large, both at their lengths",
    "large, alone at its length, first mark after the small run's",
    "large, both at their lengths, first mark after the small run's",
    "large, both at their lengths before the declaring mark",
    "large, after a run that SMALL ended",
];
/// What is asked of the time since the declaration, of the runs and of the operator.
const LATER_REASONS: [&str; 7] = [
    "no interval after the declaration",
    "SMALL or LARGE after the declaration",
    "OFF or CLEAR after the declaration",
    "later the small run alone at its length",
    "later the large run at its length",
    "asked again after later intervals",
    "a refused load after the declaration",
];
/// What is asked of the reasons refused.
const NO_REASONS: [&str; 14] = [
    "20, point 0",
    "20, another point",
    "10, point 0",
    "10, the point after the last",
    "10, low byte of a point",
    "10, point 4294967295",
    "36, status Normal",
    "36, status Off-Target",
    "36, status Not-Responding",
    "36, status NC-Pending",
    "36, just reinstated",
    "36, declared before the latest load",
    "36, a run at its length, manual mode",
    "36, a run at its length, automatic mode",
];
/// What is asked of the kept targets.
const TARGETS: [&str; 47] = [
    "0 0 0 0 after a load",
    "0 0 0 0 after a load, other sums before it",
    "KEPT 1",
    "KEPT 0 after an interval",
    "KEPT 1, TARGET below 0",
    "KEPT 1, TARGET 0",
    "KEPT 1, TARGET above 0",
    "KEPT 1, RAISE 0",
    "KEPT 1, RAISE above 0",
    "KEPT 1, LOWER 0",
    "KEPT 1, LOWER above 0",
    "KEPT 0, TARGET below 0",
    "KEPT 0, TARGET above 0",
    "KEPT 0, RAISE above 0",
    "KEPT 0, LOWER above 0",
    "KEPT 0, two or more sums not 0 from beyond the first unreadable",
    "the only member unreadable",
    "the first of two or more alone unreadable",
    "a middle one alone unreadable",
    "the last of two or more alone unreadable",
    "two or more unreadable, another kept",
    "two or more unreadable, another kept between them",
    "all of two or more unreadable",
    "a sum beyond 2000000",
    "chain of 1",
    "chain of 16 or more, KEPT 1",
    "chain of 16 or more, KEPT 0",
    "a member kept with quality 1",
    "a member kept with quality 2",
    "a member kept with conformance mode 0",
    "all members kept with conformance mode 0",
    "a generating unit and a load kept",
    "a bidirectional unit and a load kept",
    "a generating unit and a bidirectional unit kept",
    "loads alone kept",
    "a bidirectional unit kept with a target below 0",
    "after a jump, KEPT 1",
    "after a jump, KEPT 0",
    "a member kept again after it was unreadable",
    "a member unreadable after it was kept",
    "after a refused interval",
    "after a refused interval of other sums",
    "after a refused load",
    "after a declaration by an operator in the group",
    "after a reinstatement in the group",
    "after a declaration by the interval in the group",
    "asked again after the same interval",
];
/// What is asked of the targets refused.
const NO_TARGETS: [&str; 11] = [
    "20, point 0",
    "20, another point",
    "10, unit in no chain",
    "10, unit in a chain",
    "10, the last unit, aggregates above",
    "10, the last unit, no aggregates",
    "10, point 0",
    "10, the point after the last",
    "10, low byte of a point",
    "10, point 4294967295",
    "10, another point",
];
/// What is asked of the chains of accepted registers, and of the calls answered under them.
const CHAINS: [&str; 11] = [
    NO_CHAIN,
    "a rising chain of 3 or more",
    "a falling chain of 3 or more",
    "a chain of 3 or more in another order",
    "chains that interleave",
    "2 chains or more, each a run of neighbours",
    "3 heads or more, rising",
    "3 heads or more, falling",
    "one chain of 64",
    "16 chains of 1",
    "16 chains of 4",
];
const NO_CHAIN: &str = "no chain";
/// The same of a register that came after another of the same units, under which an interval was accepted.
const REGROUPED: [&str; 5] = [
    OTHER_CHAINS,
    "the same chains, of other aggregates",
    "the same members, in another order",
    "other members, chains as long",
    "other members, chains of other lengths",
];
const OTHER_CHAINS: &str = "other chains over the same units";
/// The same of refused loads: after a register of other chains over the same units, any; and after an accepted interval, one of
/// as many units whose chains were walked.
const THEN_REFUSED: [&str; 2] =
    ["other chains over the same units, then a refused load", "then a refused load that walked other chains"];
/// What is asked of the regions of accepted registers.
const REGISTERS: [&str; 9] = [
    "units in 1 region",
    "units in 2 regions",
    "units in 3 regions",
    "units in 4 regions",
    "units in 5 regions",
    "all units in region 0",
    "chains in two regions or more",
    "chains in two regions or more, each of two members or more",
    "the units of before, in other regions",
];
/// What is asked of the registers refused by 4 for a region above 4.
const NO_REGIONS: [&str; 7] = [
    "region 5",
    "region 255",
    "another region",
    "in the first unit",
    "in the last of two units or more",
    "in a register without aggregates",
    "in a register with aggregates",
];
/// What is asked of the registers refused by 37.
const MIXED_REGIONS: [&str; 9] = [
    "the first of three or more members alone apart",
    "the last of three or more members alone apart",
    "a middle one of three or more members alone apart",
    "a chain of two",
    "regions 0 and 4",
    "the first chain of two or more alone",
    "the last chain of two or more alone",
    "two chains or more",
    "its last chain's last member alone apart",
];
/// What is asked of the masks of intervals that are accepted.
const MASKS: [&str; 10] = [
    "mask 0",
    "mask 31",
    "mask of one region",
    "mask of all regions but one",
    "another mask",
    "the bit of a region without units set",
    "regions with units automatic, others manual",
    "regions with units manual, others automatic",
    "the bits of some regions with units flipped, those of others not",
    "the bits of regions without units alone flipped",
];
/// What is asked of the headers refused by 9.
const HEADERS: [&str; 8] = [
    "by the mask alone",
    "by a spare alone",
    "by both",
    "mask 32",
    "mask 255",
    "mask above 31, no region's bit set",
    "mask above 31, some regions' bits set",
    "mask above 31, all regions' bits set",
];
/// What is asked of a point in an accepted interval, of each class.
const REGIONAL: [&str; 8] = [
    "declared, its bit set, another's clear",
    "declared, its bit set, that of a region with units clear",
    "declared, its bit set, that of region 0 clear",
    "2 for 3, its bit clear, another's set",
    "2 for 3, its bit clear, that of a region with units set",
    "2 for 3, its bit clear, that of region 0 set",
    "3, its bit set, that of a region with units clear",
    "waits at its length, its bit clear, that of a region with units set",
];
/// The same of units and of aggregates, in each region.
const IN_EACH_REGION: [&str; 4] = [
    REGIONAL[0],
    REGIONAL[3],
    "3, its bit set, another's clear",
    "waits at its length beside one that the interval declares",
];
/// What is asked of the intervals of pairs of lists that are alike for a group: of those accepted, or refused with 9.
const PAIRS: [&str; 9] = [
    "accepted, masks equal",
    "accepted, masks differ, the group's bit clear",
    "accepted, masks differ, the group's bit set",
    "accepted, masks differ in one bit",
    "accepted, masks differ in all other bits",
    "accepted, masks differ in the bit of a region with units",
    "accepted, masks differ in the bit of region 0",
    "accepted, a cap flag outside the group differs",
    "refused 9, masks above 31 that differ in a region's bit",
];
/// What is asked of the group's points then, of each class.
const OF_PAIRS: [&str; 3] = ["declared, masks differ", "3, masks differ", "2 for 3, masks differ"];
/// Seeds of the random days.
const DAY_SEEDS: std::ops::RangeInclusive<u64> = 1..=2_000;
/// Errors at the thresholds of an interval and beside them.
const ERRORS: [i64; 6] = [-6_000_004, -6_000_000, -5_999_996, 5_999_996, 6_000_000, 6_000_004];
/// What is asked of the days that are assessed: of a day, or of an interval in it.
const DAYS: [&str; 42] = [
    "flag none",
    "flag under",
    "flag over",
    "T 0",
    "exactly 50 %",
    "one Wh under 50 %",
    "one Wh over 50 %",
    "exactly 150 %",
    "one Wh under 150 %",
    "one Wh over 150 %",
    "under intervals",
    "over intervals",
    "under and over intervals",
    "neither under nor over intervals, T not 0",
    "flag none, under or over intervals",
    "flag under, neither under nor over intervals",
    "flag over, neither under nor over intervals",
    "first record left out after an earlier target of 0, otherwise under",
    "first record left out after an earlier target of 0, otherwise over",
    "first record under after an earlier target",
    "first record over after an earlier target",
    "left out after a target of 0, otherwise under",
    "left out after a target of 0, otherwise over",
    "target 0 with a large BSQ - ME above 0, T not 0",
    "target 0 with a large BSQ - ME below 0, T not 0",
    "D with the records of target 0 has another flag",
    "run of zero targets between events",
    "single zero target between events",
    "target 0 in the first record, T not 0",
    "target 0 in the last record, T not 0",
    "D below 0",
    "dispatched, BSQ above 0",
    "dispatched, BSQ below 0",
    "dispatched, ME above 0",
    "dispatched, ME below 0",
    "earlier target 2000000",
    "target 2000000",
    "BSQ 200000000",
    "BSQ -200000000",
    "ME 200000000",
    "ME -200000000",
    "events of two or more intervals, targets from 1 to 200 MW, half of them near",
];
/// What is asked of the days refused by 31.
const DAY_LENGTHS: [&str; 8] = [
    "missing file",
    "fewer than 4 bytes",
    "287 records",
    "289 records",
    "288 records and 1 to 11 bytes more",
    "288 records and 1 to 11 bytes less",
    "one byte over",
    "a value beyond its bound too",
];
/// What is asked of the days refused by 32.
const DAY_VALUES: [&str; 12] = [
    "earlier target",
    "target in the first record",
    "target in a middle record",
    "target in the last record",
    "BSQ above",
    "BSQ below",
    "ME above",
    "ME below",
    "BSQ above, target 0",
    "BSQ below, target 0",
    "ME above, target 0",
    "ME below, target 0",
];
/// Seeds of the random ledgers.
const LEDGER_SEEDS: std::ops::RangeInclusive<u64> = 1..=1_000;
/// Where the third instance falls, against the date three months after the first.
const WHENS: [&str; 5] = ["one day early", "on the very day", "one day late", "days early", "days late"];
/// What is asked of the days that a ledger accepts.
const LEDGERS: [&str; 44] = [
    "without dispatch",
    "conformant",
    "instance",
    "instance by the day's flag under alone",
    "instance by the day's flag over alone",
    "instance by under intervals alone",
    "instance by over intervals alone",
    "instance by under and over intervals alone",
    "instance by the day's flag and intervals",
    "on 1 January 2000",
    "on 29 February",
    "on 29 February 2000",
    "on 29 February 2096",
    "on 1 March",
    "on 31 December",
    "on 31 December 2099",
    "on the day after the latest",
    "three months or more after the latest",
    "first accepted day, instance",
    "first accepted day, without dispatch",
    "third instance declares",
    "third instance does not declare",
    "fourth instance declares",
    "fourth instance does not declare",
    "fifth or later instance declares",
    "fifth or later instance does not declare",
    "one day late, conformant between the first and the second alone",
    "one day late, conformant between the second and the third alone",
    "one day late, conformant in both gaps",
    "one day late, days without dispatch alone between",
    "on the very day, days without dispatch alone between",
    "late, conformant before the first alone",
    "late, a refused conformant day between alone",
    "over the turn of a year, on the very day, a conformant day between",
    "over the turn of a year, one day late, a conformant day between",
    "three months after the first in 2100, a conformant day between",
    "third on 29 February",
    "declares again after a reinstatement",
    "first or second instance after a reinstatement, declares with those before it",
    "while declared, instance",
    "while declared, instance at which the rule does not hold",
    "while declared, conformant",
    "while declared, without dispatch",
    "instance at the end of two or more refused calls",
];
/// What is asked of the days refused by 31 and 32 in a ledger.
const LEDGER_FILES: [&str; 4] = ["no such date", "date not later", "otherwise accepted", "while declared"];
/// What is asked of the days refused by 33.
const NO_DATES: [&str; 20] = [
    "month 0",
    "month 13",
    "month 4294967295",
    "day 0",
    "day 32",
    "day 4294967295",
    "31 of a month of 30 days",
    "29 February of a common year",
    "30 February of a leap year",
    "30 or 31 February of a common year",
    "year 0",
    "year 1999",
    "year 2100",
    "year 4294967295",
    "not later either",
    "later than the latest",
    "before any accepted day",
    "while declared",
    "otherwise the third instance",
    "conformant by its bytes",
];
/// What is asked of the days refused by 34.
const NOT_LATER: [&str; 10] = [
    "the latest date again",
    "the day before the latest",
    "an earlier month, a higher day number",
    "an earlier year, a higher month number",
    "the latest was without dispatch",
    "first after a reinstatement",
    "31 December 2099 reached",
    "while declared",
    "otherwise the third instance",
    "conformant by its bytes",
];
/// What is asked of the reinstatements refused by 35.
const NOT_DECLARED: [&str; 5] =
    ["no accepted day", "no instance", "one instance", "two instances or more", "just reinstated"];
/// Why a call of a ledger cannot be read.
const UNREAD: [&str; 7] = [
    "head cut short",
    "payload over 8192 bytes",
    "payload cut short",
    "unknown tag",
    "reinstatement with a payload",
    "day without a whole date",
    "calls before it and after it",
];

/// Counts under a name.
#[derive(Default)]
struct Counts(BTreeMap<String, u64>);

impl Counts {
    fn add(&mut self, name: String) {
        *self.0.entry(name).or_default() += 1;
    }

    fn answer<T>(&mut self, call: &str, answer: &Result<T, Refusal>) {
        match answer {
            Ok(_) => self.add(format!("{call} accepted")),
            Err(refusal) => self.add(format!("{call} {refusal}")),
        }
    }
}

/// A point's class: loner, semi-scheduled, member, aggregate of one kind, aggregate of mixed kinds.
fn classes(plant: &Plant) -> Vec<&'static str> {
    let mut classes: Vec<&str> = (0..plant.units())
        .map(|unit| if plant.kind(unit) == Kind::SemiScheduled { SEMI_SCHEDULED } else { "loner" })
        .collect();
    for aggregate in 0..plant.aggregates() {
        let members = plant.members(aggregate);
        for &unit in members {
            classes[usize::from(unit)] = "member";
        }
        let loads = members.iter().filter(|&&unit| plant.kind(usize::from(unit)) == Kind::Load).count();
        classes.push(if loads > 0 && loads < members.len() { "mixed" } else { "aggregate" });
    }
    classes
}

/// The chains of a plant.
fn chains_of(plant: &Plant) -> Vec<&[u8]> {
    (0..plant.aggregates()).map(|aggregate| plant.members(aggregate)).collect()
}

/// The bits of the regions that have units.
fn occupied(plant: &Plant) -> u8 {
    (0..plant.units()).fold(0, |mask, unit| mask | 1 << plant.region(unit))
}

/// Counts the regions of an accepted register. `earlier`: the plant before it.
fn count_regions(counts: &mut Counts, earlier: Option<&Plant>, plant: &Plant) {
    let mut add = |reached: bool, what: &str| {
        if reached {
            counts.add(format!("load accepted, {what}"));
        }
    };
    let several = |least: usize| {
        let chains = (0..plant.aggregates()).filter(|&aggregate| plant.members(aggregate).len() >= least);
        chains.map(|aggregate| plant.region(plant.units() + aggregate)).collect::<BTreeSet<u8>>().len() > 1
    };
    let occupied = occupied(plant);
    let regions = occupied.count_ones();
    add(true, &format!("units in {regions} region{}", if regions == 1 { "" } else { "s" }));
    add(occupied == 1, "all units in region 0");
    add(several(1), "chains in two regions or more");
    add(several(2), "chains in two regions or more, each of two members or more");
    let kinds = |plant: &Plant| -> Vec<Kind> { (0..plant.units()).map(|unit| plant.kind(unit)).collect() };
    let regions = |plant: &Plant| -> Vec<u8> { (0..plant.units()).map(|unit| plant.region(unit)).collect() };
    let moved = |earlier: &Plant| kinds(earlier) == kinds(plant) && regions(earlier) != regions(plant);
    add(earlier.is_some_and(moved), "the units of before, in other regions");
}

/// The kind, next and region of each unit, and the heads, of a register whose header is sound.
fn records(register: &[u8]) -> (&[[u8; 4]], &[[u8; 4]]) {
    register[16..].as_chunks::<4>().0.split_at(usize::from(register[0]))
}

/// Counts where the regions above 4 stand in a register refused by 4, if it is for them alone.
fn count_no_regions(counts: &mut Counts, register: &[u8]) {
    let (units, heads) = records(register);
    let places: Vec<usize> = (0..units.len()).filter(|&unit| units[unit][2] >= REGIONS).collect();
    let mut other = register.to_vec();
    places.iter().for_each(|&unit| other[18 + 4 * unit] = 0);
    if Plant::load(&other).err() == Some(Refusal::KindRegionOrSpare) {
        return;
    }
    let mut add = |what: &str| counts.add(format!("load refused 4 by a region alone, {what}"));
    for unit in places {
        add(match units[unit][2] {
            REGIONS => "region 5",
            255 => "region 255",
            _ => "another region",
        });
        if unit == 0 {
            add("in the first unit");
        } else if unit + 1 == units.len() {
            add("in the last of two units or more");
        }
        add(if heads.is_empty() { "in a register without aggregates" } else { "in a register with aggregates" });
    }
}

/// Counts the chains across regions in a register whose chains end: one refused by 7, 30 or 37.
fn count_across(counts: &mut Counts, register: &[u8], refusal: Refusal) {
    let (units, heads) = records(register);
    let chains: Vec<Vec<u8>> = heads
        .iter()
        .map(|head| {
            let mut regions = Vec::new();
            let mut next = head[0];
            while next != 0 {
                let [_, following, region, _] = units[usize::from(next) - 1];
                regions.push(region);
                next = following;
            }
            regions
        })
        .collect();
    let across: Vec<usize> =
        (0..chains.len()).filter(|&chain| chains[chain].iter().any(|&region| region != chains[chain][0])).collect();
    if across.is_empty() {
        return;
    }
    let mut add = |reached: bool, what: &str| {
        if reached {
            counts.add(format!("load {refusal}, {what}"));
        }
    };
    add(true, "a chain across regions");
    // The place of the one member that is apart from all others, of three or more.
    let apart = |regions: &[u8]| {
        let alone = |&place: &usize| {
            let others: Vec<u8> = [&regions[..place], &regions[place + 1..]].concat();
            others.iter().all(|&region| region == others[0] && region != regions[place])
        };
        (0..regions.len()).find(alone).filter(|_| regions.len() >= 3)
    };
    for &chain in &across {
        let regions = &chains[chain];
        let last = regions.len() - 1;
        match apart(regions) {
            Some(0) => add(true, "the first of three or more members alone apart"),
            Some(place) if place == last => {
                add(true, "the last of three or more members alone apart");
                add(across == [chains.len() - 1], "its last chain's last member alone apart");
            }
            Some(_) => add(true, "a middle one of three or more members alone apart"),
            None => {}
        }
        add(last == 1, "a chain of two");
        add(regions.contains(&0) && regions.contains(&4), "regions 0 and 4");
    }
    add(chains.len() > 1 && across == [0], "the first chain of two or more alone");
    add(chains.len() > 1 && across == [chains.len() - 1], "the last chain of two or more alone");
    add(across.len() > 1, "two chains or more");
}

/// Counts the mask of an accepted interval. `earlier`: the mask of the one before, since the load.
fn count_mask(counts: &mut Counts, earlier: Option<u8>, mask: u8, occupied: u8) {
    let mut add = |reached: bool, what: &str| {
        if reached {
            counts.add(format!("interval accepted, {what}"));
        }
    };
    let empty = HIGHEST_MASK & !occupied;
    add(
        true,
        match (mask, mask.count_ones()) {
            (0, _) => "mask 0",
            (HIGHEST_MASK, _) => "mask 31",
            (_, 1) => "mask of one region",
            (_, 4) => "mask of all regions but one",
            _ => "another mask",
        },
    );
    add(mask & empty != 0, "the bit of a region without units set");
    add(empty != 0 && mask == occupied, "regions with units automatic, others manual");
    add(empty != 0 && mask == empty, "regions with units manual, others automatic");
    if let Some(earlier) = earlier {
        let flipped = mask ^ earlier;
        let some = flipped & occupied != 0 && occupied & !flipped != 0;
        add(some, "the bits of some regions with units flipped, those of others not");
        add(flipped != 0 && flipped & occupied == 0, "the bits of regions without units alone flipped");
    }
}

/// Counts a header that is refused with 9.
fn count_header(counts: &mut Counts, buffer: &[u8]) {
    let mut add = |what: &str| counts.add(format!("interval refused 9, {what}"));
    let mask = buffer[4];
    add(match (mask > HIGHEST_MASK, buffer[5..HEADER] == [0; 3]) {
        (true, true) => "by the mask alone",
        (true, false) => "by both",
        _ => "by a spare alone",
    });
    if mask > HIGHEST_MASK {
        match mask {
            32 => add("mask 32"),
            255 => add("mask 255"),
            _ => {}
        }
        add(match mask & HIGHEST_MASK {
            0 => "mask above 31, no region's bit set",
            HIGHEST_MASK => "mask above 31, all regions' bits set",
            _ => "mask above 31, some regions' bits set",
        });
    }
}

/// Counts what an accepted interval's mask makes of its points.
fn count_regional(
    counts: &mut Counts,
    plant: &Plant,
    class: &[&str],
    mask: u8,
    before: &[Look],
    report: &[[u8; conformance::RECORD]],
) {
    let occupied = occupied(plant);
    let records: Vec<Record> = report.iter().map(Record::of).collect();
    let declared = |point: usize| records[point].status == NON_CONFORMING && before[point].status != NON_CONFORMING;
    let any_declared = (0..records.len()).any(declared);
    for (point, record) in records.iter().enumerate() {
        let region = plant.region(point);
        let own = 1u8 << region;
        let automatic = mask & own != 0;
        // Regions in the other mode.
        let others = if automatic { HIGHEST_MASK & !mask } else { mask };
        let reaches = |least: u8, most: u8| record.small >= least || record.large >= most;
        let pending = reaches(plant.small().pending, plant.large().pending);
        let mut met = BTreeSet::new();
        let mut meet = |reached: bool, what: &'static str| {
            if reached {
                met.insert(what);
            }
        };
        if declared(point) {
            meet(others != 0, REGIONAL[0]);
            meet(others & occupied != 0, REGIONAL[1]);
            meet(others & 1 != 0, REGIONAL[2]);
        } else if record.status == NOT_RESPONDING && pending {
            meet(others != 0, REGIONAL[3]);
            meet(others & occupied != 0, REGIONAL[4]);
            meet(others & 1 != 0, REGIONAL[5]);
            let marked = [Mark::Small as u8, Mark::Large as u8].contains(&record.mark);
            let ripe = marked && reaches(plant.small().declaration, plant.large().declaration);
            meet(ripe && others & occupied != 0, REGIONAL[7]);
            meet(ripe && any_declared, IN_EACH_REGION[3]);
        } else if record.status == PENDING {
            meet(others & occupied != 0, REGIONAL[6]);
            meet(others != 0, IN_EACH_REGION[2]);
        }
        let sort = if point < plant.units() { "unit" } else { "aggregate" };
        for what in met {
            counts.add(format!("{} {what}", class[point]));
            counts.add(format!("{sort} in region {region} {what}"));
        }
    }
}

/// What the chains of a plant are.
fn meet_chains(chains: &[&[u8]]) -> BTreeSet<&'static str> {
    let mut met = BTreeSet::new();
    let mut meet = |reached: bool, name| {
        if reached {
            met.insert(name);
        }
    };
    let falls = |units: &[u8]| units.windows(2).all(|pair| pair[0] > pair[1]);
    for chain in chains.iter().filter(|chain| chain.len() >= 3) {
        meet(
            true,
            match (chain.is_sorted(), falls(chain)) {
                (true, _) => "a rising chain of 3 or more",
                (_, true) => "a falling chain of 3 or more",
                _ => "a chain of 3 or more in another order",
            },
        );
    }
    // The lowest and the highest unit of each chain.
    let ends: Vec<(u8, u8)> =
        chains.iter().flat_map(|chain| chain.iter().min().copied().zip(chain.iter().max().copied())).collect();
    let overlap = |(place, &(low, high)): (usize, &(u8, u8))| {
        ends[..place].iter().any(|&(other_low, other_high)| low < other_high && other_low < high)
    };
    meet(ends.iter().enumerate().any(overlap), "chains that interleave");
    let run = |(chain, &(low, high)): (&&[u8], &(u8, u8))| usize::from(high - low) + 1 == chain.len();
    let several = chains.iter().filter(|chain| chain.len() >= 2).count() >= 2;
    meet(several && chains.iter().zip(&ends).all(run), "2 chains or more, each a run of neighbours");
    let heads: Vec<u8> = chains.iter().map(|chain| chain[0]).collect();
    meet(heads.len() >= 3 && heads.is_sorted(), "3 heads or more, rising");
    meet(heads.len() >= 3 && falls(&heads), "3 heads or more, falling");
    let lengths: Vec<usize> = chains.iter().map(|chain| chain.len()).collect();
    meet(lengths.is_empty(), NO_CHAIN);
    meet(lengths == [64], "one chain of 64");
    meet(lengths == [1; 16], "16 chains of 1");
    meet(lengths == [4; 16], "16 chains of 4");
    met
}

/// What the chains of a plant are beside those of an earlier one.
fn meet_regrouped(earlier: &Plant, plant: &Plant) -> BTreeSet<&'static str> {
    let kinds = |plant: &Plant| -> Vec<Kind> { (0..plant.units()).map(|unit| plant.kind(unit)).collect() };
    let (before, now) = (chains_of(earlier), chains_of(plant));
    if kinds(earlier) != kinds(plant) || before == now {
        return BTreeSet::new();
    }
    let sorted = |chains: &[&[u8]]| -> Vec<Vec<u8>> {
        let each = |chain: &&[u8]| {
            let mut units = chain.to_vec();
            units.sort_unstable();
            units
        };
        chains.iter().map(each).collect()
    };
    let set = |chains: &[&[u8]]| -> BTreeSet<Vec<u8>> { chains.iter().map(|chain| chain.to_vec()).collect() };
    let lengths = |chains: &[&[u8]]| -> Vec<usize> { chains.iter().map(|chain| chain.len()).collect() };
    let how = if set(&before) == set(&now) {
        "the same chains, of other aggregates"
    } else if sorted(&before) == sorted(&now) {
        "the same members, in another order"
    } else if lengths(&before) == lengths(&now) {
        "other members, chains as long"
    } else {
        "other members, chains of other lengths"
    };
    BTreeSet::from([OTHER_CHAINS, how])
}

/// What a refused load is, after a register of these chains.
fn meet_refused_load(
    monitor: &Monitor,
    last_number: Option<u32>,
    chains: &BTreeSet<&str>,
    register: &[u8],
    refusal: Refusal,
) -> BTreeSet<&'static str> {
    let walked =
        matches!(refusal, Refusal::MetTwice | Refusal::Unmet | Refusal::SemiScheduledMember | Refusal::MixedRegions);
    let units = monitor.plant().map(|plant| plant.units() as u8);
    let as_many = last_number.is_some() && register.first().copied() == units;
    let reached = [chains.contains(OTHER_CHAINS), walked && as_many];
    THEN_REFUSED.into_iter().zip(reached).filter(|(_, reached)| *reached).map(|(name, _)| name).collect()
}

/// Counts a call under a register of these chains.
fn count_under(counts: &mut Counts, chains: &BTreeSet<&str>, call: &str) {
    chains.iter().for_each(|name| counts.add(format!("chains: {name}: {call}")));
}

/// Counts where semi-scheduled units stand in the chains of a register whose chains end: one refused by 7 or 30.
fn count_chained(counts: &mut Counts, register: &[u8], refusal: Refusal) {
    let (units, heads) = records(register);
    let mut chains = Vec::new();
    for (chain, head) in heads.iter().enumerate() {
        let (mut next, mut first) = (head[0], true);
        while next != 0 {
            let [kind, following, ..] = units[usize::from(next) - 1];
            if kind == Kind::SemiScheduled as u8 {
                chains.push(chain);
                let place = match (first, following) {
                    (true, 0) => "alone",
                    (true, _) => "first",
                    (false, 0) => "last",
                    (false, _) => "between",
                };
                counts.add(format!("load {refusal}, semi-scheduled member {place}"));
            }
            (next, first) = (following, false);
        }
    }
    if let Some(&first) = chains.first() {
        counts.add(format!("load {refusal}, with a semi-scheduled member"));
        if first > 0 {
            counts.add(format!("load {refusal}, semi-scheduled member not in the first chain"));
        }
    }
}

/// Counts what the mark of a semi-scheduled unit came from. `kept`: the line of the interval numbered one less, if readable.
fn count_semi_scheduled(counts: &mut Counts, bytes: &[u8; LINE], kept: Option<Line>, before: Look, record: Record) {
    let mut add = |what: &str| counts.add(format!("{SEMI_SCHEDULED} {what}"));
    let size = 100 * u64::from(record.error.unsigned_abs());
    let trigger = u64::from(record.trigger);
    let mark = |mark: Mark| record.mark == mark as u8;
    if mark(Mark::Clear) && record.error < 0 && size > trigger {
        add(if bytes[0] == 0 { "CLEAR past the trigger, good" } else { "CLEAR past the trigger, substituted" });
    }
    if mark(Mark::Off) && before.small > 0 {
        add("OFF that clears a run");
    }
    if record.mark >= Mark::Clear as u8 && size >= trigger && size <= trigger + 100 {
        let side = if record.error > 0 { "above" } else { "below" };
        add(&format!("error {side}, {} the small trigger", if size == trigger { "at" } else { "just past" }));
    }
    match (Line::read(bytes, Kind::SemiScheduled, false), kept) {
        (None, _) => {
            let mut capped = *bytes;
            capped[2] = 1;
            if Line::read(&capped, Kind::SemiScheduled, false).is_some() {
                add("unreadable by its cap flag alone");
            }
            if bytes[3] != 0 {
                add("unreadable by byte 3");
            }
            if bytes[7] >= 128 {
                add("unreadable by a negative target");
            }
        }
        (Some(line), Some(kept)) => {
            if line.cap_flag != kept.cap_flag {
                add(&format!("cap flag kept {}, in this line {}", kept.cap_flag, line.cap_flag));
            }
            if mark(Mark::Blank) {
                add(&format!("BLANK by quality 2, cap flag kept {}", kept.cap_flag));
            }
        }
        _ => {}
    }
}

/// Counts where the pass over these members ended, and what it went past. Returns what it returned.
fn count_pass(counts: &mut Counts, name: &str, members: &[Member]) -> Pass {
    let mut add = |what: &str| counts.add(format!("{name} {what}"));
    let pass = assess_aggregate(&mut members.iter().copied());
    let (looked_at, beyond) = members.split_at(pass.looked as usize);
    let unreadable = |member: &Member| member.line.is_none();
    let ended = looked_at.last().is_some_and(unreadable);
    match (looked_at.len(), beyond.len()) {
        _ if !ended => add("looked at all, none unreadable"),
        (1, 0) => {}
        (1, _) => add("ended at the first place of two or more"),
        (_, 0) => add("ended at the last place of two or more"),
        _ => add("ended at a middle place"),
    }
    if beyond.iter().any(unreadable) {
        add("left an unreadable member beyond its end");
    }
    if looked_at.iter().any(|member| member.line.is_some_and(|line| line.quality == Quality::Bad)) {
        add(if ended {
            "went past quality 2 and ended at an unreadable member"
        } else {
            "went past quality 2 and looked at all"
        });
    }
    pass
}

/// Counts what the random passes reach.
fn count_random_passes(counts: &mut Counts) {
    for seed in PASS_SEEDS {
        for case in passes::cases(&random_passes::blocks(seed)) {
            let chains = case.chains();
            counts.answer("passes: register", &chains);
            if let Ok((plant, _)) = Plant::load(case.register) {
                for name in meet_chains(&chains_of(&plant)) {
                    counts.add(format!("passes: register, {name}"));
                }
            }
            for members in chains.iter().flatten() {
                let pass = count_pass(counts, "passes: pass", members);
                counts.add(format!("passes: mark {}", MARKS[pass.assessment.mark as usize]));
                let length = members.len();
                let mut add = |what: &str| counts.add(format!("passes: chain of {length}, {what}"));
                if ![1, 60, 64].contains(&length) {
                    continue;
                }
                match (members[pass.looked as usize - 1].line, pass.looked as usize) {
                    (Some(_), _) => add("none unreadable"),
                    (None, 1) => add("the first unreadable"),
                    _ => {}
                }
                if members[length - 1].line.is_none() && pass.looked as usize == length {
                    add("the last unreadable");
                }
            }
        }
    }
}

/// Counts what the random pairs reach.
fn count_random_pairs(counts: &mut Counts) {
    for seed in random_pairs::SEEDS {
        let Pair { first, second, points } = random_pairs::pair(seed);
        let mut others = Calls::new(&second).filter_map(|call| match call {
            Ok(Call::Interval { buffer, .. }) => Some(buffer),
            _ => None,
        });
        let mut points = points.iter();
        let mut monitor = Monitor::new();
        let mut report = [0; MAX_REPORT];
        let (mut group, mut class) = (Vec::new(), Vec::new());
        for call in Calls::new(&first) {
            match call {
                Ok(Call::Load(register)) => {
                    let answer = monitor.load(register);
                    if let (Ok(_), Some(plant)) = (answer, monitor.plant()) {
                        group = points.next().map_or(Vec::new(), |&point| random_pairs::group(plant, point));
                        class = classes(plant);
                    }
                }
                Ok(Call::Interval { report: length, buffer }) if !group.is_empty() => {
                    let Some(other) = others.next() else { continue };
                    let before: Vec<Look> = group.iter().flat_map(|&point| monitor.look(point)).collect();
                    let report = &mut report[..length];
                    let answer = monitor.interval(buffer, report);
                    let Some(plant) = monitor.plant() else { continue };
                    count_pair(counts, plant, group[0], answer, [buffer, other]);
                    if answer.is_err() || buffer[4] == other[4] {
                        continue;
                    }
                    for (&point, before) in group.iter().zip(before) {
                        let point = point as usize - 1;
                        let record = Record::of(&report.as_chunks().0[point]);
                        let pending = record.small >= plant.small().pending || record.large >= plant.large().pending;
                        let what = match record.status {
                            NON_CONFORMING if before.status != NON_CONFORMING => OF_PAIRS[0],
                            PENDING => OF_PAIRS[1],
                            NOT_RESPONDING if pending => OF_PAIRS[2],
                            _ => continue,
                        };
                        counts.add(format!("pairs: {} {what}", class[point]));
                    }
                }
                Ok(Call::Declare { point, level }) => drop(monitor.declare(point, level)),
                Ok(Call::Reinstate { point }) => drop(monitor.reinstate(point)),
                _ => {}
            }
        }
    }
}

/// Counts an interval of both lists.
fn count_pair(counts: &mut Counts, plant: &Plant, point: u32, answer: Result<(), Refusal>, buffers: [&[u8]; 2]) {
    let mut add = |reached: bool, what: &str| {
        if reached {
            counts.add(format!("pairs: {what}"));
        }
    };
    let [buffer, other] = buffers;
    let region = plant.region(point as usize - 1);
    match answer {
        Ok(()) => {
            let flipped = buffer[4] ^ other[4];
            let automatic = buffer[4] >> region & 1 == 1;
            add(flipped == 0, PAIRS[0]);
            add(flipped != 0 && !automatic, PAIRS[1]);
            add(flipped != 0 && automatic, PAIRS[2]);
            add(flipped.count_ones() == 1, PAIRS[3]);
            add(flipped == HIGHEST_MASK & !(1 << region), PAIRS[4]);
            add(flipped & occupied(plant) != 0, PAIRS[5]);
            add(flipped & 1 != 0, PAIRS[6]);
            let group = random_pairs::group(plant, point);
            let outside = |&unit: &usize| !group.contains(&(unit as u32 + 1));
            let flag = |unit: usize| HEADER + LINE * unit + 2;
            let mut units = (0..plant.units()).filter(|&unit| plant.kind(unit) == Kind::SemiScheduled).filter(outside);
            add(units.any(|unit| buffer[flag(unit)] != other[flag(unit)]), PAIRS[7]);
        }
        Err(Refusal::Header) => {
            let above = buffer[4].min(other[4]) > HIGHEST_MASK;
            add(above && (buffer[4] ^ other[4]) & HIGHEST_MASK != 0, PAIRS[8]);
        }
        Err(_) => {}
    }
}

/// Counts what the random days reach.
fn count_random_days(counts: &mut Counts) {
    for seed in DAY_SEEDS {
        let day = random_days::day(seed);
        let bytes = day.as_deref().unwrap_or_default();
        let answer = response::assess_file(bytes);
        counts.answer("days:", &answer);
        let mut met = BTreeSet::new();
        if day.is_none() {
            met.insert("missing file");
        } else if bytes.len() < response::EARLIER {
            met.insert("fewer than 4 bytes");
        }
        if let Some((&earlier, records)) = bytes.split_first_chunk() {
            let earlier = u32::from_le_bytes(earlier);
            let records: Vec<response::Record> = records.as_chunks().0.iter().map(response::Record::read).collect();
            match answer {
                Ok(found) => meet_assessed(counts, &mut met, earlier, &records, found),
                Err(Refusal::DayLength) => meet_length(&mut met, earlier, &records, bytes.len()),
                Err(_) => {
                    meet_beyond(&mut met, earlier, &records);
                    // A value in a record of target 0 has two names.
                    let alone: Vec<&str> =
                        met.iter().copied().filter(|name| !met.contains(&*format!("{name}, target 0"))).collect();
                    if let [name] = alone[..] {
                        counts.add(format!("days: refused 32, alone, {name}"));
                    }
                }
            }
        }
        for name in met {
            match answer {
                Ok(_) => counts.add(format!("days: {name}")),
                Err(refusal) => counts.add(format!("days: {refusal}, {name}")),
            }
        }
    }
}

/// What a file of another length is.
fn meet_length(met: &mut BTreeSet<&str>, earlier: u32, records: &[response::Record], length: usize) {
    let whole = response::EARLIER + response::RECORDS * response::RECORD;
    met.insert(match length as i64 - whole as i64 {
        -12 => "287 records",
        12 => "289 records",
        -11..=-1 => "288 records and 1 to 11 bytes less",
        1..=11 => "288 records and 1 to 11 bytes more",
        _ => "another length",
    });
    if length == whole + 1 {
        met.insert("one byte over");
    }
    if earlier > response::TARGET_BOUND || !records.iter().all(|record| record.is_within_bounds()) {
        met.insert("a value beyond its bound too");
    }
}

/// Which values are beyond their bounds.
fn meet_beyond(met: &mut BTreeSet<&str>, earlier: u32, records: &[response::Record]) {
    if earlier > response::TARGET_BOUND {
        met.insert("earlier target");
    }
    let bound = response::ENERGY_BOUND as i32;
    for (place, record) in records.iter().enumerate() {
        if record.target > response::TARGET_BOUND {
            met.insert(match place {
                0 => "target in the first record",
                287 => "target in the last record",
                _ => "target in a middle record",
            });
        }
        for (beyond, name, of_zero) in [
            (record.baseline > bound, "BSQ above", "BSQ above, target 0"),
            (record.baseline < -bound, "BSQ below", "BSQ below, target 0"),
            (record.metered > bound, "ME above", "ME above, target 0"),
            (record.metered < -bound, "ME below", "ME below, target 0"),
        ] {
            if beyond {
                met.insert(name);
                if record.target == 0 {
                    met.insert(of_zero);
                }
            }
        }
    }
}

/// What an assessed day meets. Counts the errors of its intervals.
fn meet_assessed(
    counts: &mut Counts,
    met: &mut BTreeSet<&str>,
    earlier: u32,
    records: &[response::Record],
    found: Assessment,
) {
    let mut meet = |reached: bool, name| {
        if reached {
            met.insert(name);
        }
    };
    let Assessment { response, target, flag, under, over } = found;
    let flag_name = |flag| match flag {
        Flag::None => "flag none",
        Flag::Under => "flag under",
        Flag::Over => "flag over",
    };
    meet(true, flag_name(flag));
    meet(target == 0, "T 0");
    let dispatched = target != 0;
    for (thousands, names) in [
        (1_000, ["exactly 50 %", "one Wh under 50 %", "one Wh over 50 %"]),
        (3_000, ["exactly 150 %", "one Wh under 150 %", "one Wh over 150 %"]),
    ] {
        match 24 * response - thousands * i64::from(target) {
            0 => meet(dispatched, names[0]),
            -24 => meet(dispatched, names[1]),
            24 => meet(dispatched, names[2]),
            // 150 % is always a whole number of Wh.
            -23..=-1 => meet(true, "the last Wh under 50 %, none being at it"),
            1..=23 => meet(true, "the first Wh over 50 %, none being at it"),
            _ => {}
        }
    }
    let quiet = dispatched && under == 0 && over == 0;
    meet(under > 0, "under intervals");
    meet(over > 0, "over intervals");
    meet(under > 0 && over > 0, "under and over intervals");
    meet(quiet, "neither under nor over intervals, T not 0");
    meet(flag == Flag::None && under + over > 0, "flag none, under or over intervals");
    meet(flag == Flag::Under && quiet, "flag under, neither under nor over intervals");
    meet(flag == Flag::Over && quiet, "flag over, neither under nor over intervals");
    meet(under == 288, "288 under intervals");
    meet(over == 288, "288 over intervals");
    meet(response < 0, "D below 0");
    meet(response.abs() == 115_200_000_000, "D at its greatest size");
    meet(target == 576_000_000, "T at its greatest");
    meet(earlier == 2_000_000, "earlier target 2000000");

    let before = |place: usize| place.checked_sub(1).map_or(earlier, |place| records[place].target);
    let (mut near, mut counted) = (0, 0);
    for (place, &record) in records.iter().enumerate() {
        meet(record.target == 2_000_000, "target 2000000");
        meet(record.baseline == 200_000_000, "BSQ 200000000");
        meet(record.baseline == -200_000_000, "BSQ -200000000");
        meet(record.metered == 200_000_000, "ME 200000000");
        meet(record.metered == -200_000_000, "ME -200000000");
        if record.target == 0 {
            meet(dispatched && record.response() >= 1_000_000, "target 0 with a large BSQ - ME above 0, T not 0");
            meet(dispatched && record.response() <= -1_000_000, "target 0 with a large BSQ - ME below 0, T not 0");
            continue;
        }
        meet(record.baseline > 0, "dispatched, BSQ above 0");
        meet(record.baseline < 0, "dispatched, BSQ below 0");
        meet(record.metered > 0, "dispatched, ME above 0");
        meet(record.metered < 0, "dispatched, ME below 0");
        match (place, before(place), record.flag()) {
            (0, 0, Flag::Under) => meet(true, "first record left out after an earlier target of 0, otherwise under"),
            (0, 0, Flag::Over) => meet(true, "first record left out after an earlier target of 0, otherwise over"),
            (0, _, Flag::Under) => meet(true, "first record under after an earlier target"),
            (0, _, Flag::Over) => meet(true, "first record over after an earlier target"),
            (_, 0, Flag::Under) => meet(true, "left out after a target of 0, otherwise under"),
            (_, 0, Flag::Over) => meet(true, "left out after a target of 0, otherwise over"),
            _ => {}
        }
        if before(place) != 0 {
            counted += 1;
            near += usize::from(record.flag() == Flag::None && (1_000..=200_000).contains(&record.target));
            let error = record.error();
            if ERRORS.contains(&error) {
                counts.add(format!("days: interval with an error of {error}"));
            }
        }
    }
    meet(
        counted >= 2 && 2 * near >= counted,
        "events of two or more intervals, targets from 1 to 200 MW, half of them near",
    );

    // The same sums with the records of target 0.
    let whole: i64 = records.iter().map(|record| record.response()).sum();
    let other = Flag::of_day(whole, target);
    meet(other != flag, "D with the records of target 0 has another flag");

    let zero = |place: usize| records[place].target == 0;
    meet(dispatched && zero(0), "target 0 in the first record, T not 0");
    meet(dispatched && zero(287), "target 0 in the last record, T not 0");
    let mut events = (0..288).filter(|&place| !zero(place));
    let mut last = events.next();
    for place in events {
        match last.map(|last| place - last) {
            Some(2) => meet(true, "single zero target between events"),
            Some(3..) => meet(true, "run of zero targets between events"),
            _ => {}
        }
        last = Some(place);
    }
}

fn sort_name(sort: Sort) -> &'static str {
    match sort {
        Sort::ToThirty => "31, to a month of 30 days",
        Sort::ThirtyToTwentyEight => "30 November, to 28 February",
        Sort::ThirtyToTwentyNine => "30 November, to 29 February",
        Sort::TwentyNineToTwentyEight => "29 November, to 28 February",
        Sort::ToLeapFebruary => "28 or 29 November, to a February of 29 days",
        Sort::LastToLonger => "the last of a month, to a longer one",
        Sort::LastToLast => "the last of a month, to one as long",
        Sort::Other => "any other date",
    }
}

/// Counts what the random ledgers reach.
fn count_random_ledgers(counts: &mut Counts) {
    let (mut bytes, mut longest, mut calls, mut most) = (0, 0, 0, 0);
    for seed in LEDGER_SEEDS {
        let list = random_ledgers::list(seed);
        if list.as_ref().is_none_or(Vec::is_empty) {
            counts.add(format!("ledgers: {}", if list.is_none() { "missing file" } else { "empty file" }));
        }
        let list = list.unwrap_or_default();
        bytes += list.len();
        longest = longest.max(list.len());
        let mut watch = Watch::default();
        for call in ledger::Calls::new(&list) {
            let answer = match call {
                Ok(ledger::Call::Day { date, file }) => watch.day(counts, date, file),
                Ok(ledger::Call::Reinstate) => watch.reinstate(counts),
                Err(place) => {
                    count_unread(counts, &list, place);
                    continue;
                }
            };
            watch.refused_in_a_row = if answer.is_ok() { 0 } else { watch.refused_in_a_row + 1 };
            watch.calls += 1;
        }
        calls += watch.calls;
        most = most.max(watch.calls);
    }
    println!("ledgers: {bytes} bytes, longest {longest}, {calls} calls that can be read, most in one {most}");
}

/// Why the call at this place cannot be read.
fn count_unread(counts: &mut Counts, list: &[u8], place: usize) {
    let rest = &list[place..];
    let word = |at: usize| rest[at..at + 4].iter().rev().fold(0, |word, &byte| 256 * word + usize::from(byte));
    let mut add = |what: &str| counts.add(format!("ledgers: script error, {what}"));
    if rest.len() < HEAD {
        add("head cut short");
        return;
    }
    let (tag, length) = (word(0), word(4));
    add(match (tag, length) {
        _ if length > MAX_PAYLOAD => "payload over 8192 bytes",
        _ if length > rest.len() - HEAD => "payload cut short",
        (1, _) => "day without a whole date",
        (2, _) => "reinstatement with a payload",
        _ => "unknown tag",
    });
    if place == 0 {
        add("in the first call");
    } else if rest.len() > HEAD + length {
        add("calls before it and after it");
    }
}

/// A ledger that is run again, and what it does not tell.
#[derive(Default)]
struct Watch {
    ledger: Ledger,
    calls: usize,
    refused_in_a_row: usize,
    reinstatements: usize,
    /// Accepted instances before the last reinstatement.
    before: Vec<Date>,
    /// For each conformant day that was refused since, the accepted days that there were.
    refused: Vec<usize>,
}

/// Places of three instances among the days: the last three.
fn latest_three(days: &[(Date, Conduct)]) -> Option<[usize; 3]> {
    let instances: Vec<usize> = (0..days.len()).filter(|&place| days[place].1 == Conduct::Instance).collect();
    instances.last_chunk().copied()
}

impl Watch {
    fn instances(&self) -> usize {
        self.ledger.days().iter().filter(|(_, conduct)| *conduct == Conduct::Instance).count()
    }

    fn reinstate(&mut self, counts: &mut Counts) -> Result<(), Refusal> {
        let days = self.ledger.days().to_vec();
        let instances = self.instances();
        let answer = self.ledger.reinstate();
        counts.answer("ledgers: reinstate", &answer);
        if answer.is_ok() {
            self.reinstatements += 1;
            let instances = days.iter().filter(|(_, conduct)| *conduct == Conduct::Instance);
            self.before.extend(instances.map(|&(date, _)| date));
            self.refused.clear();
        } else {
            let mut add = |what: &str| counts.add(format!("ledgers: reinstate refused 35, {what}"));
            add(match instances {
                _ if self.ledger.latest().is_none() => "no accepted day",
                _ if days.is_empty() => "just reinstated",
                0 => "no instance",
                1 => "one instance",
                _ => "two instances or more",
            });
        }
        answer
    }

    fn day(&mut self, counts: &mut Counts, date: Date, file: &[u8]) -> Result<(), Refusal> {
        let declared = self.ledger.is_declared();
        let latest = self.ledger.latest();
        let answer = self.ledger.day_of_file(date, file);
        counts.answer("ledgers: day", &answer);
        let mut met = BTreeSet::new();
        match answer {
            Ok(found) => {
                self.meet_accepted(counts, &mut met, latest, declared, found);
                met.iter().for_each(|name| counts.add(format!("ledgers: {name}")));
            }
            Err(refusal) => {
                if declared {
                    met.insert("while declared");
                }
                self.meet_refused(&mut met, date, file, refusal);
                met.iter().for_each(|name| counts.add(format!("ledgers: day {refusal}, {name}")));
            }
        }
        answer.map(|_| ())
    }

    fn meet_accepted(
        &self,
        counts: &mut Counts,
        met: &mut BTreeSet<&str>,
        latest: Option<Date>,
        declared: bool,
        found: Assessment,
    ) {
        let mut meet = |reached: bool, name| {
            if reached {
                met.insert(name);
            }
        };
        let days = self.ledger.days();
        let (date, conduct) = days[days.len() - 1];
        meet(true, conduct_name(conduct));
        meet(latest.is_none() && conduct == Conduct::Instance, "first accepted day, instance");
        meet(latest.is_none() && conduct == Conduct::WithoutDispatch, "first accepted day, without dispatch");
        match (date.year, date.month, date.day) {
            (2_000, 1, 1) => meet(true, "on 1 January 2000"),
            (year, 2, 29) => {
                meet(true, "on 29 February");
                meet(year == 2_000, "on 29 February 2000");
                meet(year == 2_096, "on 29 February 2096");
            }
            (_, 3, 1) => meet(true, "on 1 March"),
            (year, 12, 31) => {
                meet(true, "on 31 December");
                meet(year == 2_099, "on 31 December 2099");
            }
            _ => {}
        }
        if let Some(latest) = latest {
            meet(latest.day_after() == date, "on the day after the latest");
            meet(latest.three_months_later() <= date, "three months or more after the latest");
        }
        if declared {
            meet(true, while_declared(conduct));
        }
        if conduct != Conduct::Instance {
            return;
        }
        meet(self.refused_in_a_row >= 2, "instance at the end of two or more refused calls");
        meet(
            true,
            match (found.flag, found.under, found.over) {
                (Flag::Under, 0, 0) => "instance by the day's flag under alone",
                (Flag::Over, 0, 0) => "instance by the day's flag over alone",
                (Flag::None, _, 0) => "instance by under intervals alone",
                (Flag::None, 0, _) => "instance by over intervals alone",
                (Flag::None, _, _) => "instance by under and over intervals alone",
                _ => "instance by the day's flag and intervals",
            },
        );

        let instances = self.instances();
        let Some([first, second, third]) = latest_three(days) else {
            // The same with the instances before the reinstatement.
            let mut all = self.before.clone();
            all.extend(days.iter().filter(|(_, conduct)| *conduct == Conduct::Instance).map(|&(date, _)| date));
            let within = all.last_chunk().is_some_and(|[first, _, third]| *third <= first.three_months_later());
            meet(within, "first or second instance after a reinstatement, declares with those before it");
            return;
        };
        let any = |places: std::ops::Range<usize>, wanted| days[places].iter().any(|&(_, conduct)| conduct == wanted);
        let conformant = any(first..third, Conduct::Conformant);
        let without_dispatch = any(first..third, Conduct::WithoutDispatch);
        let border = days[first].0.three_months_later();
        let in_time = date <= border;
        let holds = in_time || !conformant;
        if declared {
            meet(!holds, "while declared, instance at which the rule does not hold");
            return;
        }
        meet(
            true,
            match (instances, holds) {
                (3, true) => "third instance declares",
                (3, false) => "third instance does not declare",
                (4, true) => "fourth instance declares",
                (4, false) => "fourth instance does not declare",
                (_, true) => "fifth or later instance declares",
                (_, false) => "fifth or later instance does not declare",
            },
        );
        let when = match border {
            _ if date == border => "on the very day",
            _ if date.day_after() == border => "one day early",
            _ if border.day_after() == date => "one day late",
            _ if in_time => "days early",
            _ => "days late",
        };
        let between = if conformant { "a conformant day between" } else { "no conformant day between" };
        counts.add(format!("ledgers: {when}, {between}"));
        if conformant {
            counts.add(format!("ledgers: first on {}, {when}, {between}", sort_name(Sort::of(days[first].0))));
        }
        let (one_late, very_day) = (when == "one day late", when == "on the very day");
        if one_late {
            match (any(first..second, Conduct::Conformant), any(second..third, Conduct::Conformant)) {
                (true, false) => meet(true, "one day late, conformant between the first and the second alone"),
                (false, true) => meet(true, "one day late, conformant between the second and the third alone"),
                (true, true) => meet(true, "one day late, conformant in both gaps"),
                _ => meet(without_dispatch, "one day late, days without dispatch alone between"),
            }
        }
        let alone = !conformant && without_dispatch;
        meet(very_day && alone, "on the very day, days without dispatch alone between");
        let late_without = !in_time && !conformant;
        meet(late_without && any(0..first, Conduct::Conformant), "late, conformant before the first alone");
        let refused = self.refused.iter().any(|&place| first < place && place <= third);
        meet(late_without && refused, "late, a refused conformant day between alone");
        let turn = conformant && days[first].0.year < date.year;
        meet(turn && very_day, "over the turn of a year, on the very day, a conformant day between");
        meet(turn && one_late, "over the turn of a year, one day late, a conformant day between");
        meet(border.year == 2_100 && conformant, "three months after the first in 2100, a conformant day between");
        meet((date.month, date.day) == (2, 29), "third on 29 February");
        meet(holds && self.reinstatements > 0, "declares again after a reinstatement");
    }

    fn meet_refused(&mut self, met: &mut BTreeSet<&str>, date: Date, file: &[u8], refusal: Refusal) {
        let latest = self.ledger.latest();
        let not_later = latest.is_some_and(|latest| date <= latest);
        let days = self.ledger.days();
        let third = self.instances() == 2;
        let mut meet = |reached: bool, name| {
            if reached {
                met.insert(name);
            }
        };
        match refusal {
            Refusal::DayLength | Refusal::DayValue => {
                meet(!date.exists(), "no such date");
                meet(date.exists() && not_later, "date not later");
                meet(date.exists() && !not_later, "otherwise accepted");
                meet(file.is_empty(), "no bytes after the date");
                meet((1..response::EARLIER).contains(&file.len()), "fewer than 4 bytes after the date");
                meet(ledger::DATE + file.len() == MAX_PAYLOAD, "payload of 8192 bytes");
                return;
            }
            Refusal::NoSuchDate => {
                meet(true, no_date_name(date));
                meet(not_later, "not later either");
                meet(latest.is_some() && !not_later, "later than the latest");
                meet(latest.is_none(), "before any accepted day");
            }
            _ => {
                let Some(latest) = latest else { return };
                meet(date == latest, "the latest date again");
                meet(date.day_after() == latest, "the day before the latest");
                let same_year = date.year == latest.year;
                meet(same_year && date.month < latest.month && date.day > latest.day, NOT_LATER[2]);
                meet(date.year < latest.year && date.month > latest.month, NOT_LATER[3]);
                let idle = days.last().is_some_and(|(_, conduct)| *conduct == Conduct::WithoutDispatch);
                meet(idle, "the latest was without dispatch");
                meet(days.is_empty(), "first after a reinstatement");
                meet(latest == Date::new(2_099, 12, 31), "31 December 2099 reached");
            }
        }
        let conduct = response::assess_file(file).map(Conduct::of);
        meet(third && conduct == Ok(Conduct::Instance), "otherwise the third instance");
        if conduct == Ok(Conduct::Conformant) {
            meet(true, "conformant by its bytes");
            self.refused.push(days.len());
        }
    }
}

fn conduct_name(conduct: Conduct) -> &'static str {
    match conduct {
        Conduct::WithoutDispatch => "without dispatch",
        Conduct::Conformant => "conformant",
        Conduct::Instance => "instance",
    }
}

fn while_declared(conduct: Conduct) -> &'static str {
    match conduct {
        Conduct::WithoutDispatch => "while declared, without dispatch",
        Conduct::Conformant => "while declared, conformant",
        Conduct::Instance => "while declared, instance",
    }
}

/// The part for which there is no such date, if it is one.
fn no_date_name(date: Date) -> &'static str {
    let Date { year, month, day } = date;
    let (year_fits, month_fits) = (ledger::YEARS.contains(&year), (1..=12).contains(&month));
    match (year_fits, month_fits, (1..=31).contains(&day)) {
        (false, true, true) => match year {
            0 => "year 0",
            1_999 => "year 1999",
            2_100 => "year 2100",
            u32::MAX => "year 4294967295",
            _ => "another year",
        },
        (true, false, true) => match month {
            0 => "month 0",
            13 => "month 13",
            u32::MAX => "month 4294967295",
            _ => "another month",
        },
        (true, true, false) => match day {
            0 => "day 0",
            32 => "day 32",
            u32::MAX => "day 4294967295",
            _ => "another day",
        },
        (true, true, true) => match (month, day) {
            (2, 29) => "29 February of a common year",
            (2, 30) if ledger::is_leap(year) => "30 February of a leap year",
            (2, _) if ledger::is_leap(year) => "31 February of a leap year",
            (2, _) => "30 or 31 February of a common year",
            _ => "31 of a month of 30 days",
        },
        _ => "two parts or more",
    }
}

fn is_member(plant: &Plant, unit: usize) -> bool {
    !plant.loners().contains(&(unit as u8))
}

/// What a point's level depends on: a unit's kind, in a chain or in none, or that it is an aggregate.
fn place(plant: &Plant, point: usize) -> String {
    if point >= plant.units() {
        return "aggregate".into();
    }
    let chain = if is_member(plant, point) { "a chain" } else { "no chain" };
    format!("kind {} in {chain}", plant.kind(point) as u8)
}

/// Counts the MW at which an interval declares a point; its lines are readable then.
fn count_declared(counts: &mut Counts, plant: &Plant, point: usize, lines: &[[u8; LINE]]) {
    let mut add = |what: &str| counts.add(format!("interval declares, {}, {what}", place(plant, point)));
    let power =
        |unit: usize| Line::read(&lines[unit], plant.kind(unit), is_member(plant, unit)).map_or(0, |line| line.power);
    let declared_at: i32 = match point.checked_sub(plant.units()) {
        None => power(point),
        Some(aggregate) => {
            let members = plant.members(aggregate).iter().map(|&unit| usize::from(unit));
            if members.clone().any(|unit| power(unit) < 0 && plant.kind(unit) != Kind::Bidirectional) {
                add("a member of kind 1 or 2 below 0");
            }
            members.map(|unit| if plant.kind(unit) == Kind::Load { -power(unit) } else { power(unit) }).sum()
        }
    };
    match declared_at {
        ..0 => add("MW below 0"),
        0 => add("MW 0"),
        1 => add("MW 1"),
        _ => {}
    }
}

/// Counts an operator's level, by what would have become of the call without the rule of its sign.
fn count_level(counts: &mut Counts, place: &str, level: i32, before: Look, answer: Result<(), Refusal>) {
    if LEVELS.contains(&level) {
        counts.add(format!("declare {level}, {place}"));
    }
    let declarable = matches!(before.status, NOT_RESPONDING | PENDING);
    match answer {
        Ok(()) if level < 0 => counts.add(format!("declare below 0 accepted, {place}")),
        Ok(()) if level == 0 => counts.add(format!("declare 0 accepted, {place}")),
        Err(Refusal::Level) if (-128_000_000..=128_000_000).contains(&level) => {
            let otherwise = if declarable { "accepted" } else { "refused 22" };
            counts.add(format!("declare refused 11 by the sign alone, otherwise {otherwise}, {place}"));
        }
        _ => {}
    }
}

/// A mark of a point.
#[derive(Clone, Copy)]
struct Marked {
    number: u32,
    automatic: bool,
    mark: u8,
}

impl Marked {
    fn is(self, mark: Mark) -> bool {
        self.mark == mark as u8
    }

    /// Counted in the small run.
    fn counts(self) -> bool {
        self.is(Mark::Small) || self.is(Mark::Large)
    }

    /// Clears both runs.
    fn clears(self) -> bool {
        self.is(Mark::Off) || self.is(Mark::Clear)
    }
}

/// The two runs after some marks: each from the first mark counted in it on, with the BLANK and DOUBT that stand inside.
struct Runs<'a> {
    small: &'a [Marked],
    large: &'a [Marked],
}

impl<'a> Runs<'a> {
    fn after(marks: &'a [Marked]) -> Self {
        let since = |ends: fn(Marked) -> bool| {
            let run = marks.rsplit(|&mark| ends(mark)).next().unwrap_or_default();
            let first = run.iter().position(|mark| mark.counts()).unwrap_or(run.len());
            &run[first..]
        };
        Self { small: since(Marked::clears), large: since(|mark| mark.clears() || mark.is(Mark::Small)) }
    }

    /// Marks counted in the small run and in the large run.
    fn lengths(&self) -> [usize; 2] {
        [self.small, self.large].map(|run| run.iter().filter(|mark| mark.counts()).count())
    }
}

/// The lengths of the small run and of the large run to a declaration.
fn declaration_lengths(plant: &Plant) -> [usize; 2] {
    [plant.small(), plant.large()].map(|lengths| usize::from(lengths.declaration))
}

fn reason_name(reason: Reason) -> &'static str {
    REASONS[match reason {
        Reason::Small { .. } => 0,
        Reason::Large { .. } => 1,
        Reason::Operator => 2,
    }]
}

/// A point since the latest accepted load.
#[derive(Clone, Default)]
struct Story {
    marks: Vec<Marked>,
    /// How many marks came before the latest reinstatement, and what had declared the point.
    reinstated: Option<(usize, Reason)>,
    /// How many marks came up to the declaration, the declaring one among them.
    declared: Option<usize>,
    /// How many marks had come when the reason of this declaration was asked last.
    asked: Option<usize>,
    /// A load was refused since the declaration.
    refused_load: bool,
    /// It was declared when the register was loaded.
    declared_before_load: bool,
}

impl Story {
    fn declare(&mut self) {
        self.declared = Some(self.marks.len());
        self.asked = None;
        self.refused_load = false;
    }

    fn reinstate(&mut self, reason: Reason) {
        self.reinstated = Some((self.marks.len(), reason));
        self.declared = None;
    }

    /// Marks before the latest reinstatement, and since.
    fn around_reinstatement(&self) -> (&[Marked], &[Marked]) {
        self.marks.split_at(self.reinstated.map_or(0, |(before, _)| before))
    }

    /// Counts an accepted reason: what its declaration came from when it is first asked for, and what has come since.
    fn count(&mut self, counts: &mut Counts, class: &str, plant: &Plant, reason: Reason) {
        let Some(declared) = self.declared else { return };
        let (before, since) = self.around_reinstatement();
        let (upto, later) = since.split_at(declared - before.len());
        let name = reason_name(reason);
        let mut met = BTreeSet::new();
        if self.asked.is_none() {
            meet_declaration(&mut met, plant, reason, before, upto);
            if let Some((_, earlier)) = self.reinstated {
                counts.add(format!("reason {name}, after {} was reinstated", reason_name(earlier)));
            }
            counts.add(format!("reason {name}, {class}"));
            if let Reason::Small { first, last } | Reason::Large { first, last } = reason {
                if first == 1 {
                    counts.add(FIRST_MARK_AT_1.into());
                }
                if last == u32::MAX {
                    counts.add(LAST_MARK_AT_BOUND.into());
                }
            }
        }
        meet_later(&mut met, plant, since, later);
        if self.asked.is_some_and(|asked| asked < self.marks.len()) {
            met.insert("asked again after later intervals");
        }
        if self.refused_load {
            met.insert("a refused load after the declaration");
        }
        for what in met {
            counts.add(format!("reason {name}, {what}"));
        }
        self.asked = Some(self.marks.len());
    }

    /// Counts why there is no reason: of a point that is not declared.
    fn count_none(&self, counts: &mut Counts, plant: &Plant, look: Look) {
        let mut add = |what: &str| counts.add(format!("reason refused 36, {what}"));
        add(&format!("status {}", STATUSES[usize::from(look.status)]));
        let (_, since) = self.around_reinstatement();
        if since.is_empty() && self.reinstated.is_some() {
            add("just reinstated");
        }
        if self.declared_before_load && self.reinstated.is_none() {
            add("declared before the latest load");
        }
        if look.small >= plant.small().declaration || look.large >= plant.large().declaration {
            let automatic = since.last().is_some_and(|mark| mark.automatic);
            add(if automatic { "a run at its length, automatic mode" } else { "a run at its length, manual mode" });
        }
    }
}

/// The points of a register just loaded, given those of the one before.
fn stories_after_load(earlier: &[Story], points: usize) -> Vec<Story> {
    let declared = |point: usize| earlier.get(point).is_some_and(|story| story.declared.is_some());
    (0..points).map(|point| Story { declared_before_load: declared(point), ..Story::default() }).collect()
}

/// What declared a point. `before`: its marks before the latest reinstatement; `upto`: those since, the declaring one the last.
fn meet_declaration(met: &mut BTreeSet<&str>, plant: &Plant, reason: Reason, before: &[Marked], upto: &[Marked]) {
    let mut meet = |reached: bool, what| {
        if reached {
            met.insert(what);
        }
    };
    let runs = Runs::after(upto);
    let [small, large] = runs.lengths();
    let [small_least, large_least] = declaration_lengths(plant);
    let differ = runs.small.len() > runs.large.len();
    let inside_small = |mark: Mark| runs.small.iter().any(|marked| marked.is(mark));
    let (run, marks, least) = match reason {
        Reason::Operator => return,
        Reason::Small { .. } => {
            meet(inside_small(Mark::Small) && inside_small(Mark::Large), "SMALL and LARGE in the run");
            meet(large > 0, "declared by a LARGE mark");
            (runs.small, small, small_least)
        }
        Reason::Large { .. } => {
            let both = small >= small_least;
            meet(!both, "alone at its length");
            meet(both, "both at their lengths");
            meet(!both && differ, "alone at its length, first mark after the small run's");
            meet(both && differ, "both at their lengths, first mark after the small run's");
            meet(small > small_least && large > large_least, "both at their lengths before the declaring mark");
            let one = (small > small_least) != (large > large_least);
            meet(both && one, "both at their lengths, one before the declaring mark");
            (runs.large, large, large_least)
        }
    };
    let inside = |mark: Mark| run.iter().any(|marked| marked.is(mark));
    meet(inside(Mark::Blank), "BLANK inside the run");
    meet(inside(Mark::Doubt), "DOUBT inside the run");
    meet(run.windows(2).any(|pair| pair[0].number + 1 != pair[1].number), "jump inside the run");
    meet(run.first().is_some_and(|mark| !mark.automatic), "first mark in manual mode");
    meet(marks > least, "at its length before the declaring mark");
    meet(marks > 255, "past 255 marks");
    // What stands right before the run, BLANK and DOUBT aside, and what stands before that.
    let effective = |marks: &[Marked]| -> Vec<Marked> {
        marks.iter().filter(|mark| mark.counts() || mark.clears()).copied().collect()
    };
    match effective(&upto[..upto.len() - run.len()])[..] {
        [.., mark, end] if mark.counts() && end.is(Mark::Off) => meet(true, "after a run that OFF ended"),
        [.., mark, end] if mark.counts() && end.is(Mark::Clear) => meet(true, "after a run that CLEAR ended"),
        [.., mark, end] if mark.is(Mark::Large) && end.is(Mark::Small) => meet(true, "after a run that SMALL ended"),
        [] => {
            let counted = effective(before).last().is_some_and(|mark| mark.counts());
            meet(counted, "marks counted up to the reinstatement before it");
        }
        _ => {}
    }
}

/// What has come since a declaration. `since`: the marks since the latest reinstatement; `later`: those after the declaration.
fn meet_later(met: &mut BTreeSet<&str>, plant: &Plant, since: &[Marked], later: &[Marked]) {
    let mut meet = |reached: bool, what| {
        if reached {
            met.insert(what);
        }
    };
    meet(later.is_empty(), "no interval after the declaration");
    meet(later.iter().any(|mark| mark.counts()), "SMALL or LARGE after the declaration");
    meet(later.iter().any(|mark| mark.clears()), "OFF or CLEAR after the declaration");
    // Marks that would declare the point, since its runs go on in its history.
    let [small_least, large_least] = declaration_lengths(plant);
    for place in since.len() - later.len()..since.len() {
        if since[place].automatic && since[place].counts() {
            let [small, large] = Runs::after(&since[..=place]).lengths();
            meet(small >= small_least && large < large_least, "later the small run alone at its length");
            meet(large >= large_least, "later the large run at its length");
        }
    }
}

/// What came before a target is asked for.
#[derive(Default)]
struct Asking {
    /// The targets before the latest accepted load, by aggregate.
    before_load: Vec<Target>,
    /// Lines of the interval before the latest accepted one, if a load did not come between.
    earlier: Vec<Option<Line>>,
    jump: bool,
    /// Points that the latest accepted interval declared.
    by_interval: BTreeSet<usize>,
    since: Since,
}

/// What came since the latest accepted interval, or load.
#[derive(Default)]
struct Since {
    refused_interval: bool,
    /// Its lines were whole.
    refused_lines: bool,
    refused_load: bool,
    /// Points declared by an operator, and reinstated.
    declared: BTreeSet<usize>,
    reinstated: BTreeSet<usize>,
    asked: BTreeSet<u32>,
}

impl Asking {
    fn after_load(before: &Monitor) -> Self {
        let points = before.plant().map_or(0..0, |plant| plant.units()..plant.points());
        Self { before_load: points.flat_map(|point| before.target(point as u32 + 1)).collect(), ..Self::default() }
    }

    /// Counts an accepted target. `lines`: those of the latest accepted interval, where readable; None after a load.
    fn count(&mut self, counts: &mut Counts, plant: &Plant, point: u32, found: Target, lines: Option<&[Option<Line>]>) {
        let mut add = |reached: bool, what: &str| {
            if reached {
                counts.add(format!("target, {what}"));
            }
        };
        let Since { refused_interval, refused_lines, refused_load, declared, reinstated, asked } = &self.since;
        let aggregate = point as usize - 1 - plant.units();
        let members: Vec<usize> = plant.members(aggregate).iter().map(|&unit| usize::from(unit)).collect();
        let in_group = |points: &BTreeSet<usize>| {
            points.contains(&(point as usize - 1)) || members.iter().any(|unit| points.contains(unit))
        };
        add(*refused_interval, "after a refused interval");
        add(*refused_load, "after a refused load");
        add(asked.contains(&point), "asked again after the same interval");
        let Some(lines) = lines else {
            let before = self.before_load.get(aggregate);
            add(true, "0 0 0 0 after a load");
            add(before.is_some_and(|&before| before != found), "0 0 0 0 after a load, other sums before it");
            self.since.asked.insert(point);
            return;
        };
        add(*refused_lines, "after a refused interval of other sums");
        add(in_group(declared), "after a declaration by an operator in the group");
        add(in_group(reinstated), "after a reinstatement in the group");
        add(in_group(&self.by_interval), "after a declaration by the interval in the group");

        let Target { target, raise, lower, kept } = found;
        let kept_name = if kept { "KEPT 1" } else { "KEPT 0" };
        let sign = |target: i32| match target {
            ..0 => "TARGET below 0",
            0 => "TARGET 0",
            _ => "TARGET above 0",
        };
        add(true, if kept { "KEPT 1" } else { "KEPT 0 after an interval" });
        add(true, &format!("{kept_name}, {}", sign(target)));
        add(true, &format!("{kept_name}, RAISE {}", if raise == 0 { "0" } else { "above 0" }));
        add(true, &format!("{kept_name}, LOWER {}", if lower == 0 { "0" } else { "above 0" }));
        add(self.jump, &format!("after a jump, {kept_name}"));
        add(members.len() >= 16, &format!("chain of 16 or more, {kept_name}"));
        add(members.len() == 1, "chain of 1");
        let greatest = target.unsigned_abs().max(raise).max(lower);
        add(greatest > 2_000_000, "a sum beyond 2000000");

        let unreadable: Vec<usize> = (0..members.len()).filter(|&place| lines[members[place]].is_none()).collect();
        let last = members.len() - 1;
        match unreadable[..] {
            [] => {}
            [_] if last == 0 => add(true, "the only member unreadable"),
            [0] => add(true, "the first of two or more alone unreadable"),
            [place] if place == last => add(true, "the last of two or more alone unreadable"),
            [_] => add(true, "a middle one alone unreadable"),
            _ if unreadable.len() == members.len() => add(true, "all of two or more unreadable"),
            [first, .., other] => {
                add(true, "two or more unreadable, another kept");
                add(other - first >= unreadable.len(), "two or more unreadable, another kept between them");
            }
        }
        if let Some(&first) = unreadable.first() {
            let beyond = || members[first..].iter().flat_map(|&unit| &lines[unit]);
            let sums = [
                beyond().map(|line| i64::from(line.target)).sum::<i64>(),
                beyond().map(|line| i64::from(line.raise)).sum(),
                beyond().map(|line| i64::from(line.lower)).sum(),
            ];
            let several = sums.iter().filter(|&&sum| sum != 0).count() >= 2;
            add(several, "KEPT 0, two or more sums not 0 from beyond the first unreadable");
        }

        let readable: Vec<(Kind, &Line)> =
            members.iter().flat_map(|&unit| lines[unit].as_ref().map(|line| (plant.kind(unit), line))).collect();
        let any = |wanted: &dyn Fn(Kind, &Line) -> bool| readable.iter().any(|(kind, line)| wanted(*kind, line));
        add(any(&|_, line| line.quality == Quality::Substituted), "a member kept with quality 1");
        add(any(&|_, line| line.quality == Quality::Bad), "a member kept with quality 2");
        add(any(&|_, line| line.mode == 0), "a member kept with conformance mode 0");
        add(kept && !any(&|_, line| line.mode != 0), "all members kept with conformance mode 0");
        let [generating, load, bidirectional] =
            [Kind::Generating, Kind::Load, Kind::Bidirectional].map(|wanted| any(&|kind, _| kind == wanted));
        add(generating && load, "a generating unit and a load kept");
        add(bidirectional && load, "a bidirectional unit and a load kept");
        add(generating && bidirectional, "a generating unit and a bidirectional unit kept");
        add(load && !generating && !bidirectional, "loads alone kept");
        add(any(&|_, line| line.target < 0), "a bidirectional unit kept with a target below 0");

        let changed = |before: bool| {
            let earlier = |unit: usize| self.earlier.get(unit).is_some_and(|line| line.is_some() == before);
            !self.earlier.is_empty() && members.iter().any(|&unit| earlier(unit) && lines[unit].is_some() != before)
        };
        add(changed(false), "a member kept again after it was unreadable");
        add(changed(true), "a member unreadable after it was kept");
        self.since.asked.insert(point);
    }
}

/// Counts a target at the point of a unit.
fn count_unit_target(counts: &mut Counts, plant: &Plant, point: u32) {
    let mut add = |what: &str| counts.add(format!("target refused 10, {what}"));
    add(if is_member(plant, point as usize - 1) { "unit in a chain" } else { "unit in no chain" });
    if point as usize == plant.units() {
        let none = plant.aggregates() == 0;
        add(if none { "the last unit, no aggregates" } else { "the last unit, aggregates above" });
    }
}

/// The sort of a point outside the register.
fn outside(plant: &Plant, point: u32) -> &'static str {
    let points = plant.points() as u32;
    match point {
        0 => "point 0",
        u32::MAX => "point 4294967295",
        _ if point == points + 1 => "the point after the last",
        _ if (1..=points).contains(&(point & 255)) => "low byte of a point",
        _ => "another point",
    }
}

fn main() -> ExitCode {
    let arguments: Vec<u64> = std::env::args().skip(1).filter_map(|text| text.parse().ok()).collect();
    let &[first, last] = &arguments[..] else {
        eprintln!("statistics FIRST LAST");
        return ExitCode::from(2);
    };
    let mut counts = Counts::default();
    let (mut bytes, mut longest) = (0, 0);
    for seed in first..=last {
        let list = random_calls::list(seed);
        bytes += list.len();
        longest = longest.max(list.len());
        let mut monitor = Monitor::new();
        let mut class = Vec::new();
        let mut report = [0; MAX_REPORT];
        let mut last_number = None;
        let mut last_mask = None;
        let mut kept = Vec::new();
        let mut stories: Vec<Story> = Vec::new();
        let mut asking = Asking::default();
        let mut chains = BTreeSet::new();
        for call in Calls::new(&list) {
            match call {
                Ok(Call::Load(register)) => {
                    let before = monitor.clone();
                    let answer = monitor.load(register);
                    counts.answer("load", &answer);
                    match answer {
                        Ok(_) => {
                            chains = monitor.plant().map_or(BTreeSet::new(), |plant| {
                                let mut chains = meet_chains(&chains_of(plant));
                                if let (Some(earlier), Some(_)) = (before.plant(), last_number) {
                                    chains.extend(meet_regrouped(earlier, plant));
                                }
                                chains
                            });
                            count_under(&mut counts, &chains, "load");
                            asking = Asking::after_load(&before);
                            if let Some(plant) = monitor.plant() {
                                count_regions(&mut counts, before.plant(), plant);
                            }
                            class = monitor.plant().map_or(Vec::new(), classes);
                            last_number = None;
                            last_mask = None;
                            kept = vec![None; class.len()];
                            stories = stories_after_load(&stories, class.len());
                            if class.contains(&SEMI_SCHEDULED) {
                                counts.add("load accepted, with semi-scheduled units".into());
                            }
                        }
                        Err(refusal @ (Refusal::Unmet | Refusal::SemiScheduledMember)) => {
                            count_chained(&mut counts, register, refusal);
                            count_across(&mut counts, register, refusal);
                        }
                        Err(Refusal::MixedRegions) => count_across(&mut counts, register, Refusal::MixedRegions),
                        Err(Refusal::KindRegionOrSpare) => count_no_regions(&mut counts, register),
                        Err(_) => {}
                    }
                    if let Err(refusal) = answer {
                        let then = meet_refused_load(&monitor, last_number, &chains, register, refusal);
                        count_under(&mut counts, &then, "load");
                        chains.extend(then);
                        stories.iter_mut().for_each(|story| story.refused_load = true);
                        asking.since.refused_load = true;
                    }
                }
                Ok(Call::Interval { report: length, buffer }) => {
                    let report = &mut report[..length];
                    let before: Vec<Look> = (1..=class.len() as u32).flat_map(|point| monitor.look(point)).collect();
                    let answer = monitor.interval(buffer, report);
                    counts.answer("interval", &answer);
                    if let Err(refusal) = answer {
                        if refusal == Refusal::Header {
                            count_header(&mut counts, buffer);
                        }
                        asking.since.refused_interval = true;
                        asking.since.refused_lines |= matches!(refusal, Refusal::Header | Refusal::NotRising);
                        continue;
                    }
                    let number = conformance::program::interval_number(buffer);
                    let jump = last_number.is_some_and(|last: u32| last + 1 != number);
                    let earlier = if last_number.is_some() { kept.clone() } else { Vec::new() };
                    asking = Asking { earlier, jump, ..Asking::default() };
                    if jump {
                        counts.add("interval jump".into());
                        kept.fill(None);
                    }
                    last_number = Some(number);
                    count_under(&mut counts, &chains, "interval");
                    let Some(plant) = monitor.plant() else { continue };
                    let mask = buffer[4];
                    count_mask(&mut counts, last_mask, mask, occupied(plant));
                    count_regional(&mut counts, plant, &class, mask, &before, report.as_chunks().0);
                    last_mask = Some(mask);
                    let lines: &[[u8; LINE]] = buffer[HEADER..].as_chunks().0;
                    let read = |unit: usize| Line::read(&lines[unit], plant.kind(unit), is_member(plant, unit));
                    for aggregate in 0..plant.aggregates() {
                        let members = plant.members(aggregate).iter().map(|&unit| {
                            let unit = usize::from(unit);
                            let kept = kept[unit].map(|line: Line| line.kept());
                            Member { kind: plant.kind(unit), line: read(unit), kept }
                        });
                        count_pass(&mut counts, "pass", &members.collect::<Vec<_>>());
                    }
                    for (point, record) in report.as_chunks::<16>().0.iter().enumerate() {
                        let class = class[point];
                        let record = Record::of(record);
                        let automatic = mask >> plant.region(point) & 1 == 1;
                        stories[point].marks.push(Marked { number, automatic, mark: record.mark });
                        counts.add(format!("{class} mark {}", MARKS[usize::from(record.mark)]));
                        counts.add(format!("{class} status {}", STATUSES[usize::from(record.status)]));
                        let size = 100 * u64::from(record.error.unsigned_abs());
                        if record.mark >= 2 && size == u64::from(record.trigger) {
                            counts.add(format!("{class} error at the small trigger"));
                        }
                        if record.mark >= 2
                            && size > u64::from(record.trigger)
                            && size <= u64::from(record.trigger) + 100
                        {
                            counts.add(format!("{class} error just past the small trigger"));
                        }
                        if record.status == NON_CONFORMING && before[point].status != NON_CONFORMING {
                            counts.add(format!("{class} declared by an interval"));
                            count_declared(&mut counts, plant, point, lines);
                            stories[point].declare();
                            asking.by_interval.insert(point);
                        }
                        if class == SEMI_SCHEDULED {
                            count_semi_scheduled(&mut counts, &lines[point], kept[point], before[point], record);
                        }
                        if point < plant.units() {
                            kept[point] = read(point);
                        }
                        if record.small == 255 {
                            counts.add(format!("{class} small run 255"));
                        }
                        if record.large == 255 {
                            counts.add(format!("{class} large run 255"));
                        }
                    }
                }
                Ok(Call::Declare { point, level }) => {
                    let before = monitor.look(point);
                    let answer = monitor.declare(point, level);
                    counts.answer("declare", &answer);
                    if answer.is_ok() {
                        counts.add(format!("{} declared by an operator", class[point as usize - 1]));
                        stories[point as usize - 1].declare();
                        asking.since.declared.insert(point as usize - 1);
                    }
                    match (monitor.plant(), before) {
                        (Some(plant), Ok(before)) => {
                            count_level(&mut counts, &place(plant, point as usize - 1), level, before, answer);
                        }
                        (_, Err(refusal)) if level < 0 => counts.add(format!("declare {refusal}, level below 0")),
                        _ => {}
                    }
                }
                Ok(Call::Reinstate { point }) => {
                    let reason = monitor.reason(point);
                    let answer = monitor.reinstate(point);
                    counts.answer("reinstate", &answer);
                    if let (Ok(()), Ok(reason)) = (answer, reason) {
                        counts.add(format!("{} reinstated", class[point as usize - 1]));
                        stories[point as usize - 1].reinstate(reason);
                        asking.since.reinstated.insert(point as usize - 1);
                    }
                }
                Ok(Call::Look { point }) => {
                    let answer = monitor.look(point);
                    counts.answer("look", &answer);
                    let of_aggregate = monitor.plant().is_some_and(|plant| point as usize > plant.units());
                    if answer.is_ok() && (of_aggregate || chains.contains(NO_CHAIN)) {
                        count_under(&mut counts, &chains, "look");
                    }
                }
                Ok(Call::Reason { point }) => {
                    let answer = monitor.reason(point);
                    counts.answer("reason", &answer);
                    let Some(plant) = monitor.plant() else {
                        let which = if point == 0 { "point 0" } else { "another point" };
                        counts.add(format!("reason refused 20, {which}"));
                        continue;
                    };
                    let Ok(look) = monitor.look(point) else {
                        counts.add(format!("reason refused 10, {}", outside(plant, point)));
                        continue;
                    };
                    let story = &mut stories[point as usize - 1];
                    match answer {
                        Ok(reason) => story.count(&mut counts, class[point as usize - 1], plant, reason),
                        Err(_) => story.count_none(&mut counts, plant, look),
                    }
                }
                Ok(Call::Target { point }) => {
                    let answer = monitor.target(point);
                    counts.answer("target", &answer);
                    match (monitor.plant(), answer) {
                        (None, _) => {
                            let which = if point == 0 { "point 0" } else { "another point" };
                            counts.add(format!("target refused 20, {which}"));
                        }
                        (Some(plant), Ok(found)) => {
                            let lines = last_number.map(|_| &kept[..]);
                            asking.count(&mut counts, plant, point, found, lines);
                            count_under(&mut counts, &chains, "target");
                        }
                        (Some(plant), Err(_)) if monitor.look(point).is_ok() => {
                            count_unit_target(&mut counts, plant, point);
                        }
                        (Some(plant), Err(_)) => {
                            counts.add(format!("target refused 10, {}", outside(plant, point)));
                        }
                    }
                }
                Err(place) => {
                    counts.add("script error".into());
                    let tag = list.get(place..place + HEAD).and_then(|head| head.first_chunk());
                    match tag.map(|&tag| u32::from_le_bytes(tag)) {
                        Some(replay::REASON) => counts.add("script error, reason with another payload".into()),
                        Some(replay::TARGET) => counts.add("script error, target with another payload".into()),
                        Some(FIRST_UNKNOWN) => counts.add("script error, the first unknown tag".into()),
                        _ => {}
                    }
                }
            }
        }
    }
    count_random_pairs(&mut counts);
    count_random_passes(&mut counts);
    count_random_days(&mut counts);
    count_random_ledgers(&mut counts);
    println!("seeds {first} to {last}: {bytes} bytes, longest list {longest}");
    for (name, count) in &counts.0 {
        println!("{count:>9} {name}");
    }

    let mut wanted: Vec<String> = Vec::new();
    for (call, refusals) in [
        ("load", &[1, 2, 3, 4, 5, 6, 7, 30, 37][..]),
        ("interval", &[8, 9, 20, 21]),
        ("declare", &[10, 11, 20, 22]),
        ("reinstate", &[10, 20, 23]),
        ("look", &[10, 20]),
        ("reason", &[10, 20, 36]),
        ("target", &[10, 20]),
    ] {
        wanted.push(format!("{call} accepted"));
        wanted.extend(refusals.iter().map(|number| format!("{call} refused {number}")));
    }
    wanted.push("load accepted, with semi-scheduled units".into());
    wanted.push("load refused 7, with a semi-scheduled member".into());
    for place in ["alone", "first", "between", "last", "not in the first chain"] {
        wanted.push(format!("load refused 30, semi-scheduled member {place}"));
    }
    wanted.extend(REGISTERS.iter().map(|what| format!("load accepted, {what}")));
    wanted.extend(NO_REGIONS.iter().map(|what| format!("load refused 4 by a region alone, {what}")));
    wanted.extend(MIXED_REGIONS.iter().map(|what| format!("load refused 37, {what}")));
    wanted.extend([7, 30].map(|number| format!("load refused {number}, a chain across regions")));
    wanted.extend(MASKS.iter().map(|what| format!("interval accepted, {what}")));
    wanted.extend(HEADERS.iter().map(|what| format!("interval refused 9, {what}")));
    wanted.extend(PAIRS.iter().map(|what| format!("pairs: {what}")));
    for sort in ["unit", "aggregate"] {
        for region in 0..REGIONS {
            wanted.extend(IN_EACH_REGION.iter().map(|what| format!("{sort} in region {region} {what}")));
        }
    }
    for class in ["loner", SEMI_SCHEDULED, "member", "aggregate", "mixed"] {
        wanted.extend(REGIONAL.iter().map(|what| format!("{class} {what}")));
        wanted.extend(OF_PAIRS.iter().map(|what| format!("pairs: {class} {what}")));
        let marks = MARKS.iter().filter(|&&mark| class != "loner" || mark != "OFF");
        wanted.extend(marks.map(|mark| format!("{class} mark {mark}")));
        wanted.extend(STATUSES.iter().map(|status| format!("{class} status {status}")));
        wanted.push(format!("{class} error at the small trigger"));
        wanted.push(format!("{class} error just past the small trigger"));
        wanted.push(format!("{class} small run 255"));
        wanted.push(format!("{class} large run 255"));
        wanted.push(format!("{class} declared by an interval"));
        wanted.push(format!("{class} declared by an operator"));
        wanted.push(format!("{class} reinstated"));
        wanted.extend(REASONS.iter().map(|reason| format!("reason {reason}, {class}")));
    }
    for reason in REASONS {
        if reason != "operator" {
            wanted.extend(RUN_REASONS.iter().map(|what| format!("reason {reason}, {what}")));
        }
        wanted.extend(LATER_REASONS.iter().map(|what| format!("reason {reason}, {what}")));
        wanted.extend(REASONS.iter().map(|earlier| format!("reason {reason}, after {earlier} was reinstated")));
    }
    wanted.push(FIRST_MARK_AT_1.into());
    wanted.push(LAST_MARK_AT_BOUND.into());
    wanted.extend(ONE_RUN_REASONS.iter().map(|what| format!("reason {what}")));
    wanted.extend(NO_REASONS.iter().map(|what| format!("reason refused {what}")));
    wanted.push("script error, reason with another payload".into());
    wanted.extend(TARGETS.iter().map(|what| format!("target, {what}")));
    wanted.extend(NO_TARGETS.iter().map(|what| format!("target refused {what}")));
    wanted.push("script error, target with another payload".into());
    wanted.push("script error, the first unknown tag".into());
    for what in [
        "CLEAR past the trigger, good",
        "CLEAR past the trigger, substituted",
        "OFF that clears a run",
        "error above, at the small trigger",
        "error above, just past the small trigger",
        "error below, at the small trigger",
        "error below, just past the small trigger",
        "unreadable by its cap flag alone",
        "unreadable by byte 3",
        "unreadable by a negative target",
        "cap flag kept 0, in this line 1",
        "cap flag kept 1, in this line 0",
        "BLANK by quality 2, cap flag kept 0",
        "BLANK by quality 2, cap flag kept 1",
    ] {
        wanted.push(format!("{SEMI_SCHEDULED} {what}"));
    }
    for place in [
        "kind 1 in no chain",
        "kind 1 in a chain",
        "kind 2 in no chain",
        "kind 2 in a chain",
        "kind 3 in no chain",
        "kind 3 in a chain",
        "kind 4 in no chain",
        "aggregate",
    ] {
        wanted.extend(LEVELS.iter().map(|level| format!("declare {level}, {place}")));
        wanted.push(format!("declare 0 accepted, {place}"));
        if place.starts_with("kind 3") || place == "aggregate" {
            wanted.push(format!("declare below 0 accepted, {place}"));
        } else {
            wanted.push(format!("declare refused 11 by the sign alone, otherwise accepted, {place}"));
            wanted.push(format!("declare refused 11 by the sign alone, otherwise refused 22, {place}"));
        }
        // Kind 4 is declared above its target alone.
        if !place.starts_with("kind 4") {
            wanted.extend(["below 0", "0", "1"].iter().map(|power| format!("interval declares, {place}, MW {power}")));
        }
    }
    wanted.push("interval declares, aggregate, a member of kind 1 or 2 below 0".into());
    wanted.push("declare refused 10, level below 0".into());
    wanted.push("declare refused 20, level below 0".into());
    for what in PASSES {
        wanted.push(format!("pass {what}"));
        wanted.push(format!("passes: pass {what}"));
    }
    wanted.extend(MARKS.iter().map(|mark| format!("passes: mark {mark}")));
    for length in [1, 60, 64] {
        for what in ["the first unreadable", "the last unreadable", "none unreadable"] {
            wanted.push(format!("passes: chain of {length}, {what}"));
        }
    }
    for what in CHAINS {
        wanted.push(format!("passes: register, {what}"));
    }
    for what in CHAINS.iter().chain(&REGROUPED).chain(&THEN_REFUSED) {
        let calls = ["load", "interval", "look", "target"];
        let answered = calls.iter().filter(|&&call| *what != NO_CHAIN || call != "target");
        wanted.extend(answered.map(|call| format!("chains: {what}: {call}")));
    }
    wanted.push("days: accepted".into());
    wanted.extend(DAYS.iter().map(|what| format!("days: {what}")));
    wanted.extend(ERRORS.iter().map(|error| format!("days: interval with an error of {error}")));
    wanted.extend(DAY_LENGTHS.iter().map(|what| format!("days: refused 31, {what}")));
    wanted.extend(DAY_VALUES.iter().map(|what| format!("days: refused 32, {what}")));
    for (call, refusals) in [("day", &[31, 32, 33, 34][..]), ("reinstate", &[35])] {
        wanted.push(format!("ledgers: {call} accepted"));
        wanted.extend(refusals.iter().map(|number| format!("ledgers: {call} refused {number}")));
    }
    wanted.extend(LEDGERS.iter().map(|what| format!("ledgers: {what}")));
    for when in WHENS {
        for between in ["a conformant day between", "no conformant day between"] {
            wanted.push(format!("ledgers: {when}, {between}"));
        }
    }
    for sort in SORTS {
        for when in ["on the very day", "one day late"] {
            wanted.push(format!("ledgers: first on {}, {when}, a conformant day between", sort_name(sort)));
        }
    }
    for what in LEDGER_FILES {
        wanted.push(format!("ledgers: day refused 31, {what}"));
        wanted.push(format!("ledgers: day refused 32, {what}"));
    }
    wanted.push("ledgers: day refused 31, no bytes after the date".into());
    wanted.push("ledgers: day refused 31, fewer than 4 bytes after the date".into());
    wanted.extend(NO_DATES.iter().map(|what| format!("ledgers: day refused 33, {what}")));
    wanted.extend(NOT_LATER.iter().map(|what| format!("ledgers: day refused 34, {what}")));
    wanted.extend(NOT_DECLARED.iter().map(|what| format!("ledgers: reinstate refused 35, {what}")));
    wanted.extend(UNREAD.iter().map(|what| format!("ledgers: script error, {what}")));
    wanted.push("script error".into());
    wanted.push("interval jump".into());
    let rare: Vec<&String> = wanted.iter().filter(|name| counts.0.get(*name).copied().unwrap_or(0) < LEAST).collect();
    for name in &rare {
        println!("under {LEAST}: {name}");
    }
    if rare.is_empty() {
        ExitCode::SUCCESS
    } else {
        ExitCode::FAILURE
    }
}
