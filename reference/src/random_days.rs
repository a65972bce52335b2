//! Random days for [`response`](crate::response), fixed by a seed.
//!
//! What a day is for goes by its seed's remainder by 40, so that seeds in a row meet everything in equal shares: files of a
//! wrong length, values beyond their bounds, no dispatch, a day at 50 % or 150 % or one Wh beside it, any day. Targets mostly
//! come in events of some intervals, with a response near them or away from them; some errors lie at a threshold or beside it.

use crate::random_calls::Random;
use crate::response::{Record, EARLIER, ENERGY_BOUND, ERROR_THRESHOLD, RECORD, RECORDS, TARGET_BOUND};

const HIGHEST_TARGET: i64 = TARGET_BOUND as i64;
const ENERGY: i64 = ENERGY_BOUND as i64;
/// The greatest size of BSQ - ME.
const RESPONSE: i64 = 2 * ENERGY;
/// Errors at the thresholds and beside them; an error is a multiple of 4.
const EDGES: [i64; 6] = [
    ERROR_THRESHOLD - 4,
    ERROR_THRESHOLD,
    ERROR_THRESHOLD + 4,
    4 - ERROR_THRESHOLD,
    -ERROR_THRESHOLD,
    -4 - ERROR_THRESHOLD,
];

/// Ways in which a value is beyond its bound.
const WAYS: usize = 12;

/// The file of a seed; None where it is missing.
pub fn day(seed: u64) -> Option<Vec<u8>> {
    let mut author = Author { random: Random(seed) };
    let bytes = match seed % 40 {
        0 | 1 => return None,
        2 | 3 => {
            let length = author.random.below(EARLIER);
            author.any_bytes(length)
        }
        4 | 5 => author.other_length(-(RECORD as i64)),
        6 | 7 => author.other_length(RECORD as i64),
        8 | 9 => author.other_length(1),
        10 => {
            let more = if author.random.chance(600) {
                author.random.within(2, 11)
            } else {
                author.random.pick(&[-3_456, -3_444, 3_456, 24, -24, 3_460, 6_908])
            };
            author.other_length(more)
        }
        11 | 12 => {
            let less = author.random.within(1, 11);
            author.other_length(-less)
        }
        13..=16 => {
            let mut draft = author.any_day();
            if seed % 40 < 15 {
                author.one_beyond(&mut draft, (seed / 40) as usize % WAYS);
            } else {
                author.many_beyond(&mut draft);
            }
            draft.bytes()
        }
        17 | 18 => author.without_dispatch().bytes(),
        remainder @ 19..=30 => {
            let (halves, beside) = [(1, -1), (1, 0), (1, 1), (3, -1), (3, 0), (3, 1)][(remainder - 19) as usize / 2];
            author.day_at(halves, beside).bytes()
        }
        _ => author.any_day().bytes(),
    };
    Some(bytes)
}

/// A day before it becomes bytes.
struct Draft {
    earlier: u32,
    records: Vec<Record>,
}

impl Draft {
    fn bytes(&self) -> Vec<u8> {
        let mut bytes = self.earlier.to_le_bytes().to_vec();
        bytes.extend(self.records.iter().flat_map(|record| record.bytes()));
        bytes
    }
}

/// Targets and BSQ - ME, before they are made records.
struct Plan {
    targets: Vec<i64>,
    responses: Vec<i64>,
    /// Records whose error was chosen, and is not to be moved.
    chosen: Vec<bool>,
}

impl Plan {
    fn dispatched(&self) -> Vec<usize> {
        (0..RECORDS).filter(|&record| self.targets[record] != 0).collect()
    }

    /// Dispatched records that may be moved.
    fn movable(&self) -> Vec<usize> {
        self.dispatched().into_iter().filter(|&record| !self.chosen[record]).collect()
    }

    /// Sets BSQ - ME by the error, to the next Wh.
    fn set_error(&mut self, record: usize, error: i64) {
        self.responses[record] = (1000 * self.targets[record] - error).div_euclid(12).clamp(-RESPONSE, RESPONSE);
    }

    /// Gives a record this very error, by moving its target to the remainder by 3 that allows it.
    fn choose_error(&mut self, record: usize, error: i64) {
        let target = self.targets[record].min(HIGHEST_TARGET - 2);
        self.targets[record] =
            (target..target + 3).find(|target| (1000 * target - error) % 12 == 0).unwrap_or(HIGHEST_TARGET);
        self.set_error(record, error);
        self.chosen[record] = true;
    }

    /// Moves D to what is wanted, on the movable records alone if they have the room.
    fn move_response(&mut self, wanted: i64, spread: bool) {
        let mut records = self.movable();
        if records.is_empty() {
            records = self.dispatched();
        }
        loop {
            let missing =
                |plan: &Self| wanted - plan.dispatched().into_iter().map(|record| plan.responses[record]).sum::<i64>();
            if spread {
                let share = missing(self) / records.len() as i64;
                for &record in &records {
                    self.responses[record] = (self.responses[record] + share).clamp(-RESPONSE, RESPONSE);
                }
            }
            let mut left = missing(self);
            for &record in records.iter().rev() {
                let moved = (self.responses[record] + left).clamp(-RESPONSE, RESPONSE);
                left -= moved - self.responses[record];
                self.responses[record] = moved;
            }
            if left == 0 {
                return;
            }
            records = self.dispatched();
        }
    }
}

/// How the response of an event goes with its target.
#[derive(Clone, Copy, PartialEq, Eq)]
enum Course {
    /// Never flagged.
    Near,
    Under,
    Over,
    /// On one side or the other of a threshold, or exactly at it.
    Edge,
    /// So many thousandths of the target.
    Share(i64),
    /// No response to speak of.
    Absent,
    /// More taken than the baseline.
    Contrary,
    /// At the bounds of BSQ and ME.
    Greatest(i64),
}

struct Author {
    random: Random,
}

impl Author {
    fn any_bytes(&mut self, length: usize) -> Vec<u8> {
        (0..length).map(|_| self.random.byte()).collect()
    }

    // Refused days.

    /// A day with so many bytes more, or less, often with a value beyond its bound.
    fn other_length(&mut self, more: i64) -> Vec<u8> {
        let mut draft = self.any_day();
        if self.random.chance(450) {
            let way = self.random.below(WAYS);
            self.one_beyond(&mut draft, way);
        }
        let mut bytes = draft.bytes();
        let length = (bytes.len() as i64 + more) as usize;
        if length < bytes.len() {
            bytes.truncate(length);
        } else if self.random.chance(500) {
            let again: Vec<u8> = bytes[EARLIER..].iter().copied().cycle().take(more as usize).collect();
            bytes.extend(again);
        } else {
            bytes.extend(self.any_bytes(more as usize));
        }
        bytes
    }

    /// Puts values beyond their bounds, in most of the ways there are.
    fn many_beyond(&mut self, draft: &mut Draft) {
        for way in 0..WAYS {
            if self.random.chance(960) {
                self.one_beyond(draft, way);
            }
        }
    }

    /// Puts one value beyond its bound.
    fn one_beyond(&mut self, draft: &mut Draft, way: usize) {
        let random = &mut self.random;
        let target = match random.below(6) {
            0..=2 => TARGET_BOUND + 1,
            3 => u32::MAX,
            4 => 0x8000_0000,
            _ => random.within(i64::from(TARGET_BOUND) + 1, i64::from(u32::MAX)) as u32,
        };
        let size = match random.below(4) {
            0 | 1 => ENERGY + 1,
            2 => i64::from(i32::MAX),
            _ => random.within(ENERGY + 1, i64::from(i32::MAX)),
        };
        let energy = match (way % 2, size) {
            (0, _) => size as i32,
            (_, 0x7FFF_FFFF) => i32::MIN,
            _ => -size as i32,
        };
        let last = RECORDS - 1;
        match way {
            0 => draft.earlier = target,
            1 => draft.records[0].target = target,
            2 => draft.records[random.within(1, last as i64 - 1) as usize].target = target,
            3 => draft.records[last].target = target,
            _ => {
                // Ways 4 to 7 in a dispatched record, 8 to 11 in one that is not.
                let dispatched = way < 8;
                let fitting: Vec<usize> = (0..RECORDS)
                    .filter(|&record| (draft.records[record].target != 0) == dispatched)
                    .filter(|&record| draft.records[record].is_within_bounds())
                    .collect();
                let place = match random.below(8) {
                    0 => fitting.first().copied(),
                    1 => fitting.last().copied(),
                    _ => (!fitting.is_empty()).then(|| random.pick(&fitting)),
                };
                let place = place.unwrap_or_else(|| {
                    let place = random.within(1, last as i64 - 1) as usize;
                    draft.records[place].target = if dispatched { 30_000 } else { 0 };
                    place
                });
                let record = &mut draft.records[place];
                if way % 4 < 2 {
                    record.baseline = energy;
                } else {
                    record.metered = energy;
                }
            }
        }
    }

    // Assessed days.

    fn any_day(&mut self) -> Draft {
        if self.random.chance(50) {
            return self.greatest_day();
        }
        let factor = match self.random.below(10) {
            0 => 500,
            1 => 1_500,
            2 => self.random.within(0, 2_500),
            3..=5 => self.random.within(-1_500, -1),
            _ => 1_000,
        };
        let mut plan = self.plan(factor, false);
        // The Wh to either side of 50 % or 150 %, wherever that lies.
        if self.random.chance(150) && !plan.dispatched().is_empty() {
            let target: i64 = plan.targets.iter().sum();
            let wanted = (self.random.pick(&[1_000, 1_000, 3_000]) * target).div_euclid(24) + self.random.within(0, 1);
            let spread = self.random.chance(700);
            plan.move_response(wanted, spread);
        }
        self.records(&plan)
    }

    /// One target all day, and all responses at one bound.
    fn greatest_day(&mut self) -> Draft {
        let target = self.random.pick(&[1, HIGHEST_TARGET, HIGHEST_TARGET]);
        let response = self.random.pick(&[-RESPONSE, RESPONSE]);
        let plan =
            Plan { targets: vec![target; RECORDS], responses: vec![response; RECORDS], chosen: vec![true; RECORDS] };
        self.records(&plan)
    }

    /// A day at 50 % or, with 3 halves, at 150 %, or so many Wh beside it.
    fn day_at(&mut self, halves: i64, beside: i64) -> Draft {
        let quiet = self.random.chance(550);
        let mut plan = self.plan(500 * halves, quiet);
        if plan.dispatched().is_empty() {
            let record = self.random.below(RECORDS);
            plan.targets[record] = self.level();
        }
        // 24 divides 1000 × T where 3 divides T.
        let movable = plan.movable();
        let record = self.random.pick(if movable.is_empty() { vec![plan.dispatched()[0]] } else { movable }.as_slice());
        let more = (3 - plan.targets.iter().sum::<i64>() % 3) % 3;
        let less = more - 3;
        plan.targets[record] += if plan.targets[record] + more > HIGHEST_TARGET { less } else { more };
        let target: i64 = plan.targets.iter().sum();
        let spread = quiet || self.random.chance(700);
        plan.move_response(halves * target / 3 * 125 + beside, spread);
        self.records(&plan)
    }

    fn without_dispatch(&mut self) -> Draft {
        let mut plan = Plan { targets: vec![0; RECORDS], responses: vec![0; RECORDS], chosen: vec![false; RECORDS] };
        self.idle_responses(&mut plan);
        self.records(&plan)
    }

    /// A target that is not 0.
    fn level(&mut self) -> i64 {
        let random = &mut self.random;
        match random.below(20) {
            0 => random.within(1, 1_000),
            1 => random.within(1, HIGHEST_TARGET),
            2 => HIGHEST_TARGET,
            3..=6 => random.within(1_000, 200_000),
            7..=9 => random.within(1_000, 11_900),
            _ => 1_000 * random.within(1, 200),
        }
    }

    fn targets(&mut self, quiet: bool) -> Vec<i64> {
        let mut targets = vec![0; RECORDS];
        let shape = if quiet { 0 } else { self.random.below(20) };
        match shape {
            // Events.
            0..=11 => {
                let highest = match quiet {
                    true => 10_000,
                    false if self.random.chance(300) => 11_900,
                    false => HIGHEST_TARGET,
                };
                let longest = self.random.pick(&[4, 20, 60, 150]);
                let mut at = if self.random.chance(450) { 0 } else { self.random.below(longest) + 1 };
                while at < RECORDS {
                    let length = self.random.pick(&[1, 2, 3, 6, 12, 24, 36]).min(RECORDS - at);
                    let mut level =
                        if highest < HIGHEST_TARGET { self.random.within(1_000, highest) } else { self.level() };
                    let steady = self.random.chance(500);
                    for target in &mut targets[at..at + length] {
                        *target = level;
                        if !steady {
                            level = (level + self.random.within(-2_000, 2_000)).clamp(1, highest);
                        }
                    }
                    at += length + self.random.below(longest) + 1;
                }
            }
            // The whole day, now and then with gaps.
            12..=14 => {
                let gaps = self.random.pick(&[0, 0, 15, 60]);
                let level = self.level();
                for target in &mut targets {
                    *target = if self.random.chance(gaps) { 0 } else { level };
                }
            }
            // No two alike.
            15 | 16 => {
                let zeros = self.random.pick(&[100, 500, 900]);
                for target in &mut targets {
                    *target = if self.random.chance(zeros) { 0 } else { self.level() };
                }
            }
            // One to three intervals.
            17 | 18 => {
                for _ in 0..self.random.within(1, 3) {
                    let record = match self.random.below(6) {
                        0 | 1 => 0,
                        2 => RECORDS - 1,
                        _ => self.random.below(RECORDS),
                    };
                    targets[record] = self.level();
                }
            }
            // Every other interval.
            _ => {
                let level = self.level();
                targets.iter_mut().skip(self.random.below(2)).step_by(2).for_each(|target| *target = level);
            }
        }
        targets
    }

    /// A day whose response is about so many thousandths of its targets; a quiet one has small targets, and hardly an interval that
    /// is flagged.
    fn plan(&mut self, factor: i64, quiet: bool) -> Plan {
        use Course::{Absent, Contrary, Edge, Greatest, Near, Over, Share, Under};
        let targets = self.targets(quiet);
        let mut plan = Plan { targets, responses: vec![0; RECORDS], chosen: vec![false; RECORDS] };
        self.idle_responses(&mut plan);
        let courses: &[Course] = match self.random.below(20) {
            _ if quiet => &[Share(factor)],
            _ if factor < 0 => &[Contrary, Contrary, Share(factor)],
            0..=4 if factor == 1_000 => &[Near],
            0..=4 => &[Share(factor)],
            5..=8 => &[Share(factor), Share(factor), Near, Edge],
            9..=12 => &[Near, Under, Over, Edge],
            13 => &[Under],
            14 => &[Over],
            15 => &[Edge],
            16 => &[Absent, Share(factor)],
            17 => &[Contrary],
            18 => &[Contrary, Near, Over],
            _ => &[[Greatest(1), Greatest(-1)][self.random.below(2)]],
        };
        let mut course = courses[0];
        let mut before = 0;
        for record in 0..RECORDS {
            let target = plan.targets[record];
            if target != 0 && before == 0 {
                course = self.random.pick(courses);
            }
            if target != 0 {
                self.respond(&mut plan, record, course);
                if before == 0 && !quiet && self.random.chance(600) && !matches!(course, Near | Greatest(_)) {
                    self.ramp(&mut plan, record);
                }
            }
            before = target;
        }
        if plan.targets[0] != 0 && self.random.chance(if quiet { 500 } else { 800 }) {
            let error = self.random.within(ERROR_THRESHOLD, 3 * ERROR_THRESHOLD) * self.random.pick(&[-1, 1]);
            plan.choose_error(0, error - error % 4);
        }
        plan
    }

    fn respond(&mut self, plan: &mut Plan, record: usize, course: Course) {
        let random = &mut self.random;
        let whole = 1000 * plan.targets[record];
        let error = match course {
            Course::Near => random.within(16 - ERROR_THRESHOLD, ERROR_THRESHOLD - 16) / random.pick(&[1, 1, 6, 30]),
            Course::Under => ERROR_THRESHOLD + random.within(0, 60_000_000) / random.pick(&[1, 10, 1_000]),
            Course::Over => -ERROR_THRESHOLD - random.within(0, 60_000_000) / random.pick(&[1, 10, 1_000]),
            Course::Edge => {
                plan.choose_error(record, random.pick(&EDGES));
                return;
            }
            Course::Share(factor) => {
                let away = random.within(-whole / 50, whole / 50);
                whole - whole / 1_000 * factor + away
            }
            Course::Absent => whole + random.within(-500_000, 500_000),
            Course::Contrary => whole + random.within(0, 120_000_000),
            Course::Greatest(sign) => {
                plan.responses[record] = sign * RESPONSE;
                plan.chosen[record] = true;
                return;
            }
        };
        plan.set_error(record, error);
    }

    /// The first interval of an event, which is late or does too much.
    fn ramp(&mut self, plan: &mut Plan, record: usize) {
        let random = &mut self.random;
        let error = if random.chance(600) {
            (1000 * plan.targets[record]).max(ERROR_THRESHOLD) / random.pick(&[1, 1, 2, 3])
        } else {
            -random.within(ERROR_THRESHOLD, 8 * ERROR_THRESHOLD)
        };
        plan.choose_error(record, error - error % 4);
    }

    /// BSQ - ME of the records with a target of 0: nothing, or little, or much, in which no part is to be seen.
    fn idle_responses(&mut self, plan: &mut Plan) {
        let random = &mut self.random;
        let much = random.pick(&[0, 0, 20, 200, 1_000]);
        let greatest = random.pick(&[2_000_000, 20_000_000, RESPONSE]);
        let little = random.pick(&[0, 100, 50_000]);
        for record in 0..RECORDS {
            if plan.targets[record] == 0 {
                let size = if random.chance(much) { greatest } else { little };
                plan.responses[record] = random.within(-size, size);
            }
        }
    }

    /// Any BSQ and ME with the responses of the plan.
    fn records(&mut self, plan: &Plan) -> Draft {
        let random = &mut self.random;
        let bounds = random.pick(&[0, 0, 0, 10, 200, 1_000]);
        let base = match random.below(5) {
            0 => random.within(-20_000_000, 0),
            1 => 0,
            _ => random.within(1_000_000, 60_000_000),
        };
        let anywhere = random.chance(150);
        let records = plan.targets.iter().zip(&plan.responses).map(|(&target, &response)| {
            // ME between these leaves BSQ within its bounds; at either end one of the two is at a bound.
            let (low, high) = ((-ENERGY).max(-ENERGY - response), ENERGY.min(ENERGY - response));
            let metered = if random.chance(bounds) {
                random.pick(&[low, high])
            } else if anywhere {
                random.within(low, high)
            } else {
                (base + random.within(-500_000, 500_000) - response).clamp(low, high)
            };
            Record { target: target as u32, baseline: (metered + response) as i32, metered: metered as i32 }
        });
        let records = records.collect();
        let earlier = match random.below(16) {
            0..=7 => 0,
            8 => 1,
            9 | 10 => TARGET_BOUND,
            _ => random.within(1, 200_000) as u32,
        };
        Draft { earlier, records }
    }
}

#[cfg(test)]
mod tests {
    use super::*;
    use crate::response::printed;

    #[test]
    fn fixed_by_the_seed() {
        assert_eq!(day(33), day(33));
        assert_ne!(day(33), day(34));
    }

    #[test]
    fn refused_and_assessed() {
        for seed in 0..2_000 {
            let printed = printed(&day(seed).unwrap_or_default());
            match seed % 40 {
                0..=12 => assert_eq!(printed, "refused 31", "{seed}"),
                13..=16 => assert_eq!(printed, "refused 32", "{seed}"),
                17 | 18 => assert_eq!(printed, "0 0 none 0 0", "{seed}"),
                _ => assert!(!printed.starts_with("refused"), "{seed} {printed}"),
            }
        }
    }
}
