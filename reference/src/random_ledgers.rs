//! Random lists of calls for [`ledger`](crate::ledger), fixed by a seed.
//!
//! A list is made of chains of instances, at whose third and later ones the rule is met at its border: the date three months
//! after the first, the day before it or the day after it, with a conformant day between the first and the third or without one.
//! Where a list starts, the sort of date on which a chain starts and how a list ends go by its seed, so that seeds in a row meet
//! everything in equal shares; refused calls come in between. Steering follows the ledger, which shows when a unit is declared.

use crate::frames::MAX_PAYLOAD;
use crate::ledger::{days_of, is_leap, Conduct, Date, Ledger, DAY, REINSTATE};
use crate::random_calls::Random;
use crate::random_days;
use crate::replay::Script;
use crate::response::{self, Record, EARLIER, ENERGY_BOUND, RECORD, RECORDS, TARGET_BOUND};

/// Bytes of a whole day.
const FILE: usize = EARLIER + RECORDS * RECORD;
/// Most calls of a list, but for those that follow a script error.
const MOST_CALLS: usize = 56;
const FIRST_DATE: Date = Date { year: 2_000, month: 1, day: 1 };
const LAST_DATE: Date = Date { year: 2_099, month: 12, day: 31 };

/// Sorts of dates by what three months later is to them.
#[derive(Clone, Copy, PartialEq, Eq, Debug)]
pub enum Sort {
    /// 31 January, March or August.
    ToThirty,
    /// 30 November before a common year.
    ThirtyToTwentyEight,
    /// 30 November before a leap year.
    ThirtyToTwentyNine,
    /// 29 November before a common year.
    TwentyNineToTwentyEight,
    /// 28 or 29 November before a leap year.
    ToLeapFebruary,
    /// The last day of a month, three months before a longer one.
    LastToLonger,
    /// The last day of a month, three months before one as long.
    LastToLast,
    Other,
}

pub const SORTS: [Sort; 8] = [
    Sort::ToThirty,
    Sort::ThirtyToTwentyEight,
    Sort::ThirtyToTwentyNine,
    Sort::TwentyNineToTwentyEight,
    Sort::ToLeapFebruary,
    Sort::LastToLonger,
    Sort::LastToLast,
    Sort::Other,
];

/// The sorts on which chains start, in turn; those of November are met less often on the way.
const TURNS: [Sort; 13] = [
    Sort::ToThirty,
    Sort::ThirtyToTwentyEight,
    Sort::ThirtyToTwentyNine,
    Sort::LastToLonger,
    Sort::TwentyNineToTwentyEight,
    Sort::ToLeapFebruary,
    Sort::ThirtyToTwentyNine,
    Sort::ThirtyToTwentyEight,
    Sort::TwentyNineToTwentyEight,
    Sort::LastToLast,
    Sort::ThirtyToTwentyNine,
    Sort::TwentyNineToTwentyEight,
    Sort::ToLeapFebruary,
];

impl Sort {
    pub fn of(date: Date) -> Self {
        let Date { year, month, day } = date;
        let there = date.three_months_later();
        let (length, length_there) = (days_of(year, month), days_of(there.year, there.month));
        match (month, day) {
            (11, 30) if is_leap(year + 1) => Self::ThirtyToTwentyNine,
            (11, 30) => Self::ThirtyToTwentyEight,
            (11, 28 | 29) if is_leap(year + 1) => Self::ToLeapFebruary,
            (11, 29) => Self::TwentyNineToTwentyEight,
            _ if day < length => Self::Other,
            _ if length < length_there => Self::LastToLonger,
            _ if length == length_there => Self::LastToLast,
            _ => Self::ToThirty,
        }
    }
}

/// What comes of a day's bytes.
#[derive(Clone, Copy, PartialEq, Eq)]
enum Bytes {
    Of(Conduct),
    /// Refused by 31.
    Length,
    /// Refused by 32.
    Value,
}

/// The list of a seed; None where its file is missing.
pub fn list(seed: u64) -> Option<Vec<u8>> {
    match seed % 100 {
        0 => None,
        50 => Some(Vec::new()),
        _ => Some(Author::new(seed).write()),
    }
}

/// So many days later.
fn later(date: Date, days: i64) -> Date {
    (0..days).fold(date, |date, _| date.day_after())
}

/// The day before; of the first date, itself.
fn day_before(date: Date) -> Date {
    match (date.month, date.day) {
        _ if date == FIRST_DATE => date,
        (1, 1) => Date::new(date.year - 1, 12, 31),
        (month, 1) => Date::new(date.year, month - 1, days_of(date.year, month - 1)),
        (_, day) => Date { day: day - 1, ..date },
    }
}

/// Days from one date to a later one.
fn days_between(first: Date, last: Date) -> i64 {
    std::iter::successors(Some(first), |date| Some(date.day_after())).take_while(|&date| date < last).count() as i64
}

struct Author {
    random: Random,
    seed: u64,
    script: Script,
    ledger: Ledger,
    /// Calls so far.
    calls: usize,
    /// Chains so far.
    chains: u64,
    /// The list grows to the bytes of so many whole days.
    wanted: usize,
}

impl Author {
    fn new(seed: u64) -> Self {
        let mut random = Random(seed);
        let wanted = random.within(15, 40) as usize;
        Self { random, seed, script: Script::new(), ledger: Ledger::new(), calls: 0, chains: 0, wanted }
    }

    fn write(mut self) -> Vec<u8> {
        // One in 40 cannot be read from its first byte on.
        if self.seed % 40 != 7 {
            self.start();
            while self.goes_on() {
                self.chain();
                self.aftermath();
            }
            if self.latest() >= LAST_DATE {
                self.end_of_the_century();
            }
        }
        self.end();
        self.script.into_bytes()
    }

    fn goes_on(&self) -> bool {
        self.script.len() < self.wanted * FILE && self.calls < MOST_CALLS && self.latest() < LAST_DATE
    }

    /// The latest date, or the first that there is.
    fn latest(&self) -> Date {
        self.ledger.latest().unwrap_or(FIRST_DATE)
    }

    // Calls.

    fn call(&mut self, date: Date, file: &[u8]) {
        self.script.call(DAY, &[&date.bytes(), file].concat());
        self.calls += 1;
        let _ = self.ledger.day_of_file(date, file);
    }

    fn day(&mut self, date: Date, conduct: Conduct) {
        let file = self.file(Bytes::Of(conduct));
        self.call(date, &file);
    }

    fn reinstate(&mut self) {
        self.script.call(REINSTATE, &[]);
        self.calls += 1;
        let _ = self.ledger.reinstate();
    }

    // The days' bytes.

    fn file(&mut self, wanted: Bytes) -> Vec<u8> {
        match wanted {
            Bytes::Of(conduct) => self.assessed(conduct),
            Bytes::Length => {
                let conduct = self.any_conduct();
                let mut file = self.assessed(conduct);
                if self.random.chance(300) {
                    self.put_beyond(&mut file);
                }
                let length = match self.random.below(12) {
                    0..=2 => 0,
                    3..=5 => self.random.below(EARLIER - 1) + 1,
                    6 => EARLIER,
                    7 => FILE - 1,
                    8 => FILE + 1,
                    9 => self.random.pick(&[FILE - RECORD, FILE + RECORD, FILE - EARLIER]),
                    10 => self.random.within(5, 200) as usize,
                    _ => self.random.pick(&[MAX_PAYLOAD - 12, MAX_PAYLOAD - 13, 2 * FILE]),
                };
                file.iter().copied().cycle().take(length).collect()
            }
            Bytes::Value => {
                let conduct = self.any_conduct();
                let mut file = self.assessed(conduct);
                self.put_beyond(&mut file);
                file
            }
        }
    }

    fn any_conduct(&mut self) -> Conduct {
        use Conduct::{Conformant, Instance, WithoutDispatch};
        self.random.pick(&[Instance, Instance, Instance, Instance, Conformant, Conformant, Conformant, WithoutDispatch])
    }

    /// A file of 288 records within their bounds.
    fn assessed(&mut self, wanted: Conduct) -> Vec<u8> {
        if self.random.chance(120) {
            // Some random day is like that.
            for _ in 0..20 {
                let seed = 40 * self.random.within(1, 1_000_000) as u64 + self.random.within(17, 39) as u64;
                let file = random_days::day(seed).unwrap_or_default();
                if response::assess_file(&file).is_ok_and(|day| Conduct::of(day) == wanted) {
                    return file;
                }
            }
        }
        let mut records = [Record::default(); RECORDS];
        // Room for an event of six intervals.
        let at = match self.random.below(6) {
            0 => 0,
            1 => RECORDS - 6,
            _ => self.random.below(RECORDS - 6),
        };
        let earlier = self.random.pick(&[0, 0, 0, 1, 30_000, TARGET_BOUND]);
        if self.random.chance(200) {
            // Energies of intervals that are not dispatched.
            let size = self.random.pick(&[5_000, 2_000_000, i64::from(ENERGY_BOUND)]);
            for record in &mut records {
                record.baseline = self.random.within(-size, size) as i32;
                record.metered = self.random.within(-size, size) as i32;
            }
        }
        let event: &[(u32, i32)] = match wanted {
            Conduct::WithoutDispatch => {
                if self.random.chance(500) {
                    let (baseline, metered) = self.random.pick(&[(6_000_000, 0), (0, 6_000_000), (-200_000_000, -1)]);
                    records[at..at + 6].fill(Record { target: 0, baseline, metered });
                }
                &[]
            }
            // Targets and BSQ - ME; 24 kW for one interval are 2,000 Wh, 30 MW are 2,500,000.
            Conduct::Conformant => self.random.pick(&[
                &[(30_000, 2_500_000), (30_000, 2_500_000), (30_000, 2_500_000)][..],
                &[(24, 1_001)],
                &[(24, 2_999)],
                &[(24, 2_000), (0, -70_000), (24, 2_000)],
                // Just within the thresholds of an interval.
                &[(30_000, 2_500_000), (30_000, 2_000_001), (30_000, 2_999_999)],
                // The first interval of an event is left out.
                &[(0, 0), (30_000, 0), (30_000, 2_500_000), (30_000, 2_500_000), (30_000, 2_500_000)],
                &[(0, 0), (30_000, 6_000_000), (30_000, 2_500_000), (30_000, 2_500_000), (30_000, 2_500_000)],
                &[(30_000, 2_600_000), (0, 0), (30_000, 2_400_000), (0, 0), (1, 84)],
            ]),
            Conduct::Instance => self.random.pick(&[
                // By the day's flag alone.
                &[(24, 1_000)][..],
                &[(24, -60_000)],
                &[(24, 3_000)],
                &[(24, 70_000)],
                &[(0, 0), (30_000, 0)],
                &[(0, 0), (30_000, 6_000_000)],
                // By one interval or two alone.
                &[(30_000, 2_500_000), (30_000, 2_000_000)],
                &[(30_000, 2_500_000), (30_000, 1_500_000), (30_000, 2_500_000)],
                &[(30_000, 2_500_000), (30_000, 3_000_000)],
                &[(30_000, 2_500_000), (30_000, 3_500_000), (30_000, 2_500_000)],
                &[(30_000, 2_500_000), (30_000, 2_000_000), (30_000, 3_000_000)],
                // By both.
                &[(30_000, 0), (30_000, 0)],
                &[(30_000, 6_000_000), (30_000, 6_000_000)],
                &[(30_000, -3_000_000), (30_000, 3_000_000)],
            ]),
        };
        for (record, &(target, response)) in records[at..].iter_mut().zip(event) {
            let metered = self.random.pick(&[0, 1_000_000, -1_000_000, 50_000_000]);
            *record = Record { target, baseline: metered + response, metered };
        }
        // A first record that is dispatched would count after an earlier target.
        let earlier = if records[0].target != 0 { 0 } else { earlier };
        let mut bytes = u32::to_le_bytes(earlier).to_vec();
        bytes.extend(records.iter().flat_map(|record| record.bytes()));
        bytes
    }

    /// Puts a value beyond its bound.
    fn put_beyond(&mut self, file: &mut [u8]) {
        let target = self.random.pick(&[TARGET_BOUND + 1, u32::MAX]);
        let energy = self.random.pick(&[ENERGY_BOUND as i32 + 1, -1 - ENERGY_BOUND as i32, i32::MIN]);
        let record = EARLIER + RECORD * self.random.pick(&[0, 1, 150, RECORDS - 1]);
        let (at, word) = match self.random.below(4) {
            0 => (0, target.to_le_bytes()),
            1 => (record, target.to_le_bytes()),
            2 => (record + 4, energy.to_le_bytes()),
            _ => (record + 8, energy.to_le_bytes()),
        };
        file[at..at + 4].copy_from_slice(&word);
    }

    // Chains of instances.

    /// Where a list starts.
    fn start(&mut self) {
        let date = match self.seed % 16 {
            0 | 5 => FIRST_DATE,
            1 | 6 | 11 => later(Date::new(2_095, 11, 28), self.random.within(0, 2)),
            2 | 8 | 14 => {
                let (month, days) = self.random.pick(&[(1, 240), (10, 60), (10, 60), (10, 60)]);
                later(Date::new(2_099, month, 1), self.random.within(0, days))
            }
            _ => {
                let year = self.random.within(2_000, 2_080) as u32;
                let date = later(Date::new(year, 1, 1), self.random.within(0, 364));
                if self.random.chance(150) {
                    date
                } else {
                    self.sorted(date)
                }
            }
        };
        while self.random.chance(450) {
            self.refused(date);
        }
        if date == FIRST_DATE || self.random.chance(250) {
            let conduct = self.random.pick(&[Conduct::WithoutDispatch, Conduct::Conformant, Conduct::Instance]);
            self.day(date, conduct);
            if self.random.chance(500) {
                self.reinstate();
            }
        } else {
            // An instance in a chain is the first accepted day.
            self.chain_from(date);
            self.aftermath();
        }
        let leap_day = match date.year {
            2_000 => Date::new(2_000, 2, 29),
            _ => Date::new(2_096, 2, 29),
        };
        if matches!(date.year, 2_000 | 2_095) && self.latest() < leap_day && self.random.chance(900) {
            self.chain_from(leap_day);
            self.aftermath();
        }
    }

    fn chain(&mut self) {
        let latest = self.latest();
        let in_hand = self.ledger.days().iter().filter(|(_, conduct)| *conduct == Conduct::Instance).count();
        if !self.ledger.is_declared() && in_hand > 0 && self.random.chance(900) {
            // Far from the instances so far, and with a conformant day between.
            self.filler(latest, later(latest, 20), Conduct::Conformant);
            let from = later(latest.three_months_later(), self.random.within(1, 9));
            let date = self.sorted(from);
            self.chain_from(date);
            return;
        }
        if self.random.chance(80) {
            self.wander();
            return;
        }
        let mut from = latest.day_after();
        if in_hand == 0 && self.random.chance(350) {
            // A conformant day before the first instance.
            from = later(from, self.random.within(1, 3));
            self.filler(latest, from, Conduct::Conformant);
            if self.random.chance(300) {
                self.reinstate();
            }
        }
        let date = if self.random.chance(100) { from } else { self.sorted(from) };
        self.chain_from(date);
    }

    /// The next date of the sort that it is the turn of, or of one after it in turn.
    fn sorted(&mut self, from: Date) -> Date {
        let turn = (self.seed + self.chains) as usize % TURNS.len();
        for &sort in TURNS[turn..].iter().chain(&TURNS[..turn]) {
            let mut dates = std::iter::successors(Some(from), |date| Some(date.day_after()));
            let in_time = |date: &Date| date.three_months_later() < LAST_DATE;
            if let Some(date) = dates.by_ref().take_while(in_time).find(|&date| Sort::of(date) == sort) {
                return date;
            }
        }
        from
    }

    /// Days at any distance, of any conduct.
    fn wander(&mut self) {
        for _ in 0..self.random.within(3, 7) {
            let step = self.random.pick(&[1, 1, 2, 30, 31, 45, 60, 92]);
            let conduct = self.any_conduct();
            let date = later(self.latest(), step).min(LAST_DATE);
            self.day(date, conduct);
            self.sometimes_refused(date);
        }
    }

    /// Instances from a date on, until the unit is declared or the chain breaks off.
    fn chain_from(&mut self, first: Date) {
        self.chains += 1;
        let first = first.min(LAST_DATE);
        self.day(first, Conduct::Instance);
        let second = self.second(first);
        // Whether conformant days lie in the gap before the second, in that before the third.
        let neither = if first.three_months_later() > LAST_DATE { 0 } else { 200 };
        let (mut before, mut gap) = if self.random.chance(neither) {
            (false, false)
        } else {
            self.random.pick(&[(true, false), (true, false), (false, true), (false, true), (true, true)])
        };
        self.gap(first, second, before);
        self.day(second, Conduct::Instance);
        let (mut first, mut second) = (first, second);
        for instance in 3..=6 {
            if self.latest() >= LAST_DATE || self.calls >= MOST_CALLS {
                return;
            }
            let third = self.third(first, second, before || gap);
            self.gap(second, third, gap);
            self.day(third, Conduct::Instance);
            if self.ledger.is_declared() || (instance > 3 && self.random.chance(450)) {
                return;
            }
            (first, second) = (second, third);
            (before, gap) = (gap, self.random.chance(550));
        }
    }

    /// A second instance before the border, on the last day of a month or the like, or on any.
    fn second(&mut self, first: Date) -> Date {
        let room = days_between(first, first.three_months_later()) - 2;
        let date = match self.random.below(10) {
            0 => first.day_after(),
            1 => later(first, room),
            2 | 3 => later(first, self.random.within(1, room)),
            _ => {
                let dates: Vec<Date> = (1..=room).map(|step| later(first, step)).collect();
                let sorted: Vec<Date> = dates.iter().copied().filter(|&date| Sort::of(date) != Sort::Other).collect();
                self.random.pick(if sorted.is_empty() { &dates } else { &sorted })
            }
        };
        // Room for a third in the last year.
        date.min(later(first, 1).max(Date::new(2_099, 12, 29)))
    }

    /// A third instance at the border or beside it, or anywhere.
    fn third(&mut self, first: Date, second: Date, conformant: bool) -> Date {
        let border = first.three_months_later();
        let (late, very_day, early) = match (conformant, Sort::of(first)) {
            (false, _) => (420, 250, 180),
            (true, Sort::Other) => (400, 250, 150),
            (true, _) => (390, 440, 70),
        };
        let date = if border > LAST_DATE {
            later(second, self.random.pick(&[1, 5, 40, 90]))
        } else {
            let roll = self.random.below(1_000);
            match self.random.below(5) {
                _ if roll < late => border.day_after(),
                _ if roll < late + very_day => border,
                _ if roll < late + very_day + early => day_before(border),
                0 | 1 => later(second, self.random.within(1, 25)),
                2 => later(border, self.random.within(2, 300)),
                // Three months after the second; the same day number of another month.
                3 => second.three_months_later(),
                _ => border.three_months_later(),
            }
        };
        date.max(second.day_after()).min(LAST_DATE)
    }

    /// What lies between two instances.
    fn gap(&mut self, from: Date, to: Date, conformant: bool) {
        self.sometimes_refused(to);
        if self.random.chance(if conformant { 100 } else { 250 }) {
            self.filler(from, to, Conduct::WithoutDispatch);
            if self.random.chance(150) {
                let date = self.not_later();
                let conduct = self.any_conduct();
                self.day(date, conduct);
            }
        }
        if conformant {
            self.filler(from, to, Conduct::Conformant);
            if self.random.chance(80) {
                self.filler(from, to, Conduct::WithoutDispatch);
            }
        }
        self.sometimes_refused(to);
    }

    /// A day between two dates, if one is left.
    fn filler(&mut self, from: Date, to: Date, conduct: Conduct) {
        let from = from.max(self.latest());
        let room = days_between(from, to) - 1;
        if room > 0 {
            let step = match self.random.below(6) {
                0 => 1,
                1 => room,
                _ => self.random.within(1, room),
            };
            let date = later(from, step);
            if date <= LAST_DATE {
                self.day(date, conduct);
            }
        }
    }

    /// After a chain: days of a unit that is declared, and its reinstatement.
    fn aftermath(&mut self) {
        if !self.ledger.is_declared() {
            if self.random.chance(200) {
                self.reinstate();
            }
            return;
        }
        while self.random.chance(280) && self.latest() < LAST_DATE {
            let conduct = self.any_conduct();
            let step = self.random.pick(&[1, 10, 40, 100]);
            let date = later(self.latest(), step).min(LAST_DATE);
            self.day(date, conduct);
        }
        if self.random.chance(250) {
            self.refused(self.latest().day_after());
        }
        if self.random.chance(930) {
            self.reinstate();
            if self.random.chance(200) {
                self.reinstate();
            }
            if self.random.chance(120) {
                let date = if self.random.chance(500) { self.latest() } else { self.not_later() };
                self.day(date, Conduct::Instance);
            }
            if self.random.chance(150) {
                // Declared again soon.
                let count = self.random.within(1, 3);
                for _ in 0..count {
                    let date = later(self.latest(), self.random.within(1, 12));
                    if date <= LAST_DATE {
                        self.day(date, Conduct::Instance);
                    }
                }
                if self.ledger.is_declared() && self.random.chance(800) {
                    self.reinstate();
                }
            }
        }
    }

    /// No day can be accepted any more.
    fn end_of_the_century(&mut self) {
        for date in [LAST_DATE, LAST_DATE.day_after(), Date::new(2_099, 12, 30)] {
            if self.random.chance(700) {
                let conduct = self.any_conduct();
                self.day(date, conduct);
            }
        }
        if self.random.chance(600) {
            self.reinstate();
            self.reinstate();
        }
    }

    // Refused calls.

    fn sometimes_refused(&mut self, next: Date) {
        if self.random.chance(210) {
            self.refused(next);
        }
    }

    /// A refused call, which leaves everything as it was. `next`: a date that would do.
    fn refused(&mut self, next: Date) {
        let conduct = self.any_conduct();
        match self.random.below(100) {
            0..=46 => {
                let date = self.no_such_date(next);
                self.day(date, conduct);
            }
            47..=63 if self.ledger.latest().is_some() => {
                let date = self.not_later();
                self.day(date, conduct);
            }
            64..=89 => {
                let bytes = self.random.pick(&[Bytes::Length, Bytes::Value]);
                let date = match self.random.below(3) {
                    0 => next,
                    1 => self.not_later(),
                    _ => self.no_such_date(next),
                };
                let file = self.file(bytes);
                self.call(date, &file);
            }
            _ if !self.ledger.is_declared() => self.reinstate(),
            _ => {}
        }
    }

    /// A date that exists and is not later than the latest.
    fn not_later(&mut self) -> Date {
        let latest = self.latest();
        let back = self.random.pick(&[1, 2, 30, 200]);
        let date = match self.random.below(6) {
            0 | 1 => latest,
            2 => day_before(latest),
            // Higher in a part that weighs less.
            3 => Date { month: latest.month - 1, day: 28, ..latest },
            4 => Date::new(latest.year - 1, 12, latest.day.max(25)),
            _ => (0..back).fold(latest, |date, _| day_before(date)),
        };
        if date.exists() && date <= latest {
            date
        } else {
            latest
        }
    }

    /// A date that does not exist, near one that would do.
    fn no_such_date(&mut self, next: Date) -> Date {
        let near = if self.random.chance(400) { self.latest() } else { next };
        let Date { year, month, day } = near;
        let common = (year..).find(|&year| !is_leap(year)).unwrap_or(year);
        let leap = (year..).find(|&year| is_leap(year)).unwrap_or(year);
        match self.random.below(19) {
            0 => Date { month: 0, ..near },
            1 => Date { month: 13, ..near },
            2 => Date { month: u32::MAX, ..near },
            3 => Date { day: 0, ..near },
            4 => Date { day: 32, month: self.random.pick(&[1, 7, 12, month]), ..near },
            5 => Date { day: u32::MAX, ..near },
            6 | 7 => Date { day: 31, month: self.random.pick(&[4, 6, 9, 11]), ..near },
            8 | 9 => Date::new(self.random.pick(&[common, common, 2_001, 2_099, 2_098]), 2, 29),
            10 | 18 => Date::new(leap, 2, 30),
            11 => Date::new(common, 2, self.random.pick(&[30, 31])),
            12 => Date::new(1_999, self.random.pick(&[12, month]), day),
            13 => Date::new(2_100, self.random.pick(&[1, 2, month]), self.random.pick(&[1, 28, day])),
            14 => Date { year: 0, ..near },
            15 => Date { year: u32::MAX, ..near },
            // Right in the lowest byte, or in the lowest two.
            16 => {
                let more = self.random.pick(&[256, 65_536, 1 << 31]);
                let parts = [(more, 0, 0), (0, more, 0), (0, 0, more)];
                let (years, months, days) = self.random.pick(&parts);
                Date::new(year + years, month + months, day + days)
            }
            _ => self.random.pick(&[
                Date::new(u32::MAX, u32::MAX, u32::MAX),
                Date::new(0, 0, 0),
                Date::new(2_100, 2, 29),
                Date::new(1_996, 2, 29),
                Date { month: 0, day: 0, ..near },
                Date { month: 12, day: 32, ..near },
            ]),
        }
    }

    // Ends.

    /// What a list ends with: in most, a call that cannot be read.
    fn end(&mut self) {
        let next = self.latest().day_after();
        let file = self.file(Bytes::Of(Conduct::Instance));
        let whole = [&next.bytes()[..], &file].concat();
        let mut cut = Script::new();
        cut.call(DAY, &whole);
        let cut = cut.into_bytes();
        match self.seed % 7 {
            0 => {
                // Fewer bytes than a head.
                let length = self.random.within(1, 7) as usize;
                let of_reinstatement = [2, 0, 0, 0, 0, 0, 0, 0];
                let head = if self.random.chance(500) { &of_reinstatement[..] } else { &cut[..] };
                self.script.raw(&head[..length]);
                return;
            }
            1 => {
                // Fewer bytes than the head says; what follows may be calls.
                match self.random.below(4) {
                    0 => self.script.raw(&cut[..self.random.pick(&[8, 9, 19, 20, 23, 24, 1_000, 3_479])]),
                    1 => self.script.raw(&[&[2, 0, 0, 0, 8, 0, 0, 0, 2][..], &[0; 6]].concat()),
                    2 => {
                        self.script.raw(&[&DAY.to_le_bytes()[..], &3_473u32.to_le_bytes(), &whole].concat());
                    }
                    _ => {
                        self.script.raw(&[&DAY.to_le_bytes()[..], &8_192u32.to_le_bytes(), &whole].concat());
                        self.script.raw(&[2, 0, 0, 0, 0, 0, 0, 0]);
                    }
                }
                return;
            }
            2 => {
                let tag = self.random.pick(&[0, 3, 4, 5, 257, 258, 0x0100_0000, 0x0200_0000, u32::MAX]);
                let payload = if self.random.chance(500) { &whole[..] } else { &[] };
                self.script.call(tag, payload);
            }
            3 => {
                let tag = self.random.pick(&[DAY, REINSTATE, DAY, 3]);
                let long: Vec<u8> = whole.iter().copied().cycle().take(2 * MAX_PAYLOAD).collect();
                match self.random.below(3) {
                    0 => self.script.call(tag, &long[..MAX_PAYLOAD + 1]),
                    1 => self.script.call(tag, &long[..self.random.pick(&[MAX_PAYLOAD + 2, 9_000, 2 * MAX_PAYLOAD])]),
                    _ => {
                        let length: u32 = self.random.pick(&[u32::MAX, 0x8000_0000, 8_193, u32::MAX - 7]);
                        self.script.raw(&[&tag.to_le_bytes()[..], &length.to_le_bytes(), &whole].concat());
                        return;
                    }
                }
            }
            4 => {
                let length = self.random.pick(&[1, 4, 12, whole.len()]);
                self.script.call(REINSTATE, &whole[..length]);
            }
            5 => {
                let length = self.random.pick(&[0, 1, 4, 8, 11, 11]);
                self.script.call(DAY, &whole[..length]);
            }
            _ => return,
        }
        // Calls that are not reached.
        if self.random.chance(700) {
            for _ in 0..self.random.within(1, 3) {
                self.script.call(REINSTATE, &[]);
            }
            if self.random.chance(300) {
                self.script.call(DAY, &whole);
            }
        }
    }
}

#[cfg(test)]
mod tests {
    use super::*;
    use crate::ledger::{run, Calls};

    #[test]
    fn fixed_by_the_seed() {
        assert_eq!(list(33), list(33));
        assert_ne!(list(33), list(34));
        assert_eq!(list(100), None);
        assert_eq!(list(150), Some(Vec::new()));
    }

    #[test]
    fn files_are_what_they_are_for() {
        let mut author = Author::new(1);
        for _ in 0..300 {
            for conduct in [Conduct::WithoutDispatch, Conduct::Conformant, Conduct::Instance] {
                let file = author.file(Bytes::Of(conduct));
                assert_eq!(response::assess_file(&file).map(Conduct::of), Ok(conduct));
            }
            let refusal = |file: Vec<u8>| response::assess_file(&file).map_err(|refusal| refusal.number());
            assert_eq!(refusal(author.file(Bytes::Length)), Err(31));
            assert_eq!(refusal(author.file(Bytes::Value)), Err(32));
        }
    }

    #[test]
    fn dates_that_are_refused() {
        let mut author = Author::new(1);
        for date in [FIRST_DATE, Date::new(2_000, 2, 29), Date::new(2_050, 5, 31), LAST_DATE] {
            author.day(date, Conduct::Conformant);
            for _ in 0..300 {
                assert!(!author.no_such_date(date.day_after().min(LAST_DATE)).exists());
                let not_later = author.not_later();
                assert!(not_later.exists() && not_later <= date);
            }
        }
    }

    #[test]
    fn lengths_of_lists() {
        for seed in (1..=200).filter(|seed| seed % 50 != 0 && seed % 40 != 7) {
            let bytes = list(seed).unwrap_or_default();
            let calls = Calls::new(&bytes).count();
            assert!((5..=70).contains(&calls), "{seed} {calls}");
            let mut out = Vec::new();
            run(&bytes, &mut out).unwrap();
            let ends_unread = out.split(|&byte| byte == b'\n').any(|line| line.starts_with(b"script error"));
            assert_eq!(ends_unread, seed % 7 != 6, "{seed}");
        }
    }
}
