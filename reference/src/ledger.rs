//! Wholesale demand response over the year: the instances of non-conformance of one unit, and its declaration.
//!
//! A ledger keeps the accepted days since the last accepted reinstatement, as they came, and the date of the latest; the rule is
//! looked up in that list. The calls of a list of [`frames`](crate::frames), by tag: 1 day (u32 year, u32 month, u32 day, then the
//! bytes of a file of [`response`](crate::response)), 2 reinstate (nothing).

use crate::frames;
use crate::refusal::Refusal;
use crate::response::{self, Assessment, Flag};
use std::io::{self, Write};

pub const DAY: u32 = 1;
pub const REINSTATE: u32 = 2;

/// Bytes of a date.
pub const DATE: usize = 12;

/// The first year and the last.
pub const YEARS: std::ops::RangeInclusive<u32> = 2_000..=2_099;

/// A date as it is given, whether there is such a date or not. The order is that of time.
#[derive(Clone, Copy, PartialEq, Eq, PartialOrd, Ord, Debug)]
pub struct Date {
    pub year: u32,
    pub month: u32,
    pub day: u32,
}

pub fn is_leap(year: u32) -> bool {
    year.is_multiple_of(4) && (!year.is_multiple_of(100) || year.is_multiple_of(400))
}

/// Days of a month; none where there is no such month.
pub fn days_of(year: u32, month: u32) -> u32 {
    match month {
        1 | 3 | 5 | 7 | 8 | 10 | 12 => 31,
        4 | 6 | 9 | 11 => 30,
        2 if is_leap(year) => 29,
        2 => 28,
        _ => 0,
    }
}

impl Date {
    pub fn new(year: u32, month: u32, day: u32) -> Self {
        Self { year, month, day }
    }

    pub fn exists(self) -> bool {
        YEARS.contains(&self.year) && (1..=days_of(self.year, self.month)).contains(&self.day)
    }

    /// The same day number three months later, or that month's last day if it has none. May lie in 2100.
    pub fn three_months_later(self) -> Self {
        let (year, month) = if self.month <= 9 { (self.year, self.month + 3) } else { (self.year + 1, self.month - 9) };
        Self { year, month, day: self.day.min(days_of(year, month)) }
    }

    /// May lie in 2100.
    pub fn day_after(self) -> Self {
        let Self { year, month, day } = self;
        if day < days_of(year, month) {
            Self { day: day + 1, ..self }
        } else if month < 12 {
            Self::new(year, month + 1, 1)
        } else {
            Self::new(year + 1, 1, 1)
        }
    }

    pub fn read(bytes: &[u8; DATE]) -> Self {
        let [year, month, day] = [0, 4, 8].map(|at| {
            let mut word = [0; 4];
            word.copy_from_slice(&bytes[at..at + 4]);
            u32::from_le_bytes(word)
        });
        Self { year, month, day }
    }

    pub fn bytes(self) -> [u8; DATE] {
        let mut bytes = [0; DATE];
        bytes[..4].copy_from_slice(&self.year.to_le_bytes());
        bytes[4..8].copy_from_slice(&self.month.to_le_bytes());
        bytes[8..].copy_from_slice(&self.day.to_le_bytes());
        bytes
    }
}

/// What a day is to the ledger.
#[derive(Clone, Copy, PartialEq, Eq, Debug)]
pub enum Conduct {
    WithoutDispatch,
    Conformant,
    Instance,
}

impl Conduct {
    pub fn of(day: Assessment) -> Self {
        if day.target == 0 {
            Self::WithoutDispatch
        } else if day.flag != Flag::None || day.under > 0 || day.over > 0 {
            Self::Instance
        } else {
            Self::Conformant
        }
    }
}

/// The ledger of one unit.
#[derive(Clone, PartialEq, Eq, Debug, Default)]
pub struct Ledger {
    /// Accepted days since the last accepted reinstatement, or since the start.
    days: Vec<(Date, Conduct)>,
    /// Date of the last accepted day, also of one before the reinstatement.
    latest: Option<Date>,
}

/// Whether the last of these days is an instance at which the latest three declare.
fn declares(days: &[(Date, Conduct)]) -> bool {
    let on = |wanted: Conduct| days.iter().filter(move |&&(_, conduct)| conduct == wanted).map(|&(date, _)| date);
    let instances: Vec<Date> = on(Conduct::Instance).collect();
    let (Some(&(today, _)), [.., first, _, third]) = (days.last(), &instances[..]) else { return false };
    let conformant_between = on(Conduct::Conformant).any(|date| *first < date && date < *third);
    today == *third && (*third <= first.three_months_later() || !conformant_between)
}

impl Ledger {
    pub fn new() -> Self {
        Self::default()
    }

    pub fn latest(&self) -> Option<Date> {
        self.latest
    }

    /// Accepted days since the last accepted reinstatement, or since the start.
    pub fn days(&self) -> &[(Date, Conduct)] {
        &self.days
    }

    /// Whether the rule held at some day since the last accepted reinstatement, or since the start.
    pub fn is_declared(&self) -> bool {
        (1..=self.days.len()).any(|count| declares(&self.days[..count]))
    }

    pub fn day(&mut self, date: Date, day: Assessment) -> Result<(), Refusal> {
        if !date.exists() {
            return Err(Refusal::NoSuchDate);
        }
        if self.latest.is_some_and(|latest| date <= latest) {
            return Err(Refusal::NotLater);
        }
        self.latest = Some(date);
        self.days.push((date, Conduct::of(day)));
        Ok(())
    }

    pub fn reinstate(&mut self) -> Result<(), Refusal> {
        if !self.is_declared() {
            return Err(Refusal::UnitNotDeclared);
        }
        self.days.clear();
        Ok(())
    }

    /// A day by the bytes of its file, which is assessed first.
    pub fn day_of_file(&mut self, date: Date, file: &[u8]) -> Result<Assessment, Refusal> {
        let day = response::assess_file(file)?;
        self.day(date, day)?;
        Ok(day)
    }
}

/// One call of a list.
#[derive(Clone, Copy, PartialEq, Eq, Debug)]
pub enum Call<'a> {
    Day { date: Date, file: &'a [u8] },
    Reinstate,
}

/// The calls of a list.
pub type Calls<'a> = frames::Calls<'a, Call<'a>>;

impl<'a> Calls<'a> {
    pub fn new(bytes: &'a [u8]) -> Self {
        Self::of(bytes, read_call)
    }
}

fn read_call(tag: u32, payload: &[u8]) -> Option<Call<'_>> {
    match tag {
        DAY => {
            let (date, file) = payload.split_first_chunk()?;
            Some(Call::Day { date: Date::read(date), file })
        }
        REINSTATE if payload.is_empty() => Some(Call::Reinstate),
        _ => None,
    }
}

/// Runs the list on an empty ledger and prints one line a call.
pub fn run(bytes: &[u8], out: &mut impl Write) -> io::Result<()> {
    let mut ledger = Ledger::new();
    for call in Calls::new(bytes) {
        match call {
            Ok(Call::Day { date, file }) => match ledger.day_of_file(date, file) {
                Ok(day) => writeln!(out, "day accepted {day} {}", u32::from(ledger.is_declared()))?,
                Err(refusal) => writeln!(out, "day {refusal}")?,
            },
            Ok(Call::Reinstate) => match ledger.reinstate() {
                Ok(()) => writeln!(out, "reinstate accepted")?,
                Err(refusal) => writeln!(out, "reinstate {refusal}")?,
            },
            Err(place) => writeln!(out, "script error at byte {place}")?,
        }
    }
    Ok(())
}
