//! Wholesale demand response: the conformance of one day, after the event.
//!
//! A day is the last target of the day before (u32, kW) and 288 records of 12 bytes, one a trading interval: dispatch target
//! MWB (u32, kW), baseline settlement quantity BSQ and metered energy ME (i32, Wh). Errors are in W.
//!
//! Within their bounds D is at most 115,200,000,000 in size, T 576,000,000 and an error 6,800,000,000: sums and products are
//! taken in i64.

use crate::refusal::Refusal;
use std::fmt;

/// Records of a day.
pub const RECORDS: usize = 288;
/// Bytes of a record.
pub const RECORD: usize = 12;
/// Bytes of the earlier target, which goes before the records.
pub const EARLIER: usize = 4;
/// The highest target.
pub const TARGET_BOUND: u32 = 2_000_000;
/// The greatest size of BSQ and of ME.
pub const ENERGY_BOUND: u32 = 200_000_000;
/// Size of the error from which an interval is flagged.
pub const ERROR_THRESHOLD: i64 = 6_000_000;

/// One trading interval.
#[derive(Clone, Copy, PartialEq, Eq, Debug, Default)]
pub struct Record {
    /// MWB.
    pub target: u32,
    /// BSQ.
    pub baseline: i32,
    /// ME.
    pub metered: i32,
}

impl Record {
    pub fn read(bytes: &[u8; RECORD]) -> Self {
        let [target, baseline, metered] = [0, 4, 8].map(|at| {
            let mut word = [0; 4];
            word.copy_from_slice(&bytes[at..at + 4]);
            word
        });
        Self {
            target: u32::from_le_bytes(target),
            baseline: i32::from_le_bytes(baseline),
            metered: i32::from_le_bytes(metered),
        }
    }

    pub fn bytes(self) -> [u8; RECORD] {
        let mut bytes = [0; RECORD];
        bytes[..4].copy_from_slice(&self.target.to_le_bytes());
        bytes[4..8].copy_from_slice(&self.baseline.to_le_bytes());
        bytes[8..].copy_from_slice(&self.metered.to_le_bytes());
        bytes
    }

    pub fn is_within_bounds(self) -> bool {
        self.target <= TARGET_BOUND
            && self.baseline.unsigned_abs() <= ENERGY_BOUND
            && self.metered.unsigned_abs() <= ENERGY_BOUND
    }

    /// BSQ - ME.
    pub fn response(self) -> i64 {
        i64::from(self.baseline) - i64::from(self.metered)
    }

    pub fn error(self) -> i64 {
        1000 * i64::from(self.target) - 12 * self.response()
    }

    /// The flag of the interval by its error; whether it is left out is another matter.
    pub fn flag(self) -> Flag {
        let error = self.error();
        if error >= ERROR_THRESHOLD {
            Flag::Under
        } else if error <= -ERROR_THRESHOLD {
            Flag::Over
        } else {
            Flag::None
        }
    }
}

/// Non-conformance of an interval or of the day.
#[derive(Clone, Copy, PartialEq, Eq, Debug)]
pub enum Flag {
    None,
    Under,
    Over,
}

impl Flag {
    /// The flag of a day by D and T.
    pub fn of_day(response: i64, target: u32) -> Self {
        let (delivered, dispatched) = (24 * response, 1000 * i64::from(target));
        if target == 0 {
            Self::None
        } else if delivered <= dispatched {
            Self::Under
        } else if delivered >= 3 * dispatched {
            Self::Over
        } else {
            Self::None
        }
    }
}

impl fmt::Display for Flag {
    fn fmt(&self, f: &mut fmt::Formatter<'_>) -> fmt::Result {
        f.write_str(match self {
            Self::None => "none",
            Self::Under => "under",
            Self::Over => "over",
        })
    }
}

/// What the assessment of a day finds.
#[derive(Clone, Copy, PartialEq, Eq, Debug)]
pub struct Assessment {
    /// D: the sum of BSQ - ME over the records with a nonzero target.
    pub response: i64,
    /// T: the sum of MWB.
    pub target: u32,
    pub flag: Flag,
    /// Intervals flagged under.
    pub under: u32,
    /// Intervals flagged over.
    pub over: u32,
}

impl fmt::Display for Assessment {
    fn fmt(&self, f: &mut fmt::Formatter<'_>) -> fmt::Result {
        let Self { response, target, flag, under, over } = self;
        write!(f, "{response} {target} {flag} {under} {over}")
    }
}

/// Assesses a day by the last target of the day before and the bytes of its records.
pub fn assess(earlier: u32, records: &[u8]) -> Result<Assessment, Refusal> {
    let (chunks, rest) = records.as_chunks::<RECORD>();
    if chunks.len() != RECORDS || !rest.is_empty() {
        return Err(Refusal::DayLength);
    }
    let records: Vec<Record> = chunks.iter().map(Record::read).collect();
    if earlier > TARGET_BOUND || !records.iter().all(|record| record.is_within_bounds()) {
        return Err(Refusal::DayValue);
    }
    let (mut response, mut target, mut under, mut over) = (0, 0, 0, 0);
    let mut before = earlier;
    for record in records {
        if record.target != 0 {
            response += record.response();
            target += record.target;
            match record.flag() {
                Flag::Under if before != 0 => under += 1,
                Flag::Over if before != 0 => over += 1,
                _ => {}
            }
        }
        before = record.target;
    }
    Ok(Assessment { response, target, flag: Flag::of_day(response, target), under, over })
}

/// Assesses the bytes of a file: the earlier target, then the records.
pub fn assess_file(bytes: &[u8]) -> Result<Assessment, Refusal> {
    let (&earlier, records) = bytes.split_first_chunk::<EARLIER>().ok_or(Refusal::DayLength)?;
    assess(u32::from_le_bytes(earlier), records)
}

/// The line that is printed for the bytes of a file, without its end.
pub fn printed(bytes: &[u8]) -> String {
    assess_file(bytes).map_or_else(|refusal| refusal.to_string(), |assessment| assessment.to_string())
}
