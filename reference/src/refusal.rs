//! Why a call is refused.

use std::fmt;

/// A refusal; its number is the one printed.
#[derive(Clone, Copy, PartialEq, Eq, Debug)]
#[repr(u32)]
pub enum Refusal {
    /// Register under 16 bytes, or not 16 + 4n + 4m.
    RegisterLength = 1,
    /// n or m beyond its range.
    Counts = 2,
    /// Run lengths not rising, or below 2.
    RunLengths = 3,
    /// Unknown kind, region above 4, or a nonzero spare in the register.
    KindRegionOrSpare = 4,
    /// Index above n, or head 0.
    Index = 5,
    /// Unit met twice along the chains.
    MetTwice = 6,
    /// Next nonzero in a unit that no chain met.
    Unmet = 7,
    /// Interval not 8 + 40n bytes, or report not 16(n + m).
    BufferLength = 8,
    /// Mask above 31, or a nonzero spare in the interval header.
    Header = 9,
    /// Point 0 or above n + m; of a target, the point of a unit too.
    Point = 10,
    /// Level beyond ±128,000,000, or negative for a unit whose target cannot be.
    Level = 11,
    /// No register loaded.
    NoRegister = 20,
    /// Interval number not above the last accepted.
    NotRising = 21,
    /// Declare on a status other than 2 or 3.
    NotDeclarable = 22,
    /// Reinstate on a status other than 4.
    NotDeclared = 23,
    /// Semi-scheduled unit in a chain.
    SemiScheduledMember = 30,
    /// Day of demand response not of 288 records.
    DayLength = 31,
    /// Target above 2,000,000, or BSQ or ME beyond ±200,000,000, in a day of demand response.
    DayValue = 32,
    /// No such date from 2000 to 2099.
    NoSuchDate = 33,
    /// Date not later than the last accepted one.
    NotLater = 34,
    /// Reinstatement of a unit of demand response that is not declared.
    UnitNotDeclared = 35,
    /// Reason of a point that is not declared.
    NoReason = 36,
    /// Chain across regions.
    MixedRegions = 37,
}

impl Refusal {
    pub fn number(self) -> u32 {
        self as u32
    }
}

impl fmt::Display for Refusal {
    fn fmt(&self, f: &mut fmt::Formatter<'_>) -> fmt::Result {
        write!(f, "refused {}", self.number())
    }
}
