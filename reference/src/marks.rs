//! Rate of change, triggers, errors, and the mark of a unit and of an aggregate.
//!
//! An aggregate has at most 64 members and each value of a line is within 2,000,000, so its sums are within 128,000,000
//! and its differences within 512,000,000: i32 and u32 hold them. Products by 100, 200 and 400 are taken in u64.

use crate::line::{Kept, Kind, Line, Quality, LINE};
use std::cmp::Ordering;

#[derive(Clone, Copy, PartialEq, Eq, Debug)]
#[repr(u8)]
pub enum Mark {
    Off = 0,
    Blank = 1,
    Clear = 2,
    Doubt = 3,
    Small = 4,
    Large = 5,
}

/// The answer of [`unit_mark`] to an unknown kind or a line that is not 40 bytes.
pub const NO_MARK: u32 = 6;

/// What an interval finds of a point. Error and trigger are 0 for OFF and BLANK.
#[derive(Clone, Copy, PartialEq, Eq, Debug)]
pub struct Assessment {
    pub mark: Mark,
    pub error: i32,
    /// The small trigger.
    pub trigger: u32,
    /// The level if this interval declares the point: a unit's MW as far as its kind allows, the signed sum for an
    /// aggregate.
    pub level: i32,
}

impl Assessment {
    #[inline(always)]
    fn without_error(mark: Mark) -> Self {
        Self { mark, error: 0, trigger: 0, level: 0 }
    }
}

/// Triggers in hundredths of a kW.
#[derive(Clone, Copy, PartialEq, Eq, Debug)]
pub struct Triggers {
    pub small: u32,
    pub large: u32,
}

impl Triggers {
    const LEAST: u32 = 600_000;

    /// From MWO and ROC. Both are at most 128,000,000, so 5 × MWO is below 2^32.
    #[inline(always)]
    pub fn of(availability: u32, rate: u32) -> Self {
        let lesser = |by_availability: u32, by_rate: u64| u64::from(by_availability).min(by_rate) as u32;
        Self {
            small: lesser(3 * availability, 200 * u64::from(rate)).max(Self::LEAST),
            large: lesser(5 * availability, 400 * u64::from(rate)).max(Self::LEAST),
        }
    }
}

/// ROC in one direction out of ramp up and ramp down: target above power goes up, below goes down, equal takes the least.
#[inline(always)]
fn rate(direction: Ordering, up: u32, down: u32) -> u32 {
    match direction {
        Ordering::Greater => up,
        Ordering::Less => down,
        Ordering::Equal => up.min(down),
    }
}

/// The signed error of `power` against the kept target with its margins.
#[inline(always)]
pub fn error(power: i32, target: i32, up: u32, down: u32) -> i32 {
    let above = power - (target + up as i32);
    let below = power - (target - down as i32);
    // At most one of the two is nonzero, as above <= below.
    above.max(0) + below.min(0)
}

/// CLEAR, DOUBT, SMALL or LARGE.
#[inline(always)]
fn judge(level: i32, error: i32, triggers: Triggers, substituted: bool) -> Assessment {
    let size = 100 * u64::from(error.unsigned_abs());
    let mark = if size <= u64::from(triggers.small) {
        Mark::Clear
    } else if substituted {
        Mark::Doubt
    } else if size > u64::from(triggers.large) {
        Mark::Large
    } else {
        Mark::Small
    };
    Assessment { mark, error, trigger: triggers.small, level }
}

/// A unit's assessment from this interval's line and the line kept from the interval before; None is unreadable, and
/// nothing kept or stale.
#[inline(always)]
pub fn assess_unit(kind: Kind, member: bool, line: Option<&Line>, kept: Option<&Kept>) -> Assessment {
    let Some(line) = line else {
        return Assessment::without_error(Mark::Blank);
    };
    if member && line.mode != 2 {
        return Assessment::without_error(Mark::Off);
    }
    let (Some(kept), Quality::Good | Quality::Substituted) = (kept, line.quality) else {
        return Assessment::without_error(Mark::Blank);
    };
    let (up, down) = match kind {
        Kind::Load => (kept.lower, kept.raise),
        Kind::Generating | Kind::Bidirectional | Kind::SemiScheduled => (kept.raise, kept.lower),
    };
    let rate = rate(line.target.cmp(&line.power), line.ramp_up, line.ramp_down);
    let found = judge(
        kind.level(line.power),
        error(line.power, kept.target, up, down),
        Triggers::of(line.availability, rate),
        line.quality == Quality::Substituted,
    );
    if !member && kind == Kind::SemiScheduled {
        by_cap(found, kept)
    } else {
        found
    }
}

/// A semi-scheduled unit's assessment, given that of a generating unit. The flag is the kept one: it came with the target.
/// Uncapped it is OFF; capped only a positive error counts, and a negative one is CLEAR whatever the quality.
#[inline(always)]
fn by_cap(found: Assessment, kept: &Kept) -> Assessment {
    if kept.cap_flag == 0 {
        Assessment::without_error(Mark::Off)
    } else if found.error < 0 {
        Assessment { mark: Mark::Clear, ..found }
    } else {
        found
    }
}

/// Sums over the members of one side of an aggregate: kinds 1 and 3, or kind 2.
#[derive(Clone, Copy, Default)]
struct Side {
    availability: u32,
    ramp_up: u32,
    ramp_down: u32,
    ramp_least: u32,
}

impl Side {
    #[inline(always)]
    fn rate(&self, direction: Ordering) -> u32 {
        match direction {
            Ordering::Greater => self.ramp_up,
            Ordering::Less => self.ramp_down,
            Ordering::Equal => self.ramp_least,
        }
    }
}

/// Sums over the members of an aggregate, all of them readable.
#[derive(Clone, Copy)]
struct Sums {
    modes_zero: bool,
    /// A member with quality 2 or nothing kept.
    missing: bool,
    substituted: bool,
    power: i32,
    target: i32,
    kept_target: i32,
    up: u32,
    down: u32,
    generating: Side,
    load: Side,
}

impl Default for Sums {
    fn default() -> Self {
        Self {
            modes_zero: true,
            missing: false,
            substituted: false,
            power: 0,
            target: 0,
            kept_target: 0,
            up: 0,
            down: 0,
            generating: Side::default(),
            load: Side::default(),
        }
    }
}

impl Sums {
    #[inline(always)]
    fn add(&mut self, kind: Kind, line: &Line, kept: Option<&Kept>) {
        self.modes_zero &= line.mode == 0;
        let (Some(kept), Quality::Good | Quality::Substituted) = (kept, line.quality) else {
            self.missing = true;
            return;
        };
        self.substituted |= line.quality == Quality::Substituted;
        let side = if kind == Kind::Load {
            self.power -= line.power;
            self.target -= line.target;
            self.kept_target -= kept.target;
            &mut self.load
        } else {
            self.power += line.power;
            self.target += line.target;
            self.kept_target += kept.target;
            &mut self.generating
        };
        self.up += kept.raise;
        self.down += kept.lower;
        side.availability += line.availability;
        side.ramp_up += line.ramp_up;
        side.ramp_down += line.ramp_down;
        side.ramp_least += line.ramp_up.min(line.ramp_down);
    }

    #[inline(always)]
    fn assess(&self) -> Assessment {
        if self.modes_zero {
            return Assessment::without_error(Mark::Off);
        }
        if self.missing {
            return Assessment::without_error(Mark::Blank);
        }
        let direction = self.target.cmp(&self.power);
        let rate = self.generating.rate(direction).max(self.load.rate(direction.reverse()));
        let availability = self.generating.availability.max(self.load.availability);
        judge(
            self.power,
            error(self.power, self.kept_target, self.up, self.down),
            Triggers::of(availability, rate),
            self.substituted,
        )
    }
}

/// What an aggregate's pass looks at in one member; None is unreadable, and nothing kept or stale.
#[derive(Clone, Copy, PartialEq, Eq, Debug)]
pub struct Member {
    pub kind: Kind,
    pub line: Option<Line>,
    pub kept: Option<Kept>,
}

/// What the pass over an aggregate's members returns.
#[derive(Clone, Copy, PartialEq, Eq, Debug)]
pub struct Pass {
    pub assessment: Assessment,
    /// Members looked at: the place of the first unreadable one, counted from 1, or the length of the chain.
    pub looked: u32,
}

/// The pass over an aggregate's members, given in chain order. It ends at the first unreadable one: the aggregate is BLANK
/// then, its sums are not used, and no later member is taken from the iterator.
#[inline(always)]
pub fn assess_aggregate(members: &mut impl Iterator<Item = Member>) -> Pass {
    let mut sums = Sums::default();
    let mut looked = 0;
    for Member { kind, line, kept } in members {
        looked += 1;
        let Some(line) = line else {
            return Pass { assessment: Assessment::without_error(Mark::Blank), looked };
        };
        sums.add(kind, &line, kept.as_ref());
    }
    Pass { assessment: sums.assess(), looked }
}

/// The mark of the second of two successive lines of a unit in no chain; 6 for an unknown kind or a line that is not
/// 40 bytes.
pub fn unit_mark(kind: u32, earlier: &[u8], later: &[u8]) -> u32 {
    let (Some(kind), Ok(earlier), Ok(later)) =
        (Kind::of(kind), <&[u8; LINE]>::try_from(earlier), <&[u8; LINE]>::try_from(later))
    else {
        return NO_MARK;
    };
    let kept = Line::read(earlier, kind, false).map(|line| line.kept());
    let line = Line::read(later, kind, false);
    assess_unit(kind, false, line.as_ref(), kept.as_ref()).mark as u32
}

#[cfg(test)]
mod tests {
    use super::*;

    const ORDINARY: Line = Line {
        quality: Quality::Good,
        mode: 2,
        cap_flag: 0,
        target: 100_000,
        availability: 100_000,
        raise: 5_000,
        lower: 0,
        power: 100_000,
        ramp_up: 3_000,
        ramp_down: 3_000,
    };
    const KEPT: Kept = Kept { target: 100_000, raise: 5_000, lower: 0, cap_flag: 0 };

    fn good(kind: Kind, line: Line) -> Member {
        Member { kind, line: Some(line), kept: Some(KEPT) }
    }

    /// The assessment of a pass that looks at all members.
    fn whole(members: &[Member]) -> Assessment {
        let Pass { assessment, looked } = assess_aggregate(&mut members.iter().copied());
        assert_eq!(looked as usize, members.len());
        assessment
    }

    fn unit(kind: Kind, line: Line) -> (Mark, i32) {
        let found = assess_unit(kind, false, Some(&line), Some(&KEPT));
        assert_eq!(found.trigger, 600_000);
        (found.mark, found.error)
    }

    #[test]
    fn table_of_triggers() {
        for (availability, rate, small, large) in [
            (100_000, 3_000, 600_000, 600_000),
            (500_000, 5_000, 1_000_000, 2_000_000),
            (400_000, 10_000, 1_200_000, 2_000_000),
        ] {
            assert_eq!(Triggers::of(availability, rate), Triggers { small, large });
        }
        // The greatest sums of an aggregate.
        assert_eq!(Triggers::of(128_000_000, 128_000_000), Triggers { small: 384_000_000, large: 640_000_000 });
        assert_eq!(Triggers::of(128_000_000, 0), Triggers { small: 600_000, large: 600_000 });
    }

    #[test]
    fn table_of_marks() {
        let at = |power| Line { power, ..ORDINARY };
        assert_eq!(unit(Kind::Generating, at(111_000)), (Mark::Clear, 6_000));
        assert_eq!(unit(Kind::Generating, at(111_001)), (Mark::Large, 6_001));
        assert_eq!(unit(Kind::Load, at(89_000)), (Mark::Clear, -6_000));
        assert_eq!(unit(Kind::Load, at(88_999)), (Mark::Large, -6_001));
        // The margins themselves give 0.
        assert_eq!(unit(Kind::Generating, at(105_000)), (Mark::Clear, 0));
        assert_eq!(unit(Kind::Load, at(95_000)), (Mark::Clear, 0));
        assert_eq!(unit(Kind::Load, at(106_001)), (Mark::Large, 6_001));
    }

    #[test]
    fn small_between_the_triggers() {
        // MWO 200,000: small 600,000, large 1,000,000.
        let at = |power, quality| {
            let line = Line { power, quality, availability: 200_000, ramp_up: 9_000, ramp_down: 9_000, ..ORDINARY };
            unit(Kind::Bidirectional, line).0
        };
        assert_eq!(at(111_000, Quality::Good), Mark::Clear);
        assert_eq!(at(111_001, Quality::Good), Mark::Small);
        assert_eq!(at(115_000, Quality::Good), Mark::Small);
        assert_eq!(at(115_001, Quality::Good), Mark::Large);
        assert_eq!(at(111_000, Quality::Substituted), Mark::Clear);
        assert_eq!(at(111_001, Quality::Substituted), Mark::Doubt);
        assert_eq!(at(115_001, Quality::Substituted), Mark::Doubt);
    }

    const CAPPED: Kept = Kept { lower: 2_000, cap_flag: 1, ..KEPT };
    const UNCAPPED: Kept = Kept { cap_flag: 0, ..CAPPED };

    #[test]
    fn semi_scheduled_under_a_cap() {
        use Mark::*;
        // MWO 200,000: small 600,000, large 1,000,000. Without error from 98,000 to 105,000.
        for (power, error, good, substituted) in [
            (105_000, 0, Clear, Clear),
            (105_001, 1, Clear, Clear),
            (111_000, 6_000, Clear, Clear),
            (111_001, 6_001, Small, Doubt),
            (115_000, 10_000, Small, Doubt),
            (115_001, 10_001, Large, Doubt),
            (2_000_000, 1_895_000, Large, Doubt),
            (98_000, 0, Clear, Clear),
            (97_999, -1, Clear, Clear),
            (92_000, -6_000, Clear, Clear),
            (91_999, -6_001, Clear, Clear),
            (88_000, -10_000, Clear, Clear),
            (87_999, -10_001, Clear, Clear),
            (-2_000_000, -2_098_000, Clear, Clear),
        ] {
            for (quality, mark) in [(Quality::Good, good), (Quality::Substituted, substituted)] {
                // This line's own flag is only kept.
                for cap_flag in [0, 1] {
                    let line = Line {
                        quality,
                        mode: 0,
                        cap_flag,
                        availability: 200_000,
                        power,
                        ramp_up: 9_000,
                        ramp_down: 9_000,
                        ..ORDINARY
                    };
                    let found = |kept| assess_unit(Kind::SemiScheduled, false, Some(&line), Some(kept));
                    let level = power.max(0);
                    assert_eq!(found(&CAPPED), Assessment { mark, error, trigger: 600_000, level });
                    assert_eq!(found(&UNCAPPED), Assessment::without_error(Off));
                }
            }
        }
    }

    #[test]
    fn semi_scheduled_trigger_below_target() {
        // A CLEAR below target reports the trigger of that direction: ramp up 6,000 below, ramp down 9,000 above.
        let at = |power| {
            let line = Line { mode: 0, availability: 900_000, power, ramp_up: 6_000, ramp_down: 9_000, ..ORDINARY };
            let found = assess_unit(Kind::SemiScheduled, false, Some(&line), Some(&CAPPED));
            (found.mark, found.error, found.trigger)
        };
        assert_eq!(at(80_000), (Mark::Clear, -18_000, 1_200_000));
        assert_eq!(at(86_000), (Mark::Clear, -12_000, 1_200_000));
        assert_eq!(at(85_999), (Mark::Clear, -12_001, 1_200_000));
        assert_eq!(at(123_000), (Mark::Clear, 18_000, 1_800_000));
        assert_eq!(at(123_001), (Mark::Small, 18_001, 1_800_000));
        assert_eq!(at(141_000), (Mark::Small, 36_000, 1_800_000));
        assert_eq!(at(141_001), (Mark::Large, 36_001, 1_800_000));
    }

    #[test]
    fn order_of_semi_scheduled_marks() {
        let line = |quality| Line { quality, mode: 0, power: 120_000, ..ORDINARY };
        let mark =
            |line: Option<Line>, kept: Option<&Kept>| assess_unit(Kind::SemiScheduled, false, line.as_ref(), kept).mark;
        // Unreadable, quality 2 and nothing kept go before the kept flag.
        for kept in [Some(&CAPPED), Some(&UNCAPPED), None] {
            assert_eq!(mark(None, kept), Mark::Blank);
            assert_eq!(mark(Some(line(Quality::Bad)), kept), Mark::Blank);
        }
        for quality in [Quality::Good, Quality::Substituted] {
            assert_eq!(mark(Some(line(quality)), None), Mark::Blank);
            assert_eq!(mark(Some(line(quality)), Some(&UNCAPPED)), Mark::Off);
        }
        assert_eq!(mark(Some(line(Quality::Good)), Some(&CAPPED)), Mark::Large);
        assert_eq!(mark(Some(line(Quality::Substituted)), Some(&CAPPED)), Mark::Doubt);
    }

    #[test]
    fn order_of_marks() {
        let bad_off = Line { quality: Quality::Bad, mode: 0, ..ORDINARY };
        let mark = |member, line, kept| assess_unit(Kind::Generating, member, line, kept).mark;
        assert_eq!(mark(true, None, Some(&KEPT)), Mark::Blank);
        assert_eq!(mark(true, Some(&bad_off), None), Mark::Off);
        assert_eq!(mark(true, Some(&Line { mode: 1, ..ORDINARY }), Some(&KEPT)), Mark::Off);
        assert_eq!(mark(true, Some(&ORDINARY), None), Mark::Blank);
        assert_eq!(mark(true, Some(&ORDINARY), Some(&KEPT)), Mark::Clear);
        assert_eq!(mark(false, Some(&bad_off), Some(&KEPT)), Mark::Blank);
        let aggregate = |lines: &[(Option<&Line>, Option<&Kept>)]| {
            let member = |&(line, kept): &(Option<&Line>, Option<&Kept>)| Member {
                kind: Kind::Generating,
                line: line.copied(),
                kept: kept.copied(),
            };
            assess_aggregate(&mut lines.iter().map(member)).assessment.mark
        };
        assert_eq!(aggregate(&[(Some(&bad_off), None), (None, None)]), Mark::Blank);
        assert_eq!(aggregate(&[(Some(&bad_off), None), (Some(&bad_off), Some(&KEPT))]), Mark::Off);
        assert_eq!(aggregate(&[(Some(&bad_off), None), (Some(&ORDINARY), Some(&KEPT))]), Mark::Blank);
        assert_eq!(aggregate(&[(Some(&ORDINARY), None), (Some(&ORDINARY), Some(&KEPT))]), Mark::Blank);
        // A mode of 1 keeps an aggregate on, and so does one mode of 2; modes of 0 count in the sums.
        let one = Line { mode: 1, ..ORDINARY };
        let zero = Line { mode: 0, power: 140_000, ..ORDINARY };
        assert_eq!(aggregate(&[(Some(&one), Some(&KEPT)), (Some(&one), Some(&KEPT))]), Mark::Clear);
        assert_eq!(aggregate(&[(Some(&one), Some(&KEPT)), (Some(&zero), Some(&KEPT))]), Mark::Large);
        // A substituted value of a member that is off counts.
        let substituted = Line { quality: Quality::Substituted, ..zero };
        assert_eq!(aggregate(&[(Some(&ORDINARY), Some(&KEPT)), (Some(&substituted), Some(&KEPT))]), Mark::Doubt);
    }

    #[test]
    fn levels() {
        for (power, floored) in
            [(-2_000_000, 0), (-300, 0), (-1, 0), (0, 0), (1, 1), (300, 300), (2_000_000, 2_000_000)]
        {
            let line = Line { power, ..ORDINARY };
            let level = |kind, member| assess_unit(kind, member, Some(&line), Some(&KEPT)).level;
            for member in [false, true] {
                assert_eq!(level(Kind::Generating, member), floored);
                assert_eq!(level(Kind::Load, member), floored);
                assert_eq!(level(Kind::Bidirectional, member), power);
            }
            let capped = assess_unit(Kind::SemiScheduled, false, Some(&line), Some(&CAPPED));
            assert_eq!(capped.level, floored);
            // An aggregate adds the signed MW of its members and not their levels.
            let aggregate = |kinds: &[Kind]| {
                let members: Vec<Member> = kinds.iter().map(|&kind| good(kind, line)).collect();
                whole(&members).level
            };
            assert_eq!(aggregate(&[Kind::Generating]), power);
            assert_eq!(aggregate(&[Kind::Bidirectional]), power);
            assert_eq!(aggregate(&[Kind::Load]), -power);
            assert_eq!(aggregate(&[Kind::Generating, Kind::Bidirectional]), 2 * power);
            assert_eq!(aggregate(&[Kind::Load, Kind::Generating, Kind::Load]), -power);
        }
    }

    #[test]
    fn direction_of_a_unit() {
        let base = Line { availability: 2_000_000, ramp_up: 4_000, ramp_down: 5_000, ..ORDINARY };
        let trigger = |kind, power| assess_unit(kind, false, Some(&Line { power, ..base }), Some(&KEPT)).trigger;
        for kind in [Kind::Generating, Kind::Load, Kind::Bidirectional] {
            assert_eq!(trigger(kind, 99_999), 800_000);
            assert_eq!(trigger(kind, 100_001), 1_000_000);
            assert_eq!(trigger(kind, 100_000), 800_000);
        }
    }

    #[test]
    fn direction_of_an_aggregate() {
        // A generating unit and two loads with rates of their own; MWO wide enough.
        let generating = Line { availability: 2_000_000, ramp_up: 7_000, ramp_down: 9_000, ..ORDINARY };
        let load = Line {
            availability: 2_000_000,
            target: 10_000,
            power: 10_000,
            ramp_up: 5_000,
            ramp_down: 3_000,
            ..ORDINARY
        };
        let found = |power| {
            whole(&[
                good(Kind::Generating, Line { power, ..generating }),
                good(Kind::Load, load),
                good(Kind::Load, load),
            ])
        };
        // Target above: generating up 7,000, loads down 6,000.
        assert_eq!(found(90_000).trigger, 1_400_000);
        // Below: generating down 9,000, loads up 10,000.
        assert_eq!(found(110_000).trigger, 2_000_000);
        // Equal: generating 7,000, loads 6,000.
        assert_eq!(found(100_000).trigger, 1_400_000);
        // Signed sums; FCR is up for the loads too: kept target -100,000, up 15,000, down 0.
        assert_eq!(found(100_000).level, 80_000);
        assert_eq!(found(100_000).error, 80_000 - (-100_000 + 15_000));
        assert_eq!(found(-190_000).error, (-210_000) - (-100_000));
    }

    #[test]
    fn sides_of_an_aggregate_are_taken_apart() {
        // MWO from the loads, ROC from the generating side.
        let generating = Line { availability: 100_000, ramp_up: 8_000, ramp_down: 8_000, ..ORDINARY };
        let load = Line { availability: 900_000, ramp_up: 100, ramp_down: 100, ..ORDINARY };
        assert_eq!(whole(&[good(Kind::Generating, generating), good(Kind::Load, load)]).trigger, 1_600_000);
    }

    #[test]
    fn largest_aggregate() {
        let line = Line {
            target: -2_000_000,
            power: 2_000_000,
            availability: 2_000_000,
            ramp_up: 2_000_000,
            ramp_down: 2_000_000,
            ..ORDINARY
        };
        let kept = Kept { target: -2_000_000, raise: 0, lower: 2_000_000, cap_flag: 0 };
        let found = whole(&[Member { kind: Kind::Bidirectional, line: Some(line), kept: Some(kept) }; 64]);
        assert_eq!(
            (found.mark, found.error, found.trigger, found.level),
            (Mark::Large, 256_000_000, 384_000_000, 128_000_000)
        );
        let low = Line { power: -2_000_000, ..line };
        let kept = Kept { target: 2_000_000, raise: 2_000_000, lower: 0, cap_flag: 0 };
        let found = whole(&[Member { kind: Kind::Bidirectional, line: Some(low), kept: Some(kept) }; 64]);
        assert_eq!((found.mark, found.error, found.level), (Mark::Large, -256_000_000, -128_000_000));
    }

    const UNREADABLE: Member = Member { kind: Kind::Generating, line: None, kept: Some(KEPT) };

    /// Looks at the members; the second value is how many the pass took from the iterator.
    fn taken(members: &[Member]) -> (Pass, usize) {
        let mut rest = members.iter();
        let pass = assess_aggregate(&mut rest.by_ref().copied());
        (pass, members.len() - rest.len())
    }

    #[test]
    fn pass_ends_at_the_first_unreadable_member() {
        // Each member 6,000 kW past its kept target and raise. Alone it is at the trigger; from two on the triggers are
        // 3,000 kW and 5,000 kW a member.
        let line = Line { power: 111_000, ..ORDINARY };
        let blank = |looked| (Pass { assessment: Assessment::without_error(Mark::Blank), looked }, looked as usize);
        for length in [1, 2, 3, 4, 60, 64] {
            let members = vec![good(Kind::Generating, line); length];
            let n = length as i32;
            let (mark, trigger) = if n == 1 { (Mark::Clear, 600_000) } else { (Mark::Large, 300_000 * n as u32) };
            let assessment = Assessment { mark, error: 6_000 * n, trigger, level: 111_000 * n };
            assert_eq!(taken(&members), (Pass { assessment, looked: length as u32 }, length));
            for place in 1..=length {
                let mut one = members.clone();
                one[place - 1] = UNREADABLE;
                assert_eq!(taken(&one), blank(place as u32));
                // A second one, beyond or just behind, is not looked at.
                for second in place..=length {
                    let mut two = one.clone();
                    two[second - 1] = UNREADABLE;
                    assert_eq!(taken(&two), blank(place as u32));
                }
            }
            assert_eq!(taken(&vec![UNREADABLE; length]), blank(1));
        }
    }

    #[test]
    fn readable_members_do_not_end_the_pass() {
        let bad = good(Kind::Load, Line { quality: Quality::Bad, ..ORDINARY });
        let substituted = good(Kind::Load, Line { quality: Quality::Substituted, ..ORDINARY });
        let nothing_kept = Member { kept: None, ..good(Kind::Generating, ORDINARY) };
        let mode_zero = good(Kind::Bidirectional, Line { mode: 0, ..ORDINARY });
        let mode_zero_bad =
            Member { kept: None, ..good(Kind::Load, Line { mode: 0, quality: Quality::Bad, ..ORDINARY }) };
        let ordinary = good(Kind::Generating, ORDINARY);
        for length in [1usize, 4, 60, 64] {
            for place in [1, length.div_ceil(2), length] {
                let with = |member| {
                    let mut members = vec![ordinary; length];
                    members[place - 1] = member;
                    members
                };
                // BLANK by quality 2 or by nothing kept: the whole length.
                for member in [bad, nothing_kept] {
                    let (pass, took) = taken(&with(member));
                    assert_eq!((pass.assessment, pass.looked), (Assessment::without_error(Mark::Blank), length as u32));
                    assert_eq!(took, length);
                }
                for member in [bad, substituted, nothing_kept, mode_zero, mode_zero_bad] {
                    let members = with(member);
                    assert_eq!(taken(&members).0.looked, length as u32);
                    // An unreadable one behind or before it ends the pass all the same.
                    for unreadable in [1, length] {
                        if unreadable != place {
                            let mut members = members.clone();
                            members[unreadable - 1] = UNREADABLE;
                            let (pass, took) = taken(&members);
                            assert_eq!((pass.assessment.mark, pass.looked), (Mark::Blank, unreadable as u32));
                            assert_eq!(took, unreadable);
                        }
                    }
                }
            }
            for (member, mark) in [(mode_zero, Mark::Off), (mode_zero_bad, Mark::Off), (bad, Mark::Blank)] {
                let (pass, took) = taken(&vec![member; length]);
                assert_eq!((pass.assessment, pass.looked), (Assessment::without_error(mark), length as u32));
                assert_eq!(took, length);
            }
        }
    }

    #[test]
    fn function_for_the_host() {
        let line = |power: f32| {
            let mut bytes = [0; LINE];
            for (at, value) in [(4, 100_000u32), (8, 100_000), (12, 5_000), (20, 3_000), (24, 3_000)] {
                bytes[at..at + 4].copy_from_slice(&value.to_le_bytes());
            }
            for (at, value) in [(28, power), (32, 3.0), (36, 3.0)] {
                bytes[at..at + 4].copy_from_slice(&value.to_le_bytes());
            }
            bytes
        };
        let (earlier, mut later) = (line(100.0), line(111.0));
        assert_eq!(unit_mark(1, &earlier, &later), 2);
        assert_eq!(unit_mark(1, &earlier, &line(111.001)), 5);
        assert_eq!(unit_mark(2, &earlier, &line(89.0)), 2);
        assert_eq!(unit_mark(2, &earlier, &line(88.999)), 5);
        for kind in [0, 5, 6, 255, 257, 260, u32::MAX] {
            assert_eq!(unit_mark(kind, &earlier, &later), 6);
        }
        assert_eq!(unit_mark(1, &earlier[..39], &later), 6);
        assert_eq!(unit_mark(1, &earlier, &[0; 41]), 6);
        assert_eq!(unit_mark(1, &[], &later), 6);
        // Conformance mode 1 is unreadable in no chain; so nothing kept, or an unreadable line.
        later[1] = 1;
        assert_eq!(unit_mark(1, &earlier, &later), 1);
        assert_eq!(unit_mark(1, &later, &earlier), 1);
        // A kept line's quality plays no part.
        let mut bad = earlier;
        bad[0] = 2;
        assert_eq!(unit_mark(1, &bad, &line(112.0)), 5);
        assert_eq!(unit_mark(1, &earlier, &bad), 1);
        // Kind 4: flags in the earlier and in this line, power at the triggers on either side and just past them.
        let flagged = |power: f32, quality: u8, cap_flag: u8| {
            let mut bytes = line(power);
            (bytes[0], bytes[2]) = (quality, cap_flag);
            bytes
        };
        for (power, good, substituted) in
            [(111.0, 2, 2), (111.001, 5, 3), (100.0, 2, 2), (94.0, 2, 2), (93.999, 2, 2), (-2_000.0, 2, 2)]
        {
            for (quality, mark) in [(0, good), (1, substituted), (2, 1), (3, 1)] {
                for earlier_quality in [0, 1, 2] {
                    let found =
                        |kept, own| unit_mark(4, &flagged(100.0, earlier_quality, kept), &flagged(power, quality, own));
                    for own in [0, 1] {
                        assert_eq!(found(0, own), if quality < 2 { 0 } else { 1 });
                        assert_eq!(found(1, own), mark);
                        assert_eq!(found(2, own), 1);
                        assert_eq!(found(255, own), 1);
                    }
                    for (kept, own) in [0, 1, 2, 255].iter().flat_map(|&kept| [(kept, 2), (kept, 255)]) {
                        assert_eq!(found(kept, own), 1);
                    }
                }
            }
        }
        assert_eq!(unit_mark(4, &earlier[..39], &line(100.0)), 6);
        assert_eq!(unit_mark(4, &earlier, &[0; 41]), 6);
        // For the other kinds a flag of 1 makes the line unreadable.
        for kind in 1..=3 {
            assert_eq!(unit_mark(kind, &flagged(100.0, 0, 1), &line(100.0)), 1);
            assert_eq!(unit_mark(kind, &line(100.0), &flagged(100.0, 0, 1)), 1);
        }
    }
}
