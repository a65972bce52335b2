//! Pairs of random lists of calls that are alike for a group, fixed by a seed.
//!
//! The first is the list of the seed up to a call that cannot be read. At each accepted load a group is chosen. The second
//! list has the same accepted loads, the same calls that name a point of the group, and other calls that name none. Its
//! intervals have the same length and the same header but for other regions' bits, and other lines for the units outside the
//! group.

use crate::line::Kind;
use crate::monitor::HIGHEST_MASK;
use crate::random_calls::{list, Random};
use crate::register::{Plant, REGIONS};
use crate::replay::{Call, Calls, Script};

/// The seeds that are tried.
pub const SEEDS: std::ops::RangeInclusive<u64> = 1..=1_000;

pub struct Pair {
    pub first: Vec<u8>,
    pub second: Vec<u8>,
    /// For each accepted load a point of the group, from 1.
    pub points: Vec<u32>,
}

/// The points of the group that a point belongs to; all count from 1.
pub fn group(plant: &Plant, point: u32) -> Vec<u32> {
    let units = plant.units() as u32;
    let points = |aggregate: usize| -> Vec<u32> {
        let members = plant.members(aggregate).iter().map(|&unit| u32::from(unit) + 1);
        members.chain([units + 1 + aggregate as u32]).collect()
    };
    let groups = (0..plant.aggregates()).map(points);
    groups.into_iter().find(|group| group.contains(&point)).unwrap_or_else(|| vec![point])
}

/// The pair of a seed.
pub fn pair(seed: u64) -> Pair {
    let bytes = list(seed);
    let mut random = Random(!seed);
    let (mut first, mut second) = (Script::new(), Script::new());
    let mut points = Vec::new();
    let mut chosen: Option<(Plant, Vec<u32>)> = None;
    for call in Calls::new(&bytes).map_while(Result::ok) {
        let point = match call {
            Call::Load(register) => {
                first.load(register);
                if let Ok((plant, _)) = Plant::load(register) {
                    second.load(register);
                    let point = choose(&mut random, &plant);
                    points.push(point);
                    let group = group(&plant, point);
                    chosen = Some((plant, group));
                }
                continue;
            }
            Call::Interval { .. } => None,
            Call::Declare { point, .. }
            | Call::Reinstate { point }
            | Call::Look { point }
            | Call::Reason { point }
            | Call::Target { point } => Some(point),
        };
        first.add(call);
        let Some((plant, group)) = &chosen else { continue };
        if point.is_some_and(|point| !group.contains(&point)) {
            continue;
        }
        for _ in 0..random.below(3) {
            let point = random.below(plant.points() + 2) as u32;
            if !group.contains(&point) {
                call_outside(&mut random, &mut second, point);
            }
        }
        match call {
            Call::Interval { report, buffer } => {
                second.interval(report as u32, &alike(&mut random, plant, group, buffer));
            }
            _ => second.add(call),
        }
    }
    Pair { first: first.into_bytes(), second: second.into_bytes(), points }
}

/// A point of any group, the small ones as likely as the large.
fn choose(random: &mut Random, plant: &Plant) -> u32 {
    let aggregates = plant.units()..plant.points();
    let loners = plant.loners().iter().map(|&unit| usize::from(unit));
    let points: Vec<usize> = aggregates.chain(loners).collect();
    random.pick(&points) as u32 + 1
}

fn call_outside(random: &mut Random, second: &mut Script, point: u32) {
    second.declare(point, random.within(-130_000_000, 130_000_000) as i32);
    second.reason(point);
    second.target(point);
    if random.chance(500) {
        second.reinstate(point);
    }
}

/// An interval that is alike for the group.
fn alike(random: &mut Random, plant: &Plant, group: &[u32], buffer: &[u8]) -> Vec<u8> {
    let mut bytes = buffer.to_vec();
    if let Some(mask) = bytes.get_mut(4) {
        *mask = alike_mask(random, *mask, plant.region(group[0] as usize - 1));
    }
    for unit in (0..plant.units()).filter(|&unit| !group.contains(&(unit as u32 + 1))) {
        // Another unit's line, with a byte now and then of its own.
        let other = random.below(plant.units());
        for at in 0..40 {
            let (to, from) = (8 + 40 * unit + at, 8 + 40 * other + at);
            if to < buffer.len() && from < buffer.len() {
                bytes[to] = if random.chance(5) { random.byte() } else { buffer[from] };
            }
        }
        let flag = 10 + 40 * unit;
        if plant.kind(unit) == Kind::SemiScheduled && flag < buffer.len() {
            bytes[flag] = random.pick(&[0, 1, 1, 2, 255, buffer[flag]]);
        }
    }
    bytes
}

/// A mask with the same bit of this region. Both are refused with 9, or neither is.
fn alike_mask(random: &mut Random, mask: u8, region: u8) -> u8 {
    let own = 1 << region;
    let others = match random.below(4) {
        0 => mask,
        1 => mask ^ 1 << ((region + random.within(1, 4) as u8) % REGIONS),
        2 => mask ^ HIGHEST_MASK,
        _ => random.byte(),
    };
    // Bits 5 to 7, which are no region's: none of them, or some.
    let above = match mask & !HIGHEST_MASK {
        0 => 0,
        above => random.pick(&[above, above, 32, 64, 128, 224]),
    };
    (mask & own) | (others & HIGHEST_MASK & !own) | above
}

#[cfg(test)]
mod tests {
    use super::*;

    #[test]
    fn groups() {
        // Chain 3 1; unit 2 in none.
        let register = [3, 1, 2, 3, 4, 2, 3, 4, 0, 0, 0, 0, 0, 0, 0, 0, 1, 0, 2, 0, 1, 0, 0, 0, 1, 1, 2, 0, 3, 0, 0, 0];
        let (plant, _) = Plant::load(&register).unwrap();
        assert_eq!([1, 3, 4].map(|point| group(&plant, point)), [[3, 1, 4]; 3]);
        assert_eq!(group(&plant, 2), [2]);
    }

    #[test]
    fn masks() {
        let mut random = Random(1);
        for mask in 0..=255 {
            for region in 0..REGIONS {
                for _ in 0..20 {
                    let other = alike_mask(&mut random, mask, region);
                    assert_eq!((mask ^ other) >> region & 1, 0);
                    assert_eq!(other > 31, mask > 31);
                }
            }
        }
    }
}
