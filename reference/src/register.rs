//! The register: counts, run lengths, kinds, regions and chains.

use crate::line::Kind;
use crate::refusal::Refusal;

pub const MAX_UNITS: usize = 64;
pub const MAX_AGGREGATES: usize = 16;
pub const MAX_POINTS: usize = MAX_UNITS + MAX_AGGREGATES;
/// Regions are 0 to 4.
pub const REGIONS: u8 = 5;

const HEADER: usize = 16;

/// Lengths of one run: to Not-Responding, to Pending, to declaration.
#[derive(Clone, Copy, PartialEq, Eq, Debug)]
pub struct RunLengths {
    pub not_responding: u8,
    pub pending: u8,
    pub declaration: u8,
}

impl RunLengths {
    fn read(n: u8, p: u8, d: u8) -> Option<Self> {
        (2 <= n && n < p && p < d).then_some(Self { not_responding: n, pending: p, declaration: d })
    }
}

/// Where the members of one aggregate stand in the flat list.
#[derive(Clone, Copy, Default, PartialEq, Eq, Debug)]
pub struct Stretch {
    /// Counted from 0.
    pub start: u8,
    pub count: u8,
}

/// An accepted register, with the members of each aggregate side by side in chain order.
///
/// Units are indices 0 to n-1 here; points 1 to n of the papers.
#[derive(Clone, PartialEq, Eq, Debug)]
pub struct Plant {
    units: u8,
    aggregates: u8,
    small: RunLengths,
    large: RunLengths,
    kinds: [Kind; MAX_UNITS],
    /// Of each point: of the units, then of the aggregates, so that an interval looks at no member for it.
    regions: [u8; MAX_POINTS],
    /// The flat list: members of aggregate 0 along its chain, then those of 1, ...; then the units in no chain, rising.
    order: [u8; MAX_UNITS],
    /// The part of `order` that each aggregate has; all of them together are its first `member_count`.
    stretches: [Stretch; MAX_AGGREGATES],
    member_count: u8,
}

impl Plant {
    /// Reads a register. The second value is the visits made along the chains.
    pub fn load(register: &[u8]) -> Result<(Self, u32), Refusal> {
        if register.len() < HEADER {
            return Err(Refusal::RegisterLength);
        }
        let (header, rest) = register.split_at(HEADER);
        let units = usize::from(header[0]);
        let aggregates = usize::from(header[1]);
        if units == 0 || units > MAX_UNITS || aggregates > MAX_AGGREGATES {
            return Err(Refusal::Counts);
        }
        if rest.len() != 4 * units + 4 * aggregates {
            return Err(Refusal::RegisterLength);
        }
        let small = RunLengths::read(header[2], header[3], header[4]).ok_or(Refusal::RunLengths)?;
        let large = RunLengths::read(header[5], header[6], header[7]).ok_or(Refusal::RunLengths)?;

        let (unit_bytes, head_bytes) = rest.split_at(4 * units);
        let (unit_records, _) = unit_bytes.as_chunks::<4>();
        let (head_records, _) = head_bytes.as_chunks::<4>();

        // 4 over the whole register.
        let mut kinds = [Kind::Generating; MAX_UNITS];
        let mut regions = [0; MAX_POINTS];
        if header[8..].iter().any(|&spare| spare != 0) {
            return Err(Refusal::KindRegionOrSpare);
        }
        for ((kind, region), record) in kinds.iter_mut().zip(&mut regions).zip(unit_records) {
            *kind = Kind::of(u32::from(record[0])).ok_or(Refusal::KindRegionOrSpare)?;
            *region = record[2];
            if record[2] >= REGIONS || record[3] != 0 {
                return Err(Refusal::KindRegionOrSpare);
            }
        }
        if head_records.iter().any(|head| head[1..] != [0, 0, 0]) {
            return Err(Refusal::KindRegionOrSpare);
        }

        // 5 over the whole register.
        if unit_records.iter().any(|record| usize::from(record[1]) > units)
            || head_records.iter().any(|head| head[0] == 0 || usize::from(head[0]) > units)
        {
            return Err(Refusal::Index);
        }

        // 6: walk every chain; a second meeting ends a loop too.
        let mut met = [false; MAX_UNITS];
        let mut order = [0; MAX_UNITS];
        let mut stretches = [Stretch::default(); MAX_AGGREGATES];
        let mut visits = 0;
        for (stretch, head) in stretches.iter_mut().zip(head_records) {
            let start = visits;
            let mut next = head[0];
            while next != 0 {
                let unit = next - 1;
                if met[usize::from(unit)] {
                    return Err(Refusal::MetTwice);
                }
                met[usize::from(unit)] = true;
                order[visits] = unit;
                visits += 1;
                next = unit_records[usize::from(unit)][1];
            }
            *stretch = Stretch { start: start as u8, count: (visits - start) as u8 };
        }

        // 7: a unit that no chain met has no next.
        let mut placed = visits;
        for (unit, record) in unit_records.iter().enumerate() {
            if met[unit] {
                continue;
            }
            if record[1] != 0 {
                return Err(Refusal::Unmet);
            }
            order[placed] = unit as u8;
            placed += 1;
        }

        // 30: any place of any chain.
        if order[..visits].iter().any(|&unit| kinds[usize::from(unit)] == Kind::SemiScheduled) {
            return Err(Refusal::SemiScheduledMember);
        }

        // 37: every chain; an aggregate's region is its members'.
        for (aggregate, head) in head_records.iter().enumerate() {
            let region = regions[usize::from(head[0]) - 1];
            let Stretch { start, count } = stretches[aggregate];
            let members = &order[usize::from(start)..][..usize::from(count)];
            if members.iter().any(|&unit| regions[usize::from(unit)] != region) {
                return Err(Refusal::MixedRegions);
            }
            regions[units + aggregate] = region;
        }

        let plant = Self {
            units: units as u8,
            aggregates: aggregates as u8,
            small,
            large,
            kinds,
            regions,
            order,
            stretches,
            member_count: visits as u8,
        };
        Ok((plant, visits as u32))
    }

    /// n.
    pub fn units(&self) -> usize {
        usize::from(self.units)
    }

    /// m.
    pub fn aggregates(&self) -> usize {
        usize::from(self.aggregates)
    }

    /// n + m.
    pub fn points(&self) -> usize {
        self.units() + self.aggregates()
    }

    pub fn kind(&self, unit: usize) -> Kind {
        self.kinds[unit]
    }

    /// The region of a point, counted from 0.
    #[inline(always)]
    pub fn region(&self, point: usize) -> u8 {
        self.regions[point]
    }

    /// Whether the level of a point, counted from 0, may be negative.
    pub fn is_signed(&self, point: usize) -> bool {
        point >= self.units() || self.kind(point).is_signed()
    }

    /// Lengths for the small run.
    pub fn small(&self) -> RunLengths {
        self.small
    }

    /// Lengths for the large run.
    pub fn large(&self) -> RunLengths {
        self.large
    }

    /// The units of an aggregate, in chain order.
    pub fn members(&self, aggregate: usize) -> &[u8] {
        let Stretch { start, count } = self.stretches[aggregate];
        let start = usize::from(start);
        &self.order[start..start + usize::from(count)]
    }

    /// Where an aggregate's members stand in the list of all members.
    pub fn stretch(&self, aggregate: usize) -> Stretch {
        self.stretches[aggregate]
    }

    /// The members of all aggregates, one aggregate after the other.
    pub fn all_members(&self) -> &[u8] {
        &self.order[..usize::from(self.member_count)]
    }

    /// The units in no chain, rising.
    pub fn loners(&self) -> &[u8] {
        &self.order[usize::from(self.member_count)..self.units()]
    }
}

#[cfg(test)]
mod tests {
    use super::*;

    fn register(kinds_next: &[(u8, u8)], heads: &[u8]) -> Vec<u8> {
        let mut bytes = vec![kinds_next.len() as u8, heads.len() as u8, 2, 3, 4, 2, 3, 4];
        bytes.extend([0; 8]);
        for &(kind, next) in kinds_next {
            bytes.extend([kind, next, 0, 0]);
        }
        for &head in heads {
            bytes.extend([head, 0, 0, 0]);
        }
        bytes
    }

    fn refused(bytes: &[u8]) -> u32 {
        Plant::load(bytes).expect_err("accepted").number()
    }

    #[test]
    fn chains_give_members_and_visits() {
        let (plant, visits) = Plant::load(&register(&[(1, 3), (2, 0), (3, 0), (1, 0), (1, 2)], &[5, 1])).unwrap();
        assert_eq!(visits, 4);
        assert_eq!(plant.members(0), [4, 1]);
        assert_eq!(plant.members(1), [0, 2]);
        assert_eq!(plant.loners(), [3]);
        assert_eq!(plant.points(), 7);
        let (plant, visits) = Plant::load(&register(&[(1, 0)], &[])).unwrap();
        assert_eq!((visits, plant.loners()), (0, &[0u8][..]));
    }

    #[test]
    fn largest_register() {
        let units: Vec<(u8, u8)> = (1..=64).map(|u| (3, if u % 4 == 0 { 0 } else { u + 1 })).collect();
        let heads: Vec<u8> = (0..16).map(|a| 4 * a + 1).collect();
        assert_eq!(Plant::load(&register(&units, &heads)).unwrap().1, 64);
        let one: Vec<(u8, u8)> = (1..=64).map(|u| (1, if u == 64 { 0 } else { u + 1 })).collect();
        assert_eq!(Plant::load(&register(&one, &[1])).unwrap().1, 64);
    }

    #[test]
    fn lengths_and_counts() {
        assert_eq!(refused(&[]), 1);
        assert_eq!(refused(&[0; 15]), 1);
        assert_eq!(refused(&[0; 16]), 2);
        let good = register(&[(1, 0), (2, 0)], &[1]);
        assert_eq!(refused(&good[..good.len() - 1]), 1);
        let mut longer = good.clone();
        longer.push(0);
        assert_eq!(refused(&longer), 1);
        for (at, value) in [(0, 0), (0, 65), (0, 255), (1, 17), (1, 255)] {
            let mut bytes = good.clone();
            bytes[at] = value;
            assert_eq!(refused(&bytes), 2);
        }
        // Counts in range but another length.
        let mut bytes = good.clone();
        bytes[0] = 3;
        assert_eq!(refused(&bytes), 1);
    }

    #[test]
    fn run_lengths() {
        for lengths in [
            [1, 3, 4, 2, 3, 4],
            [2, 2, 4, 2, 3, 4],
            [2, 3, 3, 2, 3, 4],
            [2, 3, 4, 1, 3, 4],
            [2, 3, 4, 2, 2, 4],
            [2, 3, 4, 2, 3, 3],
            [0; 6],
        ] {
            let mut bytes = register(&[(1, 0)], &[]);
            bytes[2..8].copy_from_slice(&lengths);
            assert_eq!(refused(&bytes), 3);
        }
        let mut bytes = register(&[(1, 0)], &[]);
        bytes[2..8].copy_from_slice(&[253, 254, 255, 2, 3, 4]);
        assert!(Plant::load(&bytes).is_ok());
    }

    #[test]
    fn order_of_register_refusals() {
        let good = register(&[(1, 2), (2, 0)], &[1]);
        let with = |changes: &[(usize, u8)]| {
            let mut bytes = good.clone();
            for &(at, value) in changes {
                bytes[at] = value;
            }
            refused(&bytes)
        };
        // Unit 1 at 16, unit 2 at 20, head at 24.
        for at in (8..16).chain([19, 23, 25, 26, 27]) {
            assert_eq!(with(&[(at, 1)]), 4);
        }
        for region in [5, 6, 8, 16, 31, 128, 255] {
            assert_eq!(with(&[(18, region)]), 4);
            assert_eq!(with(&[(22, region)]), 4);
        }
        assert_eq!(with(&[(18, 1)]), 37);
        assert_eq!(with(&[(22, 1)]), 37);
        for kind in [0, 5, 6, 255] {
            assert_eq!(with(&[(20, kind)]), 4);
        }
        assert_eq!(with(&[(17, 3)]), 5);
        assert_eq!(with(&[(24, 0)]), 5);
        assert_eq!(with(&[(24, 3)]), 5);
        assert_eq!(with(&[(21, 1)]), 6);
        assert_eq!(with(&[(17, 0), (21, 1)]), 7);
        assert_eq!(with(&[(17, 0), (21, 2)]), 7);
        // A spare in the last head, and a region in the last unit, go before an index in the first unit.
        assert_eq!(with(&[(17, 3), (27, 1)]), 4);
        assert_eq!(with(&[(17, 3), (22, 5)]), 4);
        // An index in a unit that no chain meets goes before a unit met twice.
        assert_eq!(refused(&register(&[(1, 1), (1, 9)], &[1])), 5);
        // Run lengths go before kinds, length before run lengths.
        assert_eq!(with(&[(2, 0), (16, 9)]), 3);
        assert_eq!(with(&[(2, 0), (18, 5)]), 3);
        // All chains are walked before 7.
        assert_eq!(refused(&register(&[(1, 1), (1, 0)], &[2, 2])), 6);
        assert_eq!(refused(&register(&[(1, 0), (1, 3), (1, 2)], &[1])), 7);
        assert_eq!(refused(&register(&[(1, 2), (1, 0), (1, 2)], &[1, 3])), 6);
    }

    #[test]
    fn semi_scheduled_in_no_chain() {
        let (plant, visits) = Plant::load(&register(&[(4, 0), (1, 3), (2, 0), (4, 0)], &[2])).unwrap();
        assert_eq!((visits, plant.loners()), (2, &[0u8, 3][..]));
        assert_eq!((plant.kind(0), plant.kind(3)), (Kind::SemiScheduled, Kind::SemiScheduled));
        assert!(Plant::load(&register(&[(4, 0); 64], &[])).is_ok());
    }

    #[test]
    fn semi_scheduled_in_a_chain() {
        // Chains 5 2, 1 3 6 and 4; unit 7 in none.
        let nexts = [3, 0, 6, 0, 2, 0, 0];
        let heads = [5, 1, 4];
        let with_kinds = |kinds: &[(usize, u8)]| {
            let mut units = nexts.map(|next| (1, next));
            for &(unit, kind) in kinds {
                units[unit - 1].0 = kind;
            }
            register(&units, &heads)
        };
        // Each place of each chain, one and two at a time.
        for unit in 1..=6 {
            assert_eq!(refused(&with_kinds(&[(unit, 4)])), 30);
            assert_eq!(refused(&with_kinds(&[(unit, 4), (7, 4)])), 30);
            for other in 1..=6 {
                assert_eq!(refused(&with_kinds(&[(unit, 4), (other, 4)])), 30);
            }
        }
        assert_eq!(Plant::load(&with_kinds(&[(7, 4)])).unwrap().1, 6);
        // Alone in the only chain of the only unit, and in the last place of the longest chain.
        assert_eq!(refused(&register(&[(4, 0)], &[1])), 30);
        let mut longest: Vec<(u8, u8)> = (1..=64).map(|u| (1, if u == 64 { 0 } else { u + 1 })).collect();
        longest[63].0 = 4;
        assert_eq!(refused(&register(&longest, &[1])), 30);
    }

    #[test]
    fn order_of_semi_scheduled_in_a_chain() {
        // Chain 1 2; units 3 and 4 in none.
        let good = register(&[(1, 2), (2, 0), (3, 0), (1, 0)], &[1]);
        let with = |changes: &[(usize, u8)]| {
            let mut bytes = good.clone();
            for &(at, value) in changes {
                bytes[at] = value;
            }
            refused(&bytes)
        };
        // Unit u's kind at 12 + 4u, its next behind that; the head at 32.
        for chained in [16, 20] {
            assert_eq!(with(&[(chained, 4)]), 30);
            // 7 goes first, wherever the unmet unit stands and whatever its kind.
            assert_eq!(with(&[(chained, 4), (25, 1)]), 7);
            assert_eq!(with(&[(chained, 4), (29, 2)]), 7);
            assert_eq!(with(&[(chained, 4), (28, 4), (29, 4)]), 7);
            // So do 6, 5, 4, 3 and 2.
            assert_eq!(with(&[(chained, 4), (21, 1)]), 6);
            assert_eq!(with(&[(chained, 4), (29, 5)]), 5);
            assert_eq!(with(&[(chained, 4), (32, 0)]), 5);
            assert_eq!(with(&[(chained, 4), (28, 5)]), 4);
            assert_eq!(with(&[(chained, 4), (24, 0)]), 4);
            assert_eq!(with(&[(chained, 4), (35, 1)]), 4);
            assert_eq!(with(&[(chained, 4), (2, 1)]), 3);
            assert_eq!(with(&[(chained, 4), (1, 17)]), 2);
            assert_eq!(with(&[(chained, 4), (0, 5)]), 1);
        }
        // A semi-scheduled unit that no chain meets falls under 7 alone.
        assert_eq!(with(&[(28, 4), (29, 1)]), 7);
        assert_eq!(with(&[(17, 0), (20, 4), (21, 3)]), 7);
        // One that a chain runs into is met.
        assert_eq!(with(&[(21, 4), (28, 4)]), 30);
        assert_eq!(with(&[(32, 4), (28, 4), (29, 1)]), 30);
    }

    /// Gives units, counted from 1, these regions.
    fn with_regions(mut bytes: Vec<u8>, regions: &[(usize, u8)]) -> Vec<u8> {
        for &(unit, region) in regions {
            bytes[14 + 4 * unit] = region;
        }
        bytes
    }

    #[test]
    fn regions_of_points() {
        let regions = |bytes: &[u8]| -> Vec<u8> {
            let (plant, _) = Plant::load(bytes).unwrap();
            (0..plant.points()).map(|point| plant.region(point)).collect()
        };
        // Units in no chain, each in its own region; then all in one.
        let loners = register(&[(1, 0), (2, 0), (3, 0), (4, 0), (1, 0)], &[]);
        assert_eq!(regions(&with_regions(loners.clone(), &[(1, 4), (2, 0), (3, 3), (4, 1), (5, 2)])), [4, 0, 3, 1, 2]);
        for region in 0..=4 {
            assert_eq!(regions(&with_regions(loners.clone(), &[1, 2, 3, 4, 5].map(|u| (u, region)))), [region; 5]);
        }
        // Chains 5 2, 1 3 and 6; unit 4 in none. An aggregate is in its members' region.
        let chains = register(&[(1, 3), (2, 0), (3, 0), (1, 0), (1, 2), (1, 0)], &[5, 1, 6]);
        let units = [(5, 3), (2, 3), (1, 1), (3, 1), (6, 0), (4, 2)];
        assert_eq!(regions(&with_regions(chains.clone(), &units)), [1, 3, 1, 2, 3, 0, 3, 1, 0]);
        assert_eq!(regions(&chains), [0; 9]);
        // The largest: sixteen chains of four.
        let units: Vec<(u8, u8)> = (1..=64).map(|u| (3, if u % 4 == 0 { 0 } else { u + 1 })).collect();
        let heads: Vec<u8> = (0..16).map(|a| 4 * a + 1).collect();
        let spread: Vec<(usize, u8)> = (1..=64).map(|u| (u, ((u - 1) / 4 % 5) as u8)).collect();
        let found = regions(&with_regions(register(&units, &heads), &spread));
        assert!((0..64).all(|unit| usize::from(found[unit]) == unit / 4 % 5));
        assert_eq!(found[64..], [0, 1, 2, 3, 4, 0, 1, 2, 3, 4, 0, 1, 2, 3, 4, 0]);
    }

    #[test]
    fn chains_across_regions() {
        // Chains 5 2, 1 3 6 and 4; units 7 and 8 in none.
        let good = register(&[(1, 3), (2, 0), (3, 6), (1, 0), (1, 2), (3, 0), (1, 0), (4, 0)], &[5, 1, 4]);
        let chains: [&[usize]; 2] = [&[5, 2], &[1, 3, 6]];
        for (own, other) in [(0, 1), (0, 4), (4, 0), (2, 3)] {
            let all = with_regions(good.clone(), &[1, 2, 3, 4, 5, 6, 7, 8].map(|unit| (unit, own)));
            assert_eq!(Plant::load(&all).unwrap().1, 6);
            // Each place of both chains, one and two at a time; with all its members moved a chain is in one region again.
            for unit in [1, 2, 3, 5, 6] {
                assert_eq!(refused(&with_regions(all.clone(), &[(unit, other)])), 37);
                for second in [1, 2, 3, 5, 6] {
                    let bytes = with_regions(all.clone(), &[(unit, other), (second, other)]);
                    if unit != second && [unit, second].iter().all(|unit| chains[0].contains(unit)) {
                        assert!(Plant::load(&bytes).is_ok());
                    } else {
                        assert_eq!(refused(&bytes), 37);
                    }
                }
            }
            assert!(Plant::load(&with_regions(all.clone(), &[(1, other), (3, other), (6, other)])).is_ok());
            // A chain of one, and units in no chain, may be in any region.
            assert!(Plant::load(&with_regions(all, &[(4, other), (7, other), (8, other)])).is_ok());
        }
        // The last member of the longest chain, and that of the last chain of the largest register.
        let longest: Vec<(u8, u8)> = (1..=64).map(|u| (1, if u == 64 { 0 } else { u + 1 })).collect();
        assert_eq!(refused(&with_regions(register(&longest, &[1]), &[(64, 4)])), 37);
        let fours: Vec<(u8, u8)> = (1..=64).map(|u| (1, if u % 4 == 0 { 0 } else { u + 1 })).collect();
        let heads: Vec<u8> = (0..16).map(|a| 4 * a + 1).collect();
        assert_eq!(refused(&with_regions(register(&fours, &heads), &[(64, 1)])), 37);
        assert_eq!(refused(&with_regions(register(&fours, &heads), &[(61, 1)])), 37);
    }

    #[test]
    fn order_of_chains_across_regions() {
        // Chains 1 2 and 5 6; units 3 and 4 in none. Unit 2 in another region than unit 1.
        let units = [(1, 2), (2, 0), (3, 0), (1, 0), (1, 6), (1, 0)];
        let across = with_regions(register(&units, &[1, 5]), &[(2, 1)]);
        let with = |changes: &[(usize, u8)]| {
            let mut bytes = across.clone();
            for &(at, value) in changes {
                bytes[at] = value;
            }
            refused(&bytes)
        };
        // Unit u's kind at 12 + 4u, its next, its region and its spare behind that; the heads at 40 and 44.
        assert_eq!(with(&[]), 37);
        // 30 goes before, in that chain or in a later one, and 7 before that.
        for chained in [16, 20, 32, 36] {
            assert_eq!(with(&[(chained, 4)]), 30);
            assert_eq!(with(&[(chained, 4), (25, 1)]), 7);
        }
        assert_eq!(with(&[(29, 3)]), 7);
        // So do 6, 5, 4, 3, 2 and 1.
        assert_eq!(with(&[(37, 1)]), 6);
        assert_eq!(with(&[(44, 1)]), 6);
        assert_eq!(with(&[(29, 7)]), 5);
        assert_eq!(with(&[(44, 0)]), 5);
        assert_eq!(with(&[(36, 5)]), 4);
        assert_eq!(with(&[(39, 1)]), 4);
        assert_eq!(with(&[(38, 5)]), 4);
        assert_eq!(with(&[(2, 1)]), 3);
        assert_eq!(with(&[(1, 17)]), 2);
        assert_eq!(with(&[(0, 7)]), 1);
        // A second chain across regions changes nothing; one alone is enough, wherever it stands.
        assert_eq!(with(&[(38, 2)]), 37);
        assert_eq!(with(&[(22, 0), (38, 2)]), 37);
        assert_eq!(with(&[(22, 0), (34, 2)]), 37);
        // A chain that runs on into a unit of another region.
        assert_eq!(with(&[(22, 0), (37, 3), (26, 4)]), 37);
    }
}
