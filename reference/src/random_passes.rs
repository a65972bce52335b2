//! Random cases for [`passes`](crate::passes), fixed by a seed.
//!
//! A case wishes something of each member (readable or not, quality, mode, kept or not), and units of one wish mostly share a
//! sample. Of the aggregates that come to have an error, many are moved to a trigger or beside it.

use crate::line::{Kind, Quality};
use crate::marks::Triggers;
use crate::passes::{read_sample, Case, BLOCK, BLOCKS, KEPT, SAMPLE};
use crate::random_calls::{float_bits, Draft, Random, UNREADABLE_POWERS, UNREADABLE_RATES};
use crate::random_chains::{deal, deck, nexts, Order};
use crate::register::REGIONS;

const LIMIT: i64 = 2_000_000;

/// The blocks of a seed: three that are full, and a fourth.
pub fn blocks(seed: u64) -> Vec<u8> {
    let mut author = Author { random: Random(seed), seed, count: 0 };
    let mut bytes = Vec::new();
    let mut case = author.case();
    for block in 0..BLOCKS {
        let last = block == BLOCKS - 1;
        let end =
            BLOCK * block + if last { author.random.within(BLOCK as i64 / 2, BLOCK as i64) as usize } else { BLOCK };
        while bytes.len() + case.len() <= end {
            bytes.extend(case);
            case = author.case();
        }
        let mut behind = author.behind(&case);
        behind.truncate(end - bytes.len());
        bytes.extend(behind);
        if !last {
            bytes.resize(end, 0);
        }
    }
    bytes
}

/// What a case wishes of one unit's sample.
#[derive(Clone, Copy, PartialEq, Eq)]
struct Wish {
    kind: Kind,
    readable: bool,
    quality: u8,
    mode: u8,
    kept: bool,
}

/// A register before it becomes bytes; units from 0.
struct Plan {
    kinds: Vec<Kind>,
    regions: Vec<u8>,
    chains: Vec<Vec<usize>>,
}

struct Author {
    random: Random,
    seed: u64,
    /// Cases made so far.
    count: usize,
}

impl Author {
    fn case(&mut self) -> Vec<u8> {
        self.count += 1;
        let order = self.random.pick(&[Order::Rising, Order::Falling, Order::Shuffled, Order::Shuffled]);
        let plan = self.plan(order);
        let mut register = self.register(&plan);
        if self.random.chance(35) {
            self.damage_register(&mut register, &plan);
        }
        let (samples, picks) =
            if self.random.chance(80) { self.any_samples(&plan) } else { self.wished_samples(&plan) };
        let lengths: Vec<String> = plan.chains.iter().take(6).map(|chain| chain.len().to_string()).collect();
        let mut label = format!("{}-{}", self.seed, self.count);
        if self.random.chance(900) {
            label = format!("{label} {} {}", order.name(), lengths.join("+"));
        }
        Case { label: label.as_bytes(), register: &register, samples: &samples, picks: &picks }.bytes()
    }

    /// What stands behind the last case of a block and prints nothing: mostly nothing.
    fn behind(&mut self, case: &[u8]) -> Vec<u8> {
        let register_at = 3 + usize::from(case[0]);
        let samples_at = register_at + usize::from(u16::from_le_bytes([case[register_at - 2], case[register_at - 1]]));
        let picks_at = samples_at + 1 + SAMPLE * usize::from(case[samples_at]);
        match self.random.below(8) {
            // Cut off by the end of the block, or before it.
            0 => case[..case.len() - 1].to_vec(),
            1 => case[..self.random.below(case.len())].to_vec(),
            // No samples, or no picks.
            2 => [&case[..samples_at], &[0], case].concat(),
            3 => [&case[..picks_at], &[0], case].concat(),
            // A zero where a case would begin.
            4 => [&[0], case].concat(),
            _ => Vec::new(),
        }
    }

    // Registers.

    /// Lengths of the chains, and how many units stand in none.
    fn lengths(&mut self) -> (Vec<usize>, usize) {
        let random = &mut self.random;
        let mut lengths = match random.below(40) {
            0..=11 => return (vec![64], 0),
            12..=21 => {
                let more = random.below(5);
                let single = if more > 0 && random.chance(500) { random.below(more) + 1 } else { 0 };
                let mut lengths = vec![1; single];
                lengths.insert(random.below(single + 1), 60);
                return (lengths, more - single);
            }
            22..=24 => vec![random.below(63) + 1],
            25 => vec![random.pick(&[1, 2, 3, 4, 59, 61, 62, 63])],
            26..=30 => {
                let longest = random.pick(&[2, 3, 4, 6, 9, 16]);
                (0..random.below(15) + 2).map(|_| random.below(longest) + 1).collect()
            }
            31 => (0..16).map(|_| random.below(4) + 1).collect(),
            32..=34 => return (vec![4; 16], 0),
            35 => vec![1; random.below(16) + 1],
            36 | 37 => vec![1; 16],
            // A register without aggregates.
            _ => Vec::new(),
        };
        while lengths.iter().sum::<usize>() > 64 {
            lengths.pop();
        }
        let room = 64 - lengths.iter().sum::<usize>();
        let least = usize::from(lengths.is_empty());
        let loners = if random.chance(600) { random.below(room.min(6) + 1) } else { 0 };
        (lengths, loners.max(least))
    }

    fn plan(&mut self, order: Order) -> Plan {
        let (lengths, loners) = self.lengths();
        let n = lengths.iter().sum::<usize>() + loners;
        let random = &mut self.random;
        let neighbours = random.chance(300);
        let mut units = deck(random, n, neighbours);
        let mut chains: Vec<Vec<usize>> = lengths.iter().map(|&length| deal(&mut units, length)).collect();
        chains.iter_mut().for_each(|chain| order.arrange(random, chain));
        let member_kinds = [Kind::Generating, Kind::Load, Kind::Bidirectional];
        let one_kind = random.chance(300).then(|| random.pick(&member_kinds));
        let mut kinds: Vec<Kind> = (0..n).map(|_| one_kind.unwrap_or_else(|| random.pick(&member_kinds))).collect();
        // What is left of the units stands in no chain.
        for unit in units {
            if random.chance(500) {
                kinds[unit] = Kind::SemiScheduled;
            }
        }
        let mut regions: Vec<u8> = (0..n).map(|_| random.below(usize::from(REGIONS)) as u8).collect();
        for chain in &chains {
            chain.iter().for_each(|&unit| regions[unit] = regions[chain[0]]);
        }
        Plan { kinds, regions, chains }
    }

    fn register(&mut self, plan: &Plan) -> Vec<u8> {
        let mut bytes = vec![plan.kinds.len() as u8, plan.chains.len() as u8];
        for _ in 0..2 {
            let low = self.random.within(2, 250);
            bytes.extend(self.random.pick(&[[2, 3, 4], [low as u8, low as u8 + 1, 255]]));
        }
        bytes.extend([0; 8]);
        let nexts = nexts(plan.kinds.len(), &plan.chains);
        let units = plan.kinds.iter().zip(nexts).zip(&plan.regions);
        bytes.extend(units.flat_map(|((&kind, next), &region)| [kind as u8, next, region, 0]));
        bytes.extend(plan.chains.iter().flat_map(|chain| [chain[0] as u8 + 1, 0, 0, 0]));
        bytes
    }

    /// Damage for each of the refusals 1 to 7, 30 and 37.
    fn damage_register(&mut self, bytes: &mut Vec<u8>, plan: &Plan) {
        let random = &mut self.random;
        let n = plan.kinds.len();
        let unit = 16 + 4 * random.below(n);
        let heads = 16 + 4 * n;
        let Some(chain) = plan.chains.first() else { return bytes.truncate(random.below(16)) };
        match random.below(10) {
            0 => bytes.truncate(random.below(16)),
            1 => bytes.truncate(bytes.len() - random.pick(&[1, 4])),
            2 => bytes[random.below(2)] = random.pick(&[65, 128, 255]),
            3 => bytes[random.pick(&[2, 3, 5, 6])] = random.pick(&[0, 1, 255]),
            4 => bytes[unit + random.pick(&[0, 2, 3])] = random.pick(&[5, 9, 255]),
            5 => bytes[random.pick(&[unit + 1, heads])] = random.pick(&[65, 255]),
            6 => bytes[17 + 4 * chain[chain.len() - 1]] = random.pick(chain) as u8 + 1,
            7 => {
                // No chain meets anything now.
                bytes.truncate(heads);
                bytes[1] = 0;
                bytes[unit + 1] = 1;
            }
            8 => bytes[18 + 4 * random.pick(chain)] = (plan.regions[chain[0]] + 1) % REGIONS,
            _ => bytes[16 + 4 * random.pick(chain)] = Kind::SemiScheduled as u8,
        }
    }

    // Samples.

    /// A few samples, and picks that go round or are left over.
    fn any_samples(&mut self, plan: &Plan) -> (Vec<[u8; SAMPLE]>, Vec<u8>) {
        let clean = self.random.chance(300);
        let samples = (0..self.random.below(8) + 1)
            .map(|_| {
                let kind = self.random.pick(&plan.kinds);
                let wish = Wish {
                    kind,
                    readable: clean || self.random.chance(900),
                    quality: self.random.pick(&[0, 0, 0, 0, 0, 1, 2]),
                    mode: self.random.pick(&[0, 1, 2, 2, 2]),
                    kept: clean || self.random.chance(900),
                };
                self.sample(wish)
            })
            .collect();
        let picks = match self.random.below(3) {
            0 => self.random.below(4) + 1,
            1 => self.random.below(plan.kinds.len()) + 1,
            _ => self.random.below(255) + 1,
        };
        (samples, (0..picks).map(|_| self.random.byte()).collect())
    }

    /// Samples as the chains wish them, and a pick for each unit.
    fn wished_samples(&mut self, plan: &Plan) -> (Vec<[u8; SAMPLE]>, Vec<u8>) {
        let sharing = if self.random.chance(30) { 0 } else { self.random.pick(&[900, 970, 990, 1_000, 1_000, 1_000]) };
        let mut samples: Vec<(Wish, [u8; SAMPLE])> = Vec::new();
        let mut sample_of = vec![0; plan.kinds.len()];
        for chain in &plan.chains {
            for (wish, &unit) in self.wishes(plan, chain).into_iter().zip(chain) {
                let alike: Vec<usize> = (0..samples.len()).filter(|&sample| samples[sample].0 == wish).collect();
                sample_of[unit] = if !alike.is_empty() && self.random.chance(sharing) {
                    self.random.pick(&alike)
                } else {
                    let sample = self.sample(wish);
                    samples.push((wish, sample));
                    samples.len() - 1
                };
            }
        }
        let mut samples: Vec<[u8; SAMPLE]> = samples.into_iter().map(|(_, sample)| sample).collect();
        for chain in &plan.chains {
            if self.random.chance(850) {
                self.tune(plan, chain, &mut samples, &mut sample_of);
            }
        }
        if samples.is_empty() {
            let wish = Wish { kind: plan.kinds[0], readable: true, quality: 0, mode: 0, kept: true };
            samples.push(self.sample(wish));
        }
        // Any pick that leaves the sample's number as remainder; more picks than units change nothing.
        let mut picks: Vec<u8> = sample_of
            .into_iter()
            .map(|sample| (sample + samples.len() * self.random.below((255 - sample) / samples.len() + 1)) as u8)
            .collect();
        if self.random.chance(100) {
            picks.extend((0..self.random.below(256 - picks.len())).map(|_| self.random.byte()));
        }
        (samples, picks)
    }

    /// Places of a chain that are unreadable.
    fn unreadable(&mut self, length: usize) -> Vec<bool> {
        let random = &mut self.random;
        let mut places = vec![false; length];
        match random.below(100) {
            0..=29 => {}
            30..=49 => places[0] = true,
            50..=75 => places[length - 1] = true,
            76..=83 => places[random.below(length)] = true,
            84..=87 => (places[0], places[length - 1]) = (true, true),
            88..=93 => {
                for _ in 0..2 {
                    places[random.below(length)] = true;
                }
            }
            94..=97 => {
                for place in &mut places {
                    *place = random.chance(150);
                }
            }
            _ => places.fill(true),
        }
        places
    }

    /// Some places of a chain, early or late.
    fn some(&mut self, length: usize) -> Vec<usize> {
        (0..self.random.below(3) + 1).map(|_| self.random.below(length)).collect()
    }

    fn wishes(&mut self, plan: &Plan, chain: &[usize]) -> Vec<Wish> {
        let length = chain.len();
        let unreadable = self.unreadable(length);
        let modes: &[u8] = match self.random.below(20) {
            0..=12 => &[2],
            13..=15 => &[0, 1, 2, 2],
            16 => &[0, 1],
            _ => &[0],
        };
        let mut wishes: Vec<Wish> = chain
            .iter()
            .zip(unreadable)
            .map(|(&unit, unreadable)| Wish {
                kind: plan.kinds[unit],
                readable: !unreadable,
                quality: 0,
                mode: self.random.pick(modes),
                kept: true,
            })
            .collect();
        if self.random.chance(60) {
            let place = self.random.below(length);
            wishes[place].mode = 2;
        }
        if self.random.chance(300) {
            for place in self.some(length) {
                wishes[place].quality = 1;
            }
        }
        if self.random.chance(220) {
            for place in self.some(length) {
                wishes[place].quality = 2;
            }
        }
        match self.random.below(20) {
            0 => wishes.iter_mut().for_each(|wish| wish.kept = false),
            1 | 2 => {
                for place in self.some(length) {
                    wishes[place].kept = false;
                }
            }
            _ => {}
        }
        wishes
    }

    fn sample(&mut self, wish: Wish) -> [u8; SAMPLE] {
        let signed = wish.kind.is_signed();
        let random = &mut self.random;
        // Now and then a line at the bounds.
        let extreme = random.chance(40);
        let size = if extreme { random.pick(&[0, 1, LIMIT]) } else { random.within(30_000, 300_000) };
        let base = if signed && random.chance(500) { -size } else { size };
        let lowest = if signed { -LIMIT } else { 0 };
        let rate = if random.chance(100) { random.within(0, 60_000) } else { random.within(3_000, 12_000) };
        let availability = if random.chance(100) { random.within(0, LIMIT) } else { random.within(180_000, 600_000) };
        let near = |random: &mut Random, rate: i64| (rate + random.within(-200, 900)).clamp(0, LIMIT);
        let away = match random.below(6) {
            0..=2 => random.within(-2_000, 2_000),
            3 => random.within(-30_000, 30_000),
            4 => 0,
            _ => random.within(5_000, 14_000) * random.pick(&[-1, 1]),
        };
        let mut draft = Draft {
            quality: random.pick(&[0, 0, 1, 2]),
            mode: random.below(3) as u8,
            cap_flag: 0,
            target: base,
            availability: availability as u32,
            raise: if extreme { LIMIT as u32 } else { random.pick(&[0, 0, 500, 5_000]) },
            lower: if extreme { LIMIT as u32 } else { random.pick(&[0, 0, 700, 4_000]) },
            bid_up: near(random, rate) as u32,
            bid_down: near(random, rate) as u32,
            power: base,
            scada_up: near(random, rate),
            scada_down: near(random, rate),
        };
        let mut before = draft.bytes();
        if draft.quality == 2 && random.chance(500) {
            before[28..].fill_with(|| random.byte());
        }
        (draft.quality, draft.mode) = (wish.quality, wish.mode);
        draft.target = (base + random.within(-4_000, 4_000)).clamp(lowest, LIMIT);
        draft.power = (base + away).clamp(-LIMIT, LIMIT);
        if extreme {
            draft.power = random.pick(&[-LIMIT, LIMIT, base]);
        }
        let mut line = draft.bytes();
        if wish.quality == 2 && random.chance(500) {
            line[28..].fill_with(|| random.byte());
        } else if random.chance(40) {
            // At a bound of the floats, readable.
            let bits: u32 = random.pick(&[0, 0x8000_0000, 1, 0x44FA_0000]);
            let at = random.pick(&[28, 32, 36]);
            line[at..at + 4].copy_from_slice(&bits.to_le_bytes());
        }
        if !wish.readable {
            spoil(random, &mut line, wish.kind);
        }
        let mut first = KEPT;
        if !wish.kept {
            if random.chance(600) {
                first = random.pick(&[0, 0, 2, 128, 255]);
            }
            if first == KEPT || random.chance(200) {
                spoil(random, &mut before, wish.kind);
            }
        }
        let mut sample = [first; SAMPLE];
        sample[1..41].copy_from_slice(&line);
        sample[41..].copy_from_slice(&before);
        sample
    }

    /// Gives one member of an aggregate with an error a sample of its own, so that the error comes to lie at a trigger, beside
    /// it, between the two or beyond.
    fn tune(&mut self, plan: &Plan, chain: &[usize], samples: &mut Vec<[u8; SAMPLE]>, sample_of: &mut [usize]) {
        let random = &mut self.random;
        let (mut target, mut power, mut kept_target, mut up, mut down) = (0, 0, 0, 0, 0);
        let mut availability = [0; 2];
        let mut lines = Vec::new();
        for &unit in chain {
            let kind = plan.kinds[unit];
            let (Some(line), Some(kept)) = read_sample(&samples[sample_of[unit]], kind) else { return };
            if line.quality == Quality::Bad {
                return;
            }
            let sign = if kind == Kind::Load { -1 } else { 1 };
            target += sign * i64::from(line.target);
            power += sign * i64::from(line.power);
            kept_target += sign * i64::from(kept.target);
            up += i64::from(kept.raise);
            down += i64::from(kept.lower);
            availability[usize::from(sign == -1)] += line.availability;
            lines.push((sign, line));
        }
        let (place, share, upward) = (random.below(8), random.within(1, 999), random.chance(500));
        for direction in [-1, 1, 0] {
            let mut rates = [0; 2];
            for (sign, line) in &lines {
                rates[usize::from(*sign == -1)] += match direction * sign {
                    1 => line.ramp_up,
                    -1 => line.ramp_down,
                    _ => line.ramp_up.min(line.ramp_down),
                };
            }
            let found = Triggers::of(availability[0].max(availability[1]), rates[0].max(rates[1]));
            let (small, large) = (i64::from(found.small / 100), i64::from(found.large / 100));
            let error = match place {
                0 => small,
                1 => small + 1,
                2 => large,
                3 => large + 1,
                4 | 5 => small + (large - small) * share / 1_000 + 1,
                6 => large + 9 * share,
                _ => small - 1,
            };
            let wanted = if upward { kept_target + up + error } else { kept_target - down - error };
            if (target - wanted).signum() != direction {
                continue;
            }
            let place = random.below(chain.len());
            let (sign, line) = lines[place];
            let moved = i64::from(line.power) + sign * (wanted - power);
            if moved.abs() <= LIMIT {
                let mut sample = samples[sample_of[chain[place]]];
                sample[29..33].copy_from_slice(&float_bits(moved).to_le_bytes());
                sample_of[chain[place]] = samples.len();
                samples.push(sample);
            }
            return;
        }
    }
}

/// Makes a line unreadable, in any of the ways there are.
fn spoil(random: &mut Random, bytes: &mut [u8; 40], kind: Kind) {
    bytes[0] = random.pick(&[bytes[0], 0, 1, 2]);
    let mut put = |at: usize, word: u32| bytes[at..at + 4].copy_from_slice(&word.to_le_bytes());
    match random.below(9) {
        0 => bytes[0] = random.pick(&[3, 3, 4, 128, 255]),
        1 => bytes[1] = random.pick(&[3, 3, 4, 128, 255]),
        2 => bytes[2] = random.pick(&[1, 2, 128, 255]),
        3 => bytes[3] = random.pick(&[1, 2, 128, 255]),
        4 if !kind.is_signed() && random.chance(600) => put(4, random.pick(&[-1, -1, -100_000, -2_000_000]) as u32),
        4 => put(4, random.pick(&[2_000_001, -2_000_001, i32::MIN, i32::MAX]) as u32),
        5 => put(8 + 4 * random.below(5), random.pick(&[2_000_001, 2_000_001, u32::MAX, 0x8000_0000])),
        6 => {
            put(28, random.pick(&UNREADABLE_POWERS));
            bytes[0] = random.pick(&[0, 1]);
        }
        7 => {
            put(32 + 4 * random.below(2), random.pick(&UNREADABLE_RATES));
            bytes[0] = random.pick(&[0, 1]);
        }
        _ => {
            bytes[2] = 1;
            bytes[28..].fill(0xFF);
        }
    }
}

#[cfg(test)]
mod tests {
    use super::*;
    use crate::passes::cases;
    use crate::Plant;

    #[test]
    fn fixed_by_the_seed() {
        assert_eq!(blocks(7), blocks(7));
        assert_ne!(blocks(7), blocks(8));
    }

    #[test]
    fn blocks_are_full() {
        for seed in 0..20 {
            let bytes = blocks(seed);
            assert!(bytes.len() > 3 * BLOCK && bytes.len() <= BLOCKS * BLOCK);
            for block in bytes.as_chunks::<BLOCK>().0 {
                // What is left has no room for the case that comes next.
                assert!(cases(block).map(|case| case.bytes().len()).sum::<usize>() > BLOCK * 9 / 10);
            }
            for case in cases(&bytes) {
                assert!((1..60).contains(&case.label.len()) && case.label.is_ascii());
            }
        }
    }

    #[test]
    fn registers_are_mixed() {
        let mut accepted = 0;
        let mut refused = [0; 38];
        for seed in 1..=8 {
            for case in cases(&blocks(seed)) {
                match Plant::load(case.register) {
                    Ok(_) => accepted += 1,
                    Err(refusal) => refused[refusal.number() as usize] += 1,
                }
            }
        }
        assert!(accepted > 10 * refused.iter().sum::<i32>());
        for number in [1, 2, 3, 4, 5, 6, 7, 30, 37] {
            assert!(refused[number] > 0, "{number}");
        }
    }
}
