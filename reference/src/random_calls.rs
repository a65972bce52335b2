//! Random lists of calls, fixed by a seed.
//!
//! Good telemetry dominates, so that runs build up; groups wander off target for some intervals and come back. Steering
//! follows a sketch of the plant and of the lines sent last, never the monitor's answers.

use crate::line::Kind;
use crate::marks::Triggers;
use crate::monitor::HIGHEST_MASK;
use crate::random_chains::{deal, deck, nexts, shuffle, ORDERS};
use crate::register::{Plant, REGIONS};
use crate::replay::Script;

/// A list ends when it has grown to this many bytes.
const LONGEST: usize = 160_000;
const LIMIT: i64 = 2_000_000;
/// So many interval numbers are near the last there is.
const LAST_NUMBERS: u32 = 24;
/// Regions that there are not.
const NO_REGIONS: [u8; 10] = [5, 5, 5, 6, 8, 16, 31, 128, 255, 255];
/// Bounds of an operator's level, and beside them.
const LEVELS: [i32; 9] = [i32::MIN, -128_000_001, -128_000_000, -1, 0, 1, 128_000_000, 128_000_001, i32::MAX];

/// The list of a seed.
pub fn list(seed: u64) -> Vec<u8> {
    Author::new(seed).write()
}

/// splitmix64.
pub(crate) struct Random(pub(crate) u64);

impl Random {
    pub(crate) fn next(&mut self) -> u64 {
        self.0 = self.0.wrapping_add(0x9E37_79B9_7F4A_7C15);
        let mut z = self.0;
        z = (z ^ (z >> 30)).wrapping_mul(0xBF58_476D_1CE4_E5B9);
        z = (z ^ (z >> 27)).wrapping_mul(0x94D0_49BB_1331_11EB);
        z ^ (z >> 31)
    }

    pub(crate) fn below(&mut self, bound: usize) -> usize {
        (self.next() % bound as u64) as usize
    }

    pub(crate) fn within(&mut self, low: i64, high: i64) -> i64 {
        low + (self.next() % (high - low + 1) as u64) as i64
    }

    /// True in so many of a thousand.
    pub(crate) fn chance(&mut self, thousandths: u64) -> bool {
        self.next() % 1000 < thousandths
    }

    pub(crate) fn pick<T: Copy>(&mut self, values: &[T]) -> T {
        values[self.below(values.len())]
    }

    pub(crate) fn byte(&mut self) -> u8 {
        self.next() as u8
    }
}

/// How far a group is from its targets just now.
#[derive(Clone, Copy, PartialEq, Eq)]
enum Course {
    OnTarget,
    Small,
    Large,
    /// By turns small and large, more often large.
    Wavering,
    /// On one side or the other of a trigger, or exactly at it.
    Edge,
    /// Out of service: around 0, whatever the targets.
    Tripped,
}

/// Courses away from target, the likelier ones more than once.
fn courses_away(stubborn: bool, semi_scheduled: bool) -> &'static [Course] {
    use Course::{Edge, Large, Small, Tripped, Wavering};
    if stubborn {
        &[Small, Large]
    } else if semi_scheduled {
        // Tripped it is CLEAR.
        &[Small, Small, Large, Large, Wavering, Wavering, Edge, Tripped]
    } else {
        &[Small, Small, Large, Large, Wavering, Wavering, Edge, Tripped, Tripped]
    }
}

struct Group {
    /// Index among the aggregates; None for a unit in no chain.
    aggregate: Option<usize>,
    units: Vec<usize>,
    course: Course,
    /// Signed direction of the error.
    upward: bool,
    /// Intervals left on this course.
    left: u32,
    /// Intervals since it was on target.
    away: u32,
}

#[derive(Clone)]
struct Unit {
    kind: Kind,
    region: u8,
    target: i64,
    availability: u32,
    raise: u32,
    lower: u32,
    rate: i64,
    cap_flag: u8,
    /// Intervals left under this cap flag.
    cap_left: u32,
    /// Target, raise and lower of the line sent last.
    sent: Option<(i64, u32, u32)>,
}

struct Sketch {
    units: Vec<Unit>,
    /// The aggregates in order, then the units in no chain.
    groups: Vec<Group>,
    aggregates: usize,
}

impl Sketch {
    fn new(units: Vec<Unit>, chains: &[Vec<usize>]) -> Self {
        let group =
            |aggregate, units| Group { aggregate, units, course: Course::OnTarget, upward: true, left: 1, away: 0 };
        let mut groups: Vec<Group> =
            chains.iter().enumerate().map(|(aggregate, chain)| group(Some(aggregate), chain.clone())).collect();
        let in_no_chain = (0..units.len()).filter(|unit| !chains.iter().any(|chain| chain.contains(unit)));
        groups.extend(in_no_chain.map(|unit| group(None, vec![unit])));
        Self { units, groups, aggregates: chains.len() }
    }

    fn chains(&self) -> Vec<Vec<usize>> {
        self.groups[..self.aggregates].iter().map(|group| group.units.clone()).collect()
    }

    /// Units in no chain.
    fn loners(&self) -> Vec<usize> {
        self.groups.iter().filter(|group| group.aggregate.is_none()).flat_map(|group| group.units.clone()).collect()
    }

    fn semi_scheduled(&self) -> Vec<usize> {
        (0..self.units.len()).filter(|&unit| self.units[unit].kind == Kind::SemiScheduled).collect()
    }

    fn region(&self, group: &Group) -> u8 {
        self.units[group.units[0]].region
    }

    /// The bits of the regions that have units.
    fn occupied(&self) -> u8 {
        self.units.iter().fold(0, |mask, unit| mask | 1 << unit.region)
    }

    /// Aggregates that can be brought across regions: those with two members, or all if there is a unit to join them.
    fn mixable(&self) -> Vec<usize> {
        let none = self.loners().is_empty();
        (0..self.aggregates).filter(|&aggregate| !none || self.groups[aggregate].units.len() > 1).collect()
    }

    /// Points of the groups that have been away for long enough to be at Not-Responding or beyond.
    fn declarable(&self) -> Vec<u32> {
        let points = |group: &Group| {
            let aggregate = group.aggregate.map(|aggregate| self.units.len() + aggregate);
            group.units.clone().into_iter().chain(aggregate).map(|point| point as u32 + 1)
        };
        self.groups.iter().filter(|group| group.away >= 2).flat_map(points).collect()
    }
}

/// A line before it becomes bytes.
#[derive(Clone, Copy)]
pub(crate) struct Draft {
    pub(crate) quality: u8,
    pub(crate) mode: u8,
    pub(crate) cap_flag: u8,
    pub(crate) target: i64,
    pub(crate) availability: u32,
    pub(crate) raise: u32,
    pub(crate) lower: u32,
    pub(crate) bid_up: u32,
    pub(crate) bid_down: u32,
    pub(crate) power: i64,
    pub(crate) scada_up: i64,
    pub(crate) scada_down: i64,
}

impl Draft {
    /// ROC with the target above (1), below (-1) or at (0) the power.
    fn rate(&self, direction: i64) -> u32 {
        let up = self.bid_up.min(self.scada_up as u32);
        let down = self.bid_down.min(self.scada_down as u32);
        match direction {
            1 => up,
            -1 => down,
            _ => up.min(down),
        }
    }

    pub(crate) fn bytes(&self) -> [u8; 40] {
        let mut bytes = [0; 40];
        bytes[0] = self.quality;
        bytes[1] = self.mode;
        bytes[2] = self.cap_flag;
        let mut put = |at: usize, word: u32| bytes[at..at + 4].copy_from_slice(&word.to_le_bytes());
        put(4, self.target as u32);
        put(8, self.availability);
        put(12, self.raise);
        put(16, self.lower);
        put(20, self.bid_up);
        put(24, self.bid_down);
        for (at, kw) in [(28, self.power), (32, self.scada_up), (36, self.scada_down)] {
            put(at, float_bits(kw));
        }
        bytes
    }
}

/// What a register is made to be.
#[derive(Clone, Copy, PartialEq, Eq)]
enum Shape {
    /// Of so many units.
    Any(usize),
    OneChainOf64,
    SixteenOf4,
    SixteenOf1,
}

impl Shape {
    fn any(random: &mut Random) -> Self {
        match random.below(100) {
            0..=4 => return Self::OneChainOf64,
            5..=8 => return Self::SixteenOf4,
            9..=13 => return Self::SixteenOf1,
            _ => {}
        }
        Self::Any(match random.below(100) {
            0..=39 => random.below(4) + 1,
            40..=79 => random.below(5) + 4,
            80..=92 => random.below(12) + 9,
            93..=97 => random.below(44) + 21,
            _ => 64,
        })
    }

    fn units(self, random: &mut Random) -> usize {
        match self {
            Self::Any(units) => units,
            Self::OneChainOf64 | Self::SixteenOf4 => 64,
            Self::SixteenOf1 => 16 + random.below(6),
        }
    }

    /// Deals units into chains; what is left stands in none.
    fn chains(self, random: &mut Random, units: &mut Vec<usize>) -> Vec<Vec<usize>> {
        let mut chains: Vec<Vec<usize>> = match self {
            Self::Any(_) if random.chance(850) => {
                let longest = random.pick(&[1, 2, 3, 4, 5, 64]);
                let mut chains = Vec::new();
                while !units.is_empty() && chains.len() < 16 {
                    let length = if longest == 64 { 64 } else { random.below(longest) + 1 };
                    chains.push(deal(units, length));
                    if random.chance(250) {
                        break;
                    }
                }
                chains
            }
            Self::Any(_) => Vec::new(),
            Self::OneChainOf64 => vec![deal(units, 64)],
            Self::SixteenOf4 => (0..16).map(|_| deal(units, 4)).collect(),
            Self::SixteenOf1 => (0..16).map(|_| deal(units, 1)).collect(),
        };
        // All chains in one order, or each in its own.
        let order = random.chance(700).then(|| random.pick(&ORDERS));
        for chain in &mut chains {
            order.unwrap_or_else(|| random.pick(&ORDERS)).arrange(random, chain);
        }
        chains
    }
}

/// The modes of the regions that have units.
#[derive(Clone, Copy, PartialEq, Eq)]
enum Modes {
    Manual,
    Automatic,
    /// All of them by turns in manual and in automatic mode.
    Together,
    /// Each by itself.
    Apart,
    /// Any mask at each interval.
    Any,
}

impl Modes {
    /// Some that change, but not at each interval.
    fn lasting(random: &mut Random) -> Self {
        random.pick(&[Self::Together, Self::Apart, Self::Apart, Self::Apart])
    }
}

/// What befalls the lines of an aggregate's members in one interval.
#[derive(Clone, Copy, PartialEq, Eq)]
enum Blow {
    /// Unreadable at this place of the chain.
    At(usize),
    /// Unreadable at the first place and at the last.
    Ends,
    /// Unreadable at about half of the places.
    Half,
    /// All unreadable.
    All,
    /// Readable, with targets and regulation at their bounds.
    Bounds,
}

/// What befalls a whole interval, so that no mark of it counts in a run.
#[derive(Clone, Copy, PartialEq, Eq)]
enum Trouble {
    /// The number jumps.
    Jump,
    /// All lines have this quality.
    Quality(u8),
}

struct Author {
    random: Random,
    script: Script,
    sketch: Option<Sketch>,
    /// Number of the interval sent last.
    number: Option<u32>,
    modes: Modes,
    /// The mask of the interval sent last.
    mask: u8,
    /// Of the next interval.
    trouble: Option<Trouble>,
    /// Damaged lines and bad telemetry, of a thousand lines of a small plant.
    noise: u64,
    /// Operator calls, of a thousand steps.
    operators: u64,
    /// Groups stay away from target.
    stubborn: bool,
}

impl Author {
    fn new(seed: u64) -> Self {
        let mut random = Random(seed);
        let modes = match random.below(10) {
            0 => Modes::Manual,
            1 | 2 => Modes::Automatic,
            3 => Modes::Any,
            _ => Modes::lasting(&mut random),
        };
        let mask = if modes == Modes::Together { HIGHEST_MASK } else { any_mask(&mut random) };
        let noise = random.pick(&[0, 20, 20, 60, 150]);
        let operators = random.pick(&[0, 60, 150, 300]);
        Self {
            random,
            script: Script::new(),
            sketch: None,
            number: None,
            modes,
            mask,
            trouble: None,
            noise,
            operators,
            stubborn: false,
        }
    }

    fn write(mut self) -> Vec<u8> {
        if self.random.chance(250) {
            for _ in 0..self.random.within(1, 4) {
                self.call_without_register();
            }
        }
        if self.random.chance(100) {
            self.long_run();
        } else {
            let steps = match self.random.below(10) {
                0 => self.random.within(0, 8),
                1..=6 => self.random.within(20, 120),
                _ => self.random.within(120, 500),
            };
            self.first_loads();
            self.steps(steps);
        }
        if self.random.chance(300) {
            self.ask_reasons();
        }
        if self.random.chance(300) {
            self.ask_targets();
        }
        if self.random.chance(450) {
            self.script_error();
        }
        self.script.into_bytes()
    }

    fn call_without_register(&mut self) {
        match self.random.below(9) {
            0 => {
                let register = self.damaged_register();
                if Plant::load(&register).is_err() {
                    self.script.load(&register);
                }
            }
            1 => {
                let length = self.random.pick(&[0, 7, 8, 48, 88]);
                let buffer: Vec<u8> = (0..length).map(|_| self.random.byte()).collect();
                self.script.interval(16, &buffer);
            }
            2 | 3 => self.script.declare(self.random.below(3) as u32, self.random.pick(&LEVELS)),
            4 => self.script.reinstate(0),
            5 => self.script.look(1),
            6 => self.script.reason(self.random.pick(&[0, 0, 0, 1, 2])),
            _ => self.script.target(self.random.pick(&[0, 0, 1, 2])),
        }
    }

    fn first_loads(&mut self) {
        while self.random.chance(750) {
            self.load_damaged();
        }
        if !self.random.chance(15) {
            self.load_sound(None);
        }
        if self.random.chance(200) {
            self.ask_targets();
        }
    }

    fn steps(&mut self, steps: i64) {
        for _ in 0..steps {
            if self.script.len() > LONGEST {
                break;
            }
            let spent = self.number == Some(u32::MAX);
            if self.random.chance(if spent { 300 } else { 15 }) {
                match self.random.below(16) {
                    0..=5 => self.load_damaged(),
                    6 | 7 => self.load_broken_chains(),
                    8..=11 => self.load_regrouped(),
                    _ => self.load_sound(None),
                }
                if self.random.chance(400) {
                    self.ask_targets();
                }
            } else if self.random.chance(self.operators) {
                self.operator_calls();
                if self.random.chance(100) {
                    self.ask_targets();
                }
            } else if self.may_hand_over() && self.random.chance(60) {
                self.hand_over();
            } else {
                self.interval();
            }
            if self.random.chance(if spent { 250 } else { 100 }) {
                self.ask_reasons();
            }
            if self.random.chance(if spent { 100 } else { 25 }) {
                self.ask_targets();
            }
        }
    }

    /// The bits of the regions that have units and are in manual mode.
    fn manual(&self) -> u8 {
        self.sketch.as_ref().map_or(0, |sketch| sketch.occupied() & !self.mask)
    }

    fn may_hand_over(&self) -> bool {
        matches!(self.modes, Modes::Together | Modes::Apart) && self.manual() != 0
    }

    /// From manual to automatic mode: a backlog waits, as no mark of the first interval counts, and then declares. Either all
    /// regions, or one of those where a group is away.
    fn hand_over(&mut self) {
        let manual = self.manual();
        let away: Vec<u8> = self
            .sketch
            .iter()
            .flat_map(|sketch| {
                let away = sketch.groups.iter().filter(|group| group.away >= 2);
                away.map(|group| 1 << sketch.region(group)).filter(|bit| manual & bit != 0)
            })
            .collect();
        self.mask |= if self.modes == Modes::Apart && !away.is_empty() { self.random.pick(&away) } else { manual };
        let troubles = [Trouble::Jump, Trouble::Quality(1), Trouble::Quality(1), Trouble::Quality(2)];
        self.trouble = Some(self.random.pick(&troubles));
        self.interval();
        self.ask_reasons();
        self.interval();
        self.ask_reasons();
    }

    /// Runs that pass 255 in manual mode, then often a backlog that declares in automatic mode.
    fn long_run(&mut self) {
        let units = self.random.below(6) + 1;
        self.load_sound(Some(units));
        self.modes = Modes::Manual;
        self.stubborn = true;
        self.noise = self.random.pick(&[0, 0, 3]);
        self.operators = self.random.pick(&[0, 0, 5]);
        for _ in 0..self.random.within(262, 330) {
            if self.random.chance(self.operators) {
                self.operator_calls();
            } else {
                self.interval();
            }
        }
        self.operator_calls();
        self.modes = Modes::lasting(&mut self.random);
        if self.random.chance(950) {
            self.hand_over();
        }
        self.stubborn = false;
        self.operators = 300;
        let steps = self.random.within(0, 40);
        self.steps(steps);
    }

    // Registers.

    /// Bytes of an acceptable register and the sketch of its plant.
    fn sound_register(&mut self, small_plant: Option<usize>) -> (Vec<u8>, Sketch) {
        let random = &mut self.random;
        let shape = small_plant.map_or_else(|| Shape::any(random), Shape::Any);
        let n = shape.units(random);
        let neighbours = random.chance(300);
        let mut unused = deck(random, n, neighbours);
        // Set aside before the chains, which often take all there are.
        let mut semi_scheduled = Vec::new();
        match shape {
            Shape::Any(_) if random.chance(600) => {
                let count = if random.chance(150) { n } else { random.below(n.min(4)) + 1 };
                semi_scheduled = deal(&mut unused, count);
            }
            Shape::SixteenOf1 => semi_scheduled = deal(&mut unused, random.below(n - 15)),
            _ => {}
        }
        let chains = shape.chains(random, &mut unused);
        let one_kind = random.chance(200).then(|| random.within(1, 3) as u8);
        let mut units: Vec<Unit> = (0..n)
            .map(|unit| {
                let kind = match one_kind {
                    _ if semi_scheduled.contains(&unit) => 4,
                    Some(kind) => kind,
                    None => random.within(1, 3) as u8,
                };
                sketch_unit(random, Kind::of(u32::from(kind)).unwrap_or(Kind::Generating))
            })
            .collect();
        spread_regions(random, &mut units);
        join_regions(&mut units, &chains);
        let bytes = register_bytes(random, &units, &chains);
        (bytes, Sketch::new(units, &chains))
    }

    /// Bytes of an acceptable register of the same units in other chains, and its sketch; now and then in the same chains.
    fn regrouped(&mut self, sketch: &Sketch) -> (Vec<u8>, Sketch) {
        let random = &mut self.random;
        let mut units: Vec<Unit> = sketch.units.iter().map(|unit| Unit { sent: None, ..unit.clone() }).collect();
        let earlier = sketch.chains();
        let mut chains = earlier.clone();
        match random.below(8) {
            // The same chains, those of other aggregates.
            0 | 1 => shuffle(random, &mut chains),
            // The same members in another order.
            2 => chains.iter_mut().for_each(|chain| random.pick(&ORDERS).arrange(random, chain)),
            // The last member of each chain goes to the front of the next: the list moves on by one place.
            3 if chains.len() > 1 => {
                let last: Vec<usize> = chains.iter_mut().filter_map(Vec::pop).collect();
                for (place, &unit) in last.iter().enumerate() {
                    chains[(place + 1) % last.len()].insert(0, unit);
                }
            }
            // Chains as long as before.
            4 | 5 => {
                let mut members = chains.concat();
                shuffle(random, &mut members);
                chains.iter_mut().for_each(|chain| *chain = deal(&mut members, chain.len()));
            }
            _ => {}
        }
        if chains == earlier {
            let neighbours = random.chance(300);
            let mut unused = deck(random, units.len(), neighbours);
            unused.retain(|&unit| units[unit].kind != Kind::SemiScheduled);
            chains = Shape::Any(units.len()).chains(random, &mut unused);
        }
        if random.chance(250) {
            spread_regions(random, &mut units);
        }
        join_regions(&mut units, &chains);
        let bytes = register_bytes(random, &units, &chains);
        (bytes, Sketch::new(units, &chains))
    }

    fn load_sound(&mut self, small_plant: Option<usize>) {
        let (bytes, sketch) = self.sound_register(small_plant);
        self.load(&bytes, sketch);
    }

    fn load(&mut self, bytes: &[u8], sketch: Sketch) {
        self.script.load(bytes);
        self.sketch = Some(sketch);
        self.number = None;
    }

    /// Loads the same units in other chains.
    fn load_regrouped(&mut self) {
        let Some(sketch) = self.sketch.take() else { return self.load_sound(None) };
        let (bytes, sketch) = self.regrouped(&sketch);
        self.load(&bytes, sketch);
        if self.random.chance(300) {
            self.load_broken_chains();
        }
    }

    /// Loads the same units in other chains, refused for what these meet: 6, 7, 30 or 37.
    fn load_broken_chains(&mut self) {
        let Some(sketch) = self.sketch.take() else { return self.load_damaged() };
        let (mut bytes, other) = self.regrouped(&sketch);
        self.sketch = Some(sketch);
        let (chains, random) = (other.chains(), &mut self.random);
        let loners = other.loners();
        let next = |unit: usize| 17 + 4 * unit;
        match (random.below(4), chains.last()) {
            (0, Some(chain)) => set(&mut bytes, 16 + 4 * random.pick(chain), 4),
            (1, Some(_)) if !other.mixable().is_empty() => mix_regions(random, &mut bytes, &other),
            (2, Some(_)) if !loners.is_empty() => set(&mut bytes, next(random.pick(&loners)), loners[0] as u8 + 1),
            (_, Some(chain)) => {
                let into = random.pick(&chains.concat()) as u8 + 1;
                set(&mut bytes, next(chain[chain.len() - 1]), into);
            }
            (_, None) => set(&mut bytes, next(random.pick(&loners)), loners[0] as u8 + 1),
        }
        self.script.load(&bytes);
    }

    /// Loads a damaged register. Damage that hit nothing leaves the sketch behind, so a sound load follows.
    fn load_damaged(&mut self) {
        loop {
            let register = self.damaged_register();
            let accepted = Plant::load(&register).is_ok();
            // Few of these, as each starts afresh; but some, as what is acceptable here is one reading of the paper.
            if accepted && self.random.chance(800) {
                continue;
            }
            self.script.load(&register);
            if accepted {
                self.load_sound(None);
            }
            return;
        }
    }

    fn damaged_register(&mut self) -> Vec<u8> {
        let (mut bytes, sketch) = self.sound_register(None);
        self.damage_register(&mut bytes, &sketch);
        // A second damage tries the order of the refusals.
        if self.random.chance(250) {
            self.damage_register(&mut bytes, &sketch);
        }
        bytes
    }

    fn damage_register(&mut self, bytes: &mut Vec<u8>, sketch: &Sketch) {
        let random = &mut self.random;
        let n = sketch.units.len();
        let m = bytes.len().saturating_sub(16 + 4 * n) / 4;
        let unit = 16 + 4 * random.below(n);
        let heads = 16 + 4 * n;
        let head = heads + 4 * random.below(m.max(1));
        let some_unit = random.within(1, n as i64) as u8;
        match random.below(30) {
            0 => bytes.truncate(random.below(16)),
            1 => match random.below(4) {
                0 => bytes.push(0),
                1 => bytes.extend([1, 0, 0, 0]),
                2 => bytes.truncate(bytes.len().saturating_sub(1)),
                _ => bytes.truncate(bytes.len().saturating_sub(4)),
            },
            2 => match random.below(3) {
                0 => set(bytes, 0, 0),
                1 => set(bytes, 0, random.pick(&[65, 66, 128, 255])),
                _ => set(bytes, 1, random.pick(&[17, 18, 64, 255])),
            },
            3 => {
                // One of the two runs: below 2, two lengths equal, or out of order.
                let at = random.pick(&[2, 5]);
                let [low, middle] = [get(bytes, at), get(bytes, at + 1)];
                match random.below(5) {
                    0 => set(bytes, at, random.pick(&[0, 1])),
                    1 => set(bytes, at + 1, low),
                    2 => set(bytes, at + 2, middle),
                    3 => set(bytes, at + 2, low),
                    _ => set(bytes, at + random.below(3), random.byte()),
                }
            }
            4 => match random.below(6) {
                0 => set(bytes, 8 + random.below(8), random.pick(&[1, 2, 255])),
                1..=3 => set(bytes, unit, random.pick(&[0, 5, 5, 6, 128, 255])),
                4 => set(bytes, unit + 3, random.pick(&[1, 128])),
                _ => set(bytes, head + 1 + random.below(3), random.pick(&[1, 255])),
            },
            5 | 6 => {
                let any = random.below(n);
                set(bytes, 18 + 4 * random.pick(&[0, n - 1, any]), random.pick(&NO_REGIONS));
            }
            7 => match random.below(4) {
                0 | 1 => set(bytes, unit + 1, random.pick(&[n as u8 + 1, 65, 255])),
                2 => set(bytes, head, 0),
                _ => set(bytes, head, random.pick(&[n as u8 + 1, 255])),
            },
            8 | 9 => {
                // Two equal heads, or a chain into a chain's head or into its own unit.
                if m > 1 && random.chance(300) {
                    let first = get(bytes, heads);
                    set(bytes, heads + 4, first);
                } else {
                    let into = get(bytes, head);
                    let mut at = usize::from(get(bytes, heads));
                    for _ in 0..random.below(3) {
                        let next = usize::from(get(bytes, 13 + 4 * at));
                        at = if next == 0 { at } else { next };
                    }
                    set(bytes, 13 + 4 * at, random.pick(&[into, into, at as u8]));
                }
            }
            10 | 11 => {
                // A next in a unit that no chain meets, or a chain cut off behind its head.
                if m > 0 && random.chance(500) {
                    bytes.truncate(heads);
                    set(bytes, 1, 0);
                    set(bytes, unit + 1, some_unit);
                } else if m > 0 {
                    let first = usize::from(get(bytes, head));
                    set(bytes, 13 + 4 * first, 0);
                } else {
                    set(bytes, unit + 1, some_unit);
                }
            }
            12..=16 => {
                chain_semi_scheduled(random, bytes, sketch);
                // A second one, or a next in a unit that no chain meets, whose refusal goes before.
                let loners = sketch.loners();
                match random.below(10) {
                    0 | 1 => chain_semi_scheduled(random, bytes, sketch),
                    2..=5 if !loners.is_empty() => set(bytes, 17 + 4 * random.pick(&loners), some_unit),
                    _ => {}
                }
            }
            17..=28 => {
                mix_regions(random, bytes, sketch);
                // Another chain too, or what is refused before.
                let loners = sketch.loners();
                match random.below(10) {
                    0..=3 => mix_regions(random, bytes, sketch),
                    4 | 5 => chain_semi_scheduled(random, bytes, sketch),
                    6 | 7 if !loners.is_empty() => set(bytes, 17 + 4 * random.pick(&loners), some_unit),
                    _ => {}
                }
            }
            _ => {
                let at = random.below(bytes.len().max(1));
                set(bytes, at, random.byte());
            }
        }
    }

    // Intervals.

    fn interval(&mut self) {
        let Some(mut sketch) = self.sketch.take() else {
            self.script.interval(16, &[0; 48]);
            return;
        };
        let long_run = self.stubborn;
        self.next_mask(sketch.occupied());
        let (mut number, rising) = self.next_number(long_run);
        let trouble = self.trouble.take();
        if rising && trouble == Some(Trouble::Jump) {
            number = number.saturating_add(1);
        }
        // Manual mode up to the last number there is, where a backlog declares.
        if matches!(self.modes, Modes::Together | Modes::Apart) && number > u32::MAX - LAST_NUMBERS {
            self.mask = if number < u32::MAX { self.mask & !sketch.occupied() } else { self.mask | sketch.occupied() };
        }
        let mut accepted = rising;
        let mut buffer = number.to_le_bytes().to_vec();
        buffer.extend([self.mask, 0, 0, 0]);
        let rough = if long_run { 2 } else { 12 };
        if self.random.chance(rough) {
            accepted = false;
            match self.random.below(6) {
                0 | 1 => buffer[4] = self.random.pick(&[32, 33, 63, 64, 128, 255]),
                // The regions' bits as they would be.
                2 | 3 => buffer[4] |= self.random.pick(&[32, 64, 128]),
                4 => buffer[5 + self.random.below(3)] = self.random.pick(&[1, 255]),
                _ => {
                    buffer[4] = 32;
                    buffer[7] = 1;
                }
            }
        }
        let mut drafts = vec![None; sketch.units.len()];
        for index in 0..sketch.groups.len() {
            self.draft_group(&mut sketch, index, &mut drafts);
        }
        if let Some(Trouble::Quality(quality)) = trouble {
            drafts.iter_mut().flatten().for_each(|draft| draft.quality = quality);
        }
        let in_chains: usize =
            sketch.groups.iter().filter(|group| group.aggregate.is_some()).map(|group| group.units.len()).sum();
        let noise = self.noise * 8 / (8 + in_chains as u64);
        let mut sent = Vec::with_capacity(drafts.len());
        for (unit, draft) in sketch.units.iter().zip(drafts.iter().flatten()) {
            let mut bytes = draft.bytes();
            let mut kept = true;
            if self.random.chance(noise) {
                kept = self.damage_line(&mut bytes, unit.kind);
            } else if self.random.chance(noise + 10) {
                self.odd_floats(&mut bytes);
            }
            buffer.extend(bytes);
            sent.push(kept.then_some((draft.target, draft.raise, draft.lower)));
        }
        let mut struck = false;
        for group in sketch.groups.iter().filter(|group| group.aggregate.is_some()) {
            let likely = match group.units.len() {
                1 => 3,
                2..16 => 16,
                _ => 160,
            };
            if !long_run && self.random.chance(likely) {
                self.strike(group, &sketch.units, &mut buffer[8..], &mut sent);
                struck = true;
            }
        }
        // Quality 2 at an earlier place of the chain than a damaged line.
        for group in &sketch.groups {
            let damaged = group.units.iter().rposition(|&unit| sent[unit].is_none()).unwrap_or(0);
            if damaged > 0 && self.random.chance(80) {
                buffer[8 + 40 * group.units[self.random.below(damaged)]] = 2;
            }
        }
        let mut report = 16 * (sketch.units.len() + sketch.aggregates) as u32;
        if self.random.chance(rough) {
            accepted = false;
            match self.random.below(6) {
                0 => buffer.truncate(buffer.len() - 1),
                1 => buffer.push(0),
                2 => buffer.truncate(buffer.len() - 40),
                3 => buffer.extend([0; 40]),
                4 => buffer.truncate(self.random.below(9)),
                _ => buffer.clear(),
            }
        }
        if self.random.chance(rough) {
            accepted = false;
            report = match self.random.below(5) {
                0 => 0,
                1 => report - 1,
                2 => report + 1,
                3 => report + 16,
                _ => report - 16,
            };
        }
        self.script.interval(report, &buffer);
        let jump = self.number.is_some_and(|last| number > last.saturating_add(1));
        let missing = |group: &Group| group.aggregate.is_some() && group.units.iter().any(|&unit| sent[unit].is_none());
        let asked = if struck {
            700
        } else if !accepted || jump {
            250
        } else if sketch.groups.iter().any(missing) || sketch.groups[0].units.len() >= 16 {
            150
        } else {
            10
        };
        if accepted {
            self.number = Some(number);
            for (unit, sent) in sketch.units.iter_mut().zip(sent) {
                unit.sent = sent;
            }
        }
        self.sketch = Some(sketch);
        if !long_run && self.random.chance(asked) {
            self.ask_targets();
        }
    }

    /// The mask of the next interval. The bits of regions without units change now and then, whatever the modes of the others.
    fn next_mask(&mut self, occupied: u8) {
        let random = &mut self.random;
        if random.chance(150) {
            self.mask = (self.mask & occupied) | (any_mask(random) & !occupied);
        }
        match self.modes {
            Modes::Manual => self.mask &= !occupied,
            Modes::Automatic => self.mask |= occupied,
            Modes::Together => {
                // After a load other regions have units, some perhaps with the bit clear.
                let automatic = (self.mask & occupied != 0) != random.chance(120);
                self.mask = if automatic { self.mask | occupied } else { self.mask & !occupied };
            }
            Modes::Apart => {
                for region in 0..REGIONS {
                    self.mask ^= u8::from(random.chance(70)) << region;
                }
            }
            Modes::Any => self.mask = any_mask(random),
        }
    }

    /// Damages lines of an aggregate's members, or brings fields of them to their bounds.
    fn strike(&mut self, group: &Group, units: &[Unit], lines: &mut [u8], sent: &mut [Option<(i64, u32, u32)>]) {
        let random = &mut self.random;
        let last = group.units.len() - 1;
        let blow = match random.below(10) {
            0 => Blow::At(0),
            1 => Blow::At(last / 2),
            2 => Blow::At(last),
            3 | 4 => Blow::Ends,
            5..=7 => Blow::Half,
            8 => Blow::All,
            _ => Blow::Bounds,
        };
        // Targets of kind 3 on one side, so that they do not cancel out.
        let (low, regulated) = (random.chance(500), random.chance(700));
        for (place, &unit) in group.units.iter().enumerate() {
            let line = &mut lines[40 * unit..40 * unit + 40];
            let unreadable = match blow {
                Blow::At(struck) => place == struck,
                Blow::Ends => place == 0 || place == last,
                Blow::Half => random.chance(500),
                Blow::All => true,
                Blow::Bounds => {
                    let target = if units[unit].kind.is_signed() && low { -LIMIT } else { LIMIT };
                    let regulation = if regulated { LIMIT as u32 } else { 0 };
                    line[4..8].copy_from_slice(&(target as i32).to_le_bytes());
                    line[12..16].copy_from_slice(&regulation.to_le_bytes());
                    line[16..20].copy_from_slice(&regulation.to_le_bytes());
                    sent[unit] = sent[unit].map(|_| (target, regulation, regulation));
                    false
                }
            };
            if unreadable {
                // Its target and regulation would be kept, but for this.
                let at = random.pick(&[0, 1, 2, 3]);
                line[at] = random.pick(&[3, 128, 255]);
                sent[unit] = None;
            }
        }
    }

    /// A number, and whether it is above the last.
    fn next_number(&mut self, long_run: bool) -> (u32, bool) {
        let random = &mut self.random;
        let Some(last) = self.number else {
            let first = match random.below(15) {
                0 | 1 => 0,
                2 => 1,
                3..=5 => u32::MAX - random.within(0, i64::from(LAST_NUMBERS)) as u32,
                6 => random.next() as u32,
                _ => random.below(1_000) as u32,
            };
            return (first, true);
        };
        let number = match random.below(if long_run { 600 } else { 60 }) {
            0 => last.saturating_add(2),
            1 => last.saturating_add(2 + random.below(1_000) as u32),
            2 => last,
            3 => last.saturating_sub(1),
            4 => random.pick(&[0, last / 2, last.wrapping_add(1), last, last.saturating_sub(2)]),
            5 if random.chance(80) => u32::MAX - random.below(3) as u32,
            _ => last.wrapping_add(1),
        };
        (number, number > last)
    }

    fn draft_group(&mut self, sketch: &mut Sketch, index: usize, drafts: &mut [Option<Draft>]) {
        let random = &mut self.random;
        let Sketch { units, groups, .. } = sketch;
        let group = &mut groups[index];
        let semi_scheduled = units[group.units[0]].kind == Kind::SemiScheduled;
        group.left = group.left.saturating_sub(1);
        if group.left == 0 {
            let away = if self.stubborn { 990 } else { 550 };
            group.course = if random.chance(away) {
                random.pick(courses_away(self.stubborn, semi_scheduled))
            } else {
                Course::OnTarget
            };
            group.upward = random.chance(if semi_scheduled { 700 } else { 500 });
            group.left = match group.course {
                Course::OnTarget => random.within(1, 4) as u32,
                // The large run often begins later than the small one, both early enough to pass 255.
                _ if self.stubborn && random.chance(400) => random.within(1, 50) as u32,
                _ if self.stubborn => random.within(250, 900) as u32,
                _ => random.within(1, 9) as u32,
            };
        }
        group.away = if group.course == Course::OnTarget { 0 } else { group.away + 1 };
        if random.chance(100) {
            group.upward = !group.upward;
        }
        // A semi-scheduled unit's runs end below its target.
        group.upward |= semi_scheduled && self.stubborn;
        let member = group.aggregate.is_some();
        let odd = 1 + 40 / group.units.len() as u64;
        let odd = if self.stubborn { odd / 8 } else { odd };
        let course = match group.course {
            Course::Wavering => random.pick(&[Course::Small, Course::Large, Course::Large]),
            course => course,
        };
        // The whole aggregate off for one interval.
        let all_off = member && !self.stubborn && random.chance(25);
        for &unit in &group.units {
            let mut draft = draft_unit(random, &mut units[unit], course, group.upward, self.stubborn);
            if member {
                draft.mode = 2;
                if all_off {
                    draft.mode = 0;
                } else if !self.stubborn && random.chance(odd) {
                    draft.mode = random.below(2) as u8;
                }
            }
            if random.chance(odd) {
                draft.quality = 1;
            } else if random.chance(odd / 2) {
                draft.quality = 2;
            }
            drafts[unit] = Some(draft);
        }
        if !member {
            return;
        }
        match course {
            Course::OnTarget => {}
            Course::Tripped => trip_aggregate(random, units, group, drafts),
            _ if self.stubborn || random.chance(600) => {
                tune_aggregate(random, units, group, course, drafts, self.stubborn);
            }
            _ => {}
        }
    }

    /// Damages a line, or brings it to a bound; tells whether it can still be read.
    fn damage_line(&mut self, bytes: &mut [u8; 40], kind: Kind) -> bool {
        let random = &mut self.random;
        let mut put = |at: usize, word: u32| bytes[at..at + 4].copy_from_slice(&word.to_le_bytes());
        let semi_scheduled = kind == Kind::SemiScheduled;
        match random.below(if semi_scheduled { 14 } else { 11 }) {
            0 => bytes[0] = random.pick(&[3, 4, 128, 255]),
            1 => bytes[1] = random.pick(&[1, 2, 3, 4, 255]),
            2 | 11.. if semi_scheduled => {
                let cap_flag = random.pick(&[2, 2, 3, 128, 254, 255]);
                let spare = random.pick(&[1, 128, 255]);
                (bytes[2], bytes[3]) = random.pick(&[(cap_flag, 0), (cap_flag, 0), (0, spare), (1, spare)]);
            }
            2 => bytes[2 + random.below(2)] = random.pick(&[1, 1, 2, 128]),
            3 => put(4, random.pick(&[-1, 2_000_001, -2_000_000, -2_000_001, i32::MIN, i32::MAX]) as u32),
            4 => put(8 + 4 * random.below(5), random.pick(&[2_000_001, 2_000_001, u32::MAX, 0x8000_0000])),
            5 => put(28, random.pick(&UNREADABLE_POWERS)),
            6 => put(32 + 4 * random.below(2), random.pick(&UNREADABLE_RATES)),
            7 => bytes[random.below(40)] = random.byte(),
            8 => {
                put(4, 2_000_000);
                return true;
            }
            9 => {
                // With quality 2 the floats are not read.
                bytes[0] = 2;
                bytes[28..40].fill_with(|| random.byte());
                return true;
            }
            _ => {
                put(8 + 4 * random.below(5), random.pick(&[0, 2_000_000]));
                return true;
            }
        }
        false
    }

    /// Floats at bounds, at halves and beside them, still readable.
    fn odd_floats(&mut self, bytes: &mut [u8; 40]) {
        let random = &mut self.random;
        let at = random.pick(&[28, 28, 32, 36]);
        let old = u32::from_le_bytes([bytes[at], bytes[at + 1], bytes[at + 2], bytes[at + 3]]);
        let bits = match random.below(6) {
            0 => random.pick(&[0, 0x8000_0000, 1, 0x007F_FFFF, 0x0080_0000, 0x44FA_0000, 0x44F9_FFFF, 0x3D80_0000]),
            // The odd sixteenths nearest: halves of a kW, and the floats beside them.
            1..=3 => {
                let sixteenths = (f32::from_bits(old).abs() * 16.0) as u32;
                let half = ((sixteenths | 1) as f32 / 16.0).to_bits() | (old & 0x8000_0000);
                random.pick(&[half, half, half - 1, half + 1])
            }
            4 => old ^ 1,
            _ if at == 28 => random.pick(&[0x8000_0001, 0xC4FA_0000, 0xC4F9_FFFF, 0xBD80_0000, 0xBA03_126F]),
            _ => old ^ 2,
        };
        bytes[at..at + 4].copy_from_slice(&bits.to_le_bytes());
    }

    // Operator calls.

    /// Points of the plant.
    fn points(&self) -> u32 {
        self.sketch.as_ref().map_or(1, |sketch| sketch.units.len() + sketch.aggregates) as u32
    }

    /// What declared each point, or some points of a larger plant. Most calls meet a point that is not declared.
    fn ask_reasons(&mut self) {
        if self.sketch.is_none() {
            self.script.reason(self.random.pick(&[0, 1]));
            return;
        }
        let points = self.points();
        for place in 1..=points.min(20) {
            let point = if points <= 20 { place } else { self.random.within(1, i64::from(points)) as u32 };
            self.script.reason(point);
        }
    }

    /// The kept targets of all aggregates or of some, and often a point that is no aggregate's.
    fn ask_targets(&mut self) {
        let Some(sketch) = &self.sketch else {
            self.script.target(self.random.pick(&[0, 1, 2]));
            return;
        };
        let units = sketch.units.len() as u32;
        let points = self.points();
        let asked = self.random.pick(&[1000, 1000, 600]);
        for point in units + 1..=points {
            if self.random.chance(asked) {
                self.script.target(point);
            }
        }
        let random = &mut self.random;
        if random.chance(500) {
            let point = match random.below(10) {
                0 => 0,
                1 => points + 1,
                2 => random.pick(&[256, 65_536, 0x8000_0000]) + random.within(1, i64::from(points)) as u32,
                3 => u32::MAX,
                4 => random_word(points),
                5 => units,
                _ => random.within(1, i64::from(units)) as u32,
            };
            self.script.target(point);
        }
    }

    fn operator_calls(&mut self) {
        let points = self.points();
        let units = self.sketch.as_ref().map_or(1, |sketch| sketch.units.len()) as u32;
        let semi_scheduled = self.sketch.as_ref().map_or(Vec::new(), Sketch::semi_scheduled);
        let declarable = self.sketch.as_ref().map_or(Vec::new(), Sketch::declarable);
        let random = &mut self.random;
        if random.chance(80) {
            for point in 1..=points.min(20) {
                self.script.reinstate(point);
            }
            return;
        }
        if random.chance(40) {
            for point in 1..=points.min(20) {
                self.script.declare(point, operator_level(random));
            }
            return;
        }
        if !declarable.is_empty() && random.chance(100) {
            for &point in declarable.iter().take(10) {
                self.try_levels(point);
            }
            return;
        }
        let point = match random.below(26) {
            0 => 0,
            1 => points + 1,
            2 => {
                let low = random.within(1, i64::from(points)) as u32;
                random.pick(&[256, 65_536, 0x8000_0000]) + low
            }
            3 => random.pick(&[u32::MAX, random_word(points)]),
            4..=9 if points > units => units + 1 + random.below((points - units) as usize) as u32,
            10..=13 if !semi_scheduled.is_empty() => random.pick(&semi_scheduled) as u32 + 1,
            14..=19 if !declarable.is_empty() => random.pick(&declarable),
            _ => random.within(1, i64::from(points)) as u32,
        };
        let level = operator_level(random);
        match random.below(8) {
            0 => self.script.look(point),
            1 => self.script.declare(point, level),
            2 => {
                self.script.declare(point, level);
                self.script.look(point);
            }
            3 => self.script.reinstate(point),
            4 => {
                self.script.reinstate(point);
                self.script.look(point);
            }
            5 => {
                self.script.declare(point, level);
                self.script.look(point);
                self.script.reinstate(point);
                self.script.look(point);
            }
            _ => self.try_levels(point),
        }
        if self.random.chance(400) {
            self.script.reason(point);
        }
        if self.random.chance(100) {
            self.script.target(point);
        }
    }

    /// Levels at their bounds, one after the other; often rising, so that those below 0 meet the point undeclared.
    fn try_levels(&mut self, point: u32) {
        let random = &mut self.random;
        let mut levels: Vec<i32> = (0..random.within(2, 5)).map(|_| level_at_a_bound(random)).collect();
        if random.chance(350) {
            levels.sort_unstable();
        }
        for level in levels {
            self.script.declare(point, level);
        }
        self.script.look(point);
        if random.chance(500) {
            self.script.reinstate(point);
        }
    }

    /// A call that cannot be read, and a look behind it that must not answer.
    fn script_error(&mut self) {
        match self.random.below(21) {
            0 => return self.script.raw(&[5]),
            1 => return self.script.raw(&[5, 0, 0, 0, 4, 0, 0]),
            2 => return self.script.raw(&[1, 0, 0, 0, 20, 0, 0, 0, 1, 0, 2, 3, 4]),
            3..=8 => {
                let tag = self.random.pick(&[0, 8, 8, 8, 8, 8, 8, 9, 255, 263, u32::MAX]);
                let length = self.random.pick(&[0, 4, 4, 4]);
                self.script.call(tag, &[1, 0, 0, 0][..length]);
            }
            9 => {
                let (tag, length) = self.random.pick(&[(3, 4), (3, 12), (4, 0), (4, 8), (5, 3), (5, 5)]);
                self.script.call(tag, &vec![1; length]);
            }
            10 => {
                let tag = self.random.pick(&[1, 2]);
                self.script.call(tag, &[0; 8_193]);
            }
            11 => self.script.interval(4_097, &[0; 48]),
            12..=15 => {
                let length = self.random.pick(&[0, 1, 3, 5, 8, 12]);
                self.script.call(6, &vec![1; length]);
            }
            16..=19 => {
                let length = self.random.pick(&[0, 1, 3, 5, 8, 12]);
                self.script.call(7, &vec![1; length]);
            }
            _ => return self.script.raw(&[5, 0, 0, 0, 255, 255, 255, 255, 1, 0, 0, 0]),
        }
        self.script.look(1);
    }
}

pub(crate) const UNREADABLE_POWERS: [u32; 8] =
    [0x44FA_0001, 0xC4FA_0001, 0x7FC0_0000, 0xFFC0_0000, 0x7F80_0000, 0xFF80_0000, 0x7F80_0001, 0x7F7F_FFFF];
pub(crate) const UNREADABLE_RATES: [u32; 8] =
    [0x44FA_0001, 0x8000_0001, 0x7FC0_0000, 0x7F80_0000, 0xFF80_0000, 0xBF80_0000, 0xFFFF_FFFF, 0x807F_FFFF];

/// Bits of the float nearest to a whole number of kW; it turns back into that number.
pub(crate) fn float_bits(kw: i64) -> u32 {
    ((kw as f64 / 1000.0) as f32).to_bits()
}

/// None, all, one region, all but one, or any.
fn any_mask(random: &mut Random) -> u8 {
    let one = 1 << random.below(usize::from(REGIONS));
    match random.below(10) {
        0 => 0,
        1 => HIGHEST_MASK,
        2 | 3 => one,
        4 | 5 => HIGHEST_MASK - one,
        _ => random.byte() & HIGHEST_MASK,
    }
}

/// Gives units their regions: all the same one, one of two, or any.
fn spread_regions(random: &mut Random, units: &mut [Unit]) {
    let all: Vec<u8> = (0..REGIONS).collect();
    let [one, other] = [random.pick(&all), random.pick(&all)];
    let regions = match random.below(10) {
        0 => vec![0],
        1 => vec![one],
        2 | 3 => vec![one, other],
        _ => all,
    };
    units.iter_mut().for_each(|unit| unit.region = random.pick(&regions));
}

/// Brings each chain into the region of its first member.
fn join_regions(units: &mut [Unit], chains: &[Vec<usize>]) {
    for chain in chains {
        let region = units[chain[0]].region;
        chain.iter().for_each(|&unit| units[unit].region = region);
    }
}

fn random_word(points: u32) -> u32 {
    points.wrapping_mul(0x9E37_79B1) | 0x100
}

fn level_at_a_bound(random: &mut Random) -> i32 {
    if random.chance(400) {
        random.pick(&[-1, 0])
    } else {
        random.pick(&LEVELS)
    }
}

fn operator_level(random: &mut Random) -> i32 {
    match random.below(12) {
        0..=6 => level_at_a_bound(random),
        7 => random.next() as i32,
        _ => random.within(-300_000, 300_000) as i32,
    }
}

/// Mostly 0 and beside it, or what auxiliaries take; now and then down to the bound.
fn tripped_power(random: &mut Random) -> i64 {
    match random.below(8) {
        0 | 1 => 0,
        2 | 3 => 1,
        4 => -1,
        5 => -300,
        6 => random.within(-30_000, 300),
        _ => random.within(-LIMIT, 0),
    }
}

fn get(bytes: &[u8], at: usize) -> u8 {
    bytes.get(at).copied().unwrap_or(0)
}

fn set(bytes: &mut [u8], at: usize, value: u8) {
    if let Some(byte) = bytes.get_mut(at) {
        *byte = value;
    }
}

fn register_bytes(random: &mut Random, units: &[Unit], chains: &[Vec<usize>]) -> Vec<u8> {
    let mut bytes = vec![units.len() as u8, chains.len() as u8];
    for _ in 0..2 {
        bytes.extend(match random.below(20) {
            0..=10 => [2, 3, 4],
            11..=16 => {
                let low = random.within(2, 4) as u8;
                let middle = low + random.within(1, 2) as u8;
                [low, middle, middle + random.within(1, 3) as u8]
            }
            17 => [2, 9, 20],
            18 => [2, 254, 255],
            _ => {
                let low = random.within(2, 253) as u8;
                let middle = random.within(i64::from(low) + 1, 254) as u8;
                [low, middle, random.within(i64::from(middle) + 1, 255) as u8]
            }
        });
    }
    bytes.extend([0; 8]);
    let nexts = nexts(units.len(), chains);
    bytes.extend(units.iter().zip(nexts).flat_map(|(unit, next)| [unit.kind as u8, next, unit.region, 0]));
    bytes.extend(chains.iter().flat_map(|chain| [chain[0] as u8 + 1, 0, 0, 0]));
    bytes
}

fn sketch_unit(random: &mut Random, kind: Kind) -> Unit {
    let target = match random.below(10) {
        0 => 0,
        1 => random.within(0, LIMIT),
        _ => random.within(30_000, 300_000),
    };
    let regulation = |random: &mut Random| match random.below(5) {
        0 | 1 => 0,
        2 => 5_000,
        3 => random.within(0, 3_000) as u32,
        _ => random.within(0, 30_000) as u32,
    };
    Unit {
        kind,
        region: 0,
        target: if kind.is_signed() && random.chance(500) { -target } else { target },
        availability: match random.below(8) {
            0 => random.within(0, 120_000) as u32,
            1 => 200_000,
            2 => random.within(0, LIMIT) as u32,
            _ => random.within(180_000, 600_000) as u32,
        },
        raise: regulation(random),
        lower: regulation(random),
        rate: match random.below(6) {
            0 => random.within(0, 3_000),
            1 => random.within(0, 60_000),
            _ => random.within(3_000, 12_000),
        },
        cap_flag: u8::from(random.chance(700)),
        cap_left: random.within(1, 12) as u32,
        sent: None,
    }
}

/// Brings a semi-scheduled unit into a chain: a member becomes one, or one that stood in no chain goes in front or behind.
fn chain_semi_scheduled(random: &mut Random, bytes: &mut [u8], sketch: &Sketch) {
    if sketch.aggregates == 0 {
        return;
    }
    let (kind, next) = (|unit: usize| 16 + 4 * unit, |unit: usize| 17 + 4 * unit);
    let aggregate = random.below(sketch.aggregates);
    let chain = &sketch.groups[aggregate].units;
    let semi_scheduled = sketch.semi_scheduled();
    if semi_scheduled.is_empty() || random.chance(650) {
        set(bytes, kind(random.pick(chain)), 4);
        return;
    }
    let unit = random.pick(&semi_scheduled);
    if random.chance(500) {
        set(bytes, next(chain[chain.len() - 1]), unit as u8 + 1);
    } else {
        set(bytes, next(unit), chain[0] as u8 + 1);
        set(bytes, 16 + 4 * (sketch.units.len() + aggregate), unit as u8 + 1);
    }
}

/// Brings a chain across regions: some members move to another one, or a unit that stood in no chain goes in front or behind.
fn mix_regions(random: &mut Random, bytes: &mut [u8], sketch: &Sketch) {
    let mut mixable = sketch.mixable();
    // Chains with a member between the ends, if there are any.
    let long = |aggregate: &usize| sketch.groups[*aggregate].units.len() >= 3;
    if mixable.iter().any(long) && random.chance(700) {
        mixable.retain(long);
    }
    let (Some(&first), Some(&last)) = (mixable.first(), mixable.last()) else { return };
    let (next, region) = (|unit: usize| 17 + 4 * unit, |unit: usize| 18 + 4 * unit);
    let aggregate = match random.below(20) {
        0..=3 => first,
        4..=9 => last,
        _ => random.pick(&mixable),
    };
    let group = &sketch.groups[aggregate];
    let (chain, own) = (&group.units, sketch.region(group));
    let other = match own {
        0 | 4 if random.chance(400) => 4 - own,
        _ => (own + random.within(1, i64::from(REGIONS) - 1) as u8) % REGIONS,
    };
    let loners = sketch.loners();
    if chain.len() > 1 && (loners.is_empty() || random.chance(800)) {
        let end = chain.len() - 1;
        let moved = match random.below(12) {
            0..=2 => &chain[..1],
            3..=7 => &chain[end..],
            8 => &chain[1 + random.below(end)..],
            // One between the ends, if there is one.
            _ => {
                let place = 1 + random.below(end.max(2) - 1);
                &chain[place..=place]
            }
        };
        moved.iter().for_each(|&unit| set(bytes, region(unit), other));
    } else {
        let unit = random.pick(&loners);
        set(bytes, region(unit), other);
        if random.chance(500) {
            set(bytes, next(chain[chain.len() - 1]), unit as u8 + 1);
        } else {
            set(bytes, next(unit), chain[0] as u8 + 1);
            set(bytes, 16 + 4 * (sketch.units.len() + aggregate), unit as u8 + 1);
        }
    }
}

/// A cap stays for some intervals, and so does its absence; a stubborn unit's cap stays for good.
fn next_cap_flag(random: &mut Random, unit: &mut Unit, stubborn: bool) -> u8 {
    unit.cap_left = unit.cap_left.saturating_sub(1);
    if stubborn {
        unit.cap_flag = 1;
    } else if unit.cap_left == 0 {
        unit.cap_flag = 1 - unit.cap_flag;
        unit.cap_left = random.within(1, if unit.cap_flag == 1 { 18 } else { 5 }) as u32;
    }
    unit.cap_flag
}

/// A line on the group's course. A stubborn one stays away for good.
fn draft_unit(random: &mut Random, unit: &mut Unit, course: Course, upward: bool, stubborn: bool) -> Draft {
    let lowest = if unit.kind.is_signed() { -LIMIT } else { 0 };
    unit.target = (unit.target + random.within(-4_000, 4_000)).clamp(lowest, LIMIT);
    let target = match random.below(60) {
        0 if !stubborn => lowest,
        1 if !stubborn => LIMIT,
        _ => unit.target,
    };
    let cap_flag = match unit.kind {
        Kind::SemiScheduled => next_cap_flag(random, unit, stubborn),
        _ => 0,
    };
    let near = |random: &mut Random, rate: i64| (rate + random.within(-200, 900)).clamp(0, LIMIT);
    let mut draft = Draft {
        quality: 0,
        mode: 0,
        cap_flag,
        target,
        availability: unit.availability,
        raise: if random.chance(900) { unit.raise } else { random.within(0, 9_000) as u32 },
        lower: if random.chance(900) { unit.lower } else { random.within(0, 9_000) as u32 },
        bid_up: near(random, unit.rate) as u32,
        bid_down: near(random, unit.rate) as u32,
        power: target,
        scada_up: near(random, unit.rate),
        scada_down: near(random, unit.rate),
    };
    let (kept_target, raise, lower) = unit.sent.unwrap_or((target, 0, 0));
    let (up, down) = if unit.kind == Kind::Load { (lower, raise) } else { (raise, lower) };
    let (up, down) = (i64::from(up), i64::from(down));
    // A few members of a group that is away stay on target.
    let course = if !stubborn && random.chance(120) { Course::OnTarget } else { course };
    // In the group's signed direction: a load's own goes the other way.
    let upward = upward != (unit.kind == Kind::Load);
    let at_error = |error: i64| if upward { kept_target + up + error } else { kept_target - down - error };
    draft.power = match course {
        Course::OnTarget if random.chance(250) => target,
        Course::OnTarget => kept_target + random.within(-down - 5_000, up + 5_000),
        Course::Tripped => tripped_power(random),
        _ => {
            // Two guesses at the direction that the power will decide.
            let mut power = kept_target;
            let pick = random.below(6);
            let beyond = random.within(1, 12_000);
            let share = random.within(0, 1_000);
            for guess in [if upward { -1 } else { 1 }, if upward { 1 } else { -1 }] {
                let Triggers { small, large } = Triggers::of(draft.availability, draft.rate(guess));
                let (small, large) = (i64::from(small) / 100, i64::from(large) / 100);
                let error = match course {
                    Course::Small => small + 1 + (large - small) * share / 1_000 - i64::from(share == 1_000),
                    Course::Large => large + beyond,
                    _ => [small, small + 1, large, large + 1, small - 1, large][pick],
                };
                power = at_error(error);
                if (target - power).signum() == guess {
                    break;
                }
            }
            power
        }
    };
    draft.power = draft.power.clamp(-LIMIT, LIMIT);
    draft
}

/// Moves one member's power so that the aggregate's error comes to lie at or between its triggers.
fn tune_aggregate(
    random: &mut Random,
    units: &[Unit],
    group: &Group,
    course: Course,
    drafts: &mut [Option<Draft>],
    stubborn: bool,
) {
    let mut target = 0;
    let mut power = 0;
    let mut kept_target = 0;
    let (mut up, mut down) = (0, 0);
    let mut availability = [0u32; 2];
    for &unit in &group.units {
        let (Some(draft), Some((sent, raise, lower))) = (&drafts[unit], units[unit].sent) else { return };
        let load = units[unit].kind == Kind::Load;
        let sign = sign(&units[unit]);
        target += sign * draft.target;
        power += sign * draft.power;
        kept_target += sign * sent;
        up += i64::from(raise);
        down += i64::from(lower);
        availability[usize::from(load)] += draft.availability;
    }
    let place = if stubborn { 6 } else { random.below(7) };
    let share = random.within(0, 1_000);
    for guess in [-1, 1, 0] {
        let mut rates = [0u32; 2];
        for &unit in &group.units {
            let Some(draft) = &drafts[unit] else { return };
            let load = units[unit].kind == Kind::Load;
            rates[usize::from(load)] += draft.rate(if load { -guess } else { guess });
        }
        let found = Triggers::of(availability[0].max(availability[1]), rates[0].max(rates[1]));
        let (small, large) = (i64::from(found.small) / 100, i64::from(found.large) / 100);
        let error = match (course, place) {
            (Course::Edge, _) => [small, small + 1, large, large + 1, small - 1, small, large + 1][place],
            (Course::Small, _) | (_, 0 | 1) => small + 1 + (large - small) * share / 1_000 - i64::from(share == 1_000),
            _ => large + 1 + share,
        };
        let wanted = if group.upward { kept_target + up + error } else { kept_target - down - error };
        if (target - wanted).signum() == guess {
            move_aggregate(random, units, group, drafts, wanted - power);
            return;
        }
    }
}

/// Moves one member's power so that the aggregate's comes to lie around 0.
fn trip_aggregate(random: &mut Random, units: &[Unit], group: &Group, drafts: &mut [Option<Draft>]) {
    let signed_power = |&unit: &usize| drafts[unit].map_or(0, |draft| sign(&units[unit]) * draft.power);
    let power: i64 = group.units.iter().map(signed_power).sum();
    let wanted = tripped_power(random);
    move_aggregate(random, units, group, drafts, wanted - power);
}

/// Moves one member's power, where its bounds allow, so that the aggregate's moves by this much.
fn move_aggregate(random: &mut Random, units: &[Unit], group: &Group, drafts: &mut [Option<Draft>], by: i64) {
    let unit = random.pick(&group.units);
    if let Some(draft) = &mut drafts[unit] {
        let moved = draft.power + sign(&units[unit]) * by;
        if moved.abs() <= LIMIT {
            draft.power = moved;
        }
    }
}

/// A load is subtracted in its aggregate's sums.
fn sign(unit: &Unit) -> i64 {
    if unit.kind == Kind::Load {
        -1
    } else {
        1
    }
}

#[cfg(test)]
mod tests {
    use super::*;

    #[test]
    fn fixed_by_the_seed() {
        assert_eq!(list(7), list(7));
        assert_ne!(list(7), list(8));
    }
}
