//! The order in which the chains of random registers meet their units.

use crate::random_calls::Random;

/// How the units of a chain follow one another.
#[derive(Clone, Copy, PartialEq, Eq)]
pub(crate) enum Order {
    Rising,
    Falling,
    Shuffled,
}

pub(crate) const ORDERS: [Order; 3] = [Order::Rising, Order::Falling, Order::Shuffled];

impl Order {
    pub(crate) fn name(self) -> &'static str {
        match self {
            Self::Rising => "rising",
            Self::Falling => "falling",
            Self::Shuffled => "shuffled",
        }
    }

    /// Puts the units of a chain in this order.
    pub(crate) fn arrange(self, random: &mut Random, chain: &mut [usize]) {
        match self {
            Self::Rising => chain.sort_unstable(),
            Self::Falling => chain.sort_unstable_by(|one, other| other.cmp(one)),
            Self::Shuffled => shuffle(random, chain),
        }
    }
}

pub(crate) fn shuffle<T>(random: &mut Random, items: &mut [T]) {
    for i in (1..items.len()).rev() {
        items.swap(i, random.below(i + 1));
    }
}

/// Units 0 to n-1 to deal into chains from the end: in any order, so that the chains interleave; or neighbours side by side,
/// so that each chain is a run of them, the last ones dealt first or the first ones.
pub(crate) fn deck(random: &mut Random, n: usize, neighbours: bool) -> Vec<usize> {
    let mut units: Vec<usize> = (0..n).collect();
    if !neighbours {
        shuffle(random, &mut units);
    } else if random.chance(500) {
        units.reverse();
    }
    units
}

/// The next units of a deck, as many as there are at most.
pub(crate) fn deal(units: &mut Vec<usize>, length: usize) -> Vec<usize> {
    units.split_off(units.len().saturating_sub(length))
}

/// A next for each unit, 0 behind the last of a chain.
pub(crate) fn nexts(n: usize, chains: &[Vec<usize>]) -> Vec<u8> {
    let mut next = vec![0; n];
    for pair in chains.iter().flat_map(|chain| chain.windows(2)) {
        next[pair[0]] = pair[1] as u8 + 1;
    }
    next
}
