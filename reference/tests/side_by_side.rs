//! The flat list of members against the chains in the register's bytes.

use conformance::passes;
use conformance::register::Stretch;
use conformance::replay::{Call, Calls, MAX_REPORT};
use conformance::{random_calls, random_passes, Monitor, Plant};

/// The chains of an accepted register, units from 0: from each head through next.
fn chains(register: &[u8]) -> Vec<Vec<u8>> {
    let next = |unit: u8| register[17 + 4 * usize::from(unit)];
    let (units, aggregates) = (usize::from(register[0]), usize::from(register[1]));
    let chain = |aggregate: usize| {
        let mut chain = Vec::new();
        let mut following = register[16 + 4 * (units + aggregate)];
        while following != 0 {
            chain.push(following - 1);
            following = next(following - 1);
        }
        chain
    };
    (0..aggregates).map(chain).collect()
}

/// Each stretch is a chain, they follow each other from 0 on, and together they are all members. Each unit is in its own region,
/// each aggregate in that of all its members.
fn check(register: &[u8], plant: &Plant, visits: u32) {
    let chains = chains(register);
    assert_eq!(plant.aggregates(), chains.len());
    let mut end = 0;
    for (aggregate, chain) in chains.iter().enumerate() {
        assert_eq!(plant.members(aggregate), chain);
        let Stretch { start, count } = plant.stretch(aggregate);
        assert_eq!((usize::from(start), usize::from(count)), (end, chain.len()));
        end += chain.len();
        assert_eq!(&plant.all_members()[usize::from(start)..end], chain);
    }
    assert_eq!(plant.all_members(), chains.concat());
    assert_eq!((plant.all_members().len(), visits as usize), (end, end));
    let rest: Vec<u8> = (0..register[0]).filter(|unit| !plant.all_members().contains(unit)).collect();
    assert_eq!(plant.loners(), rest);
    let region = |unit: u8| register[18 + 4 * usize::from(unit)];
    for unit in 0..register[0] {
        assert_eq!(plant.region(usize::from(unit)), region(unit));
    }
    for (aggregate, chain) in chains.iter().enumerate() {
        assert!(chain.iter().all(|&unit| plant.region(plant.units() + aggregate) == region(unit)));
    }
}

fn register(units: &[(u8, u8)], heads: &[u8]) -> Vec<u8> {
    let mut bytes = vec![units.len() as u8, heads.len() as u8, 2, 3, 4, 2, 3, 4];
    bytes.extend([0; 8]);
    bytes.extend(units.iter().flat_map(|&(kind, next)| [kind, next, 0, 0]));
    bytes.extend(heads.iter().flat_map(|&head| [head, 0, 0, 0]));
    bytes
}

#[test]
fn stretches_by_hand() {
    // Chains 5 1 3, 2 6 4 and 8; unit 7 in none.
    let bytes = register(&[(1, 3), (2, 6), (3, 0), (1, 0), (1, 1), (3, 4), (4, 0), (2, 0)], &[5, 2, 8]);
    let (plant, visits) = Plant::load(&bytes).unwrap();
    check(&bytes, &plant, visits);
    assert_eq!(plant.all_members(), [4, 0, 2, 1, 5, 3, 7]);
    let stretches = [0, 1, 2].map(|aggregate| plant.stretch(aggregate));
    assert_eq!(stretches.map(|stretch| (stretch.start, stretch.count)), [(0, 3), (3, 3), (6, 1)]);
    assert_eq!([0, 1, 2].map(|aggregate| plant.members(aggregate)), [&[4, 0, 2][..], &[1, 5, 3], &[7]]);
}

#[test]
fn largest_stretches() {
    // One chain of 64 up, down and by a stride prime to 64; 16 chains of 4 and of 1, heads rising and falling.
    let strides: Vec<u8> = (0..64u32).map(|place| ((place * 27 + 5) % 64 + 1) as u8).collect();
    for order in [(1..=64).collect::<Vec<u8>>(), (1..=64).rev().collect(), strides] {
        for length in [64, 4, 1] {
            let chains: Vec<&[u8]> = order.chunks(length).take(16).collect();
            let mut units = vec![(3, 0); 64];
            for pair in chains.iter().flat_map(|chain| chain.windows(2)) {
                units[usize::from(pair[0]) - 1].1 = pair[1];
            }
            let heads: Vec<u8> = chains.iter().map(|chain| chain[0]).collect();
            let bytes = register(&units, &heads);
            let (plant, visits) = Plant::load(&bytes).unwrap();
            check(&bytes, &plant, visits);
            assert_eq!(plant.stretch(chains.len() - 1).start, if length == 64 { 0 } else { 15 * length as u8 });
        }
    }
}

#[test]
fn stretches_of_random_registers() {
    let mut accepted = 0;
    for seed in 1..=8 {
        for case in passes::cases(&random_passes::blocks(seed)) {
            if let Ok((plant, visits)) = Plant::load(case.register) {
                check(case.register, &plant, visits);
                accepted += 1;
            }
        }
    }
    assert!(accepted > 1_000);
}

#[test]
fn stretches_after_every_call() {
    let mut report = [0; MAX_REPORT];
    let (mut accepted, mut refused) = (0, 0);
    for seed in 1..=400 {
        let list = random_calls::list(seed);
        let mut monitor = Monitor::new();
        // The latest accepted register and its visits.
        let mut latest: Option<(&[u8], u32)> = None;
        for call in Calls::new(&list) {
            match call {
                Ok(Call::Load(register)) => match monitor.load(register) {
                    Ok(visits) => {
                        latest = Some((register, visits));
                        accepted += 1;
                    }
                    Err(_) => refused += usize::from(latest.is_some()),
                },
                Ok(Call::Interval { report: length, buffer }) => {
                    let _ = monitor.interval(buffer, &mut report[..length]);
                }
                Ok(Call::Declare { point, level }) => {
                    let _ = monitor.declare(point, level);
                }
                Ok(Call::Reinstate { point }) => {
                    let _ = monitor.reinstate(point);
                }
                _ => continue,
            }
            match (latest, monitor.plant()) {
                (Some((register, visits)), Some(plant)) => check(register, plant, visits),
                (latest, plant) => assert!(latest.is_none() && plant.is_none()),
            }
        }
    }
    assert!(accepted > 400 && refused > 100);
}
