//! The route call of two gates on the same buffers.

use super::{lend, random_work, Comparison, Tally};
use crate::gate::{Call, Gate};
use crate::networks::{
    all_widths, largest, random_network, random_new_rule, work_needed, Sizes, Widths,
};
use crate::random::Random;
use crate::records::Record;
use crate::second::file;
use crate::second::states::StateSet;
use crate::second::steps::all_steps;
use crate::winding::winding;

/// Entries of a list, or bytes of a work buffer, that are not needed.
const SPARE: usize = 100;

/// Routes in sound networks, so many of each width: between all states up to N of 6, above between
/// so many pairs.
pub fn of_every_width(
    one: &dyn Gate,
    other: &dyn Gate,
    seed: u64,
    rounds: usize,
    pairs: usize,
    most: Sizes,
) -> Result<Tally, String> {
    let mut random = Random::new(seed);
    let mut compared = Comparison::of(one, other);
    for of in all_widths() {
        for _ in 0..rounds {
            let records = random_network(&mut random, of, most);
            let ends = match of.bits() <= 6 {
                true => all_pairs(1 << of.bits()),
                false => random_ends(&mut random, &records, pairs),
            };
            routes_between(&mut compared, &mut random, &records, &ends)?;
        }
    }
    Ok(compared.tally)
}

/// Routes between so many pairs of states of largest networks.
pub fn of_largest(
    one: &dyn Gate,
    other: &dyn Gate,
    seed: u64,
    pairs: usize,
) -> Result<Tally, String> {
    let mut random = Random::new(seed);
    let mut compared = Comparison::of(one, other);
    let records = largest(&mut random);
    let ends = random_ends(&mut random, &records, pairs);
    routes_between(&mut compared, &mut random, &records, &ends)?;
    Ok(compared.tally)
}

/// Long routes of every width: in networks whose one route winds through all links, but for a few
/// rules that do anything.
pub fn of_winding(
    one: &dyn Gate,
    other: &dyn Gate,
    seed: u64,
    rounds: usize,
    pairs: usize,
) -> Result<Tally, String> {
    let mut random = Random::new(seed);
    let mut compared = Comparison::of(one, other);
    for of in all_widths() {
        for _ in 0..rounds {
            let mut records = winding(of).records;
            for _ in 0..random.up_to(3) {
                let straying = random_new_rule(&mut random, of, &records);
                records.push(straying);
            }
            let ends = random_ends(&mut random, &records, pairs);
            routes_between(&mut compared, &mut random, &records, &ends)?;
        }
    }
    Ok(compared.tally)
}

/// Routes between these pairs of states, with work and lists of lengths that vary.
fn routes_between(
    compared: &mut Comparison,
    random: &mut Random,
    records: &[Record],
    ends: &[[usize; 2]],
) -> Result<(), String> {
    let needed = work_needed(records);
    let states = 1 << Widths::of(&records[0]).bits();
    let mut lent = lend(random, records, 0);
    let work = random.bytes(needed + SPARE);
    let list = random_list(random, states + 1 + SPARE);
    for [start, end] in ends.iter().copied() {
        lent.work = work[..random_work(random, needed)].to_vec();
        lent.list = list[..random_entries(random, states)].to_vec();
        compared.outcome(&Call::Route { start, end }, &lent)?;
    }
    Ok(())
}

fn all_pairs(states: usize) -> Vec<[usize; 2]> {
    (0..states).flat_map(|start| (0..states).map(move |end| [start, end])).collect()
}

/// Pairs of states: any two, or the second from the first by random steps, or now and then with one
/// that does not exist.
pub fn random_ends(random: &mut Random, records: &[Record], pairs: usize) -> Vec<[usize; 2]> {
    let network = file::read(records).expect("a sound network");
    let steps = all_steps(&network);
    let bits = usize::from(network.widths.bits());
    let pair = |_| {
        let start = random.below(steps.len());
        match random.below(16) {
            0 => [start, steps.len() + random.below(8)],
            1 => [start | steps.len() << random.below(64 - bits), start],
            2..5 => [start, random.below(steps.len())],
            _ => [start, walk(random, &steps, start)],
        }
    };
    (0..pairs).map(pair).collect()
}

/// Where a random walk ends that takes at most as many steps as there are states.
fn walk(random: &mut Random, steps: &[StateSet], start: usize) -> usize {
    let mut state = start;
    for _ in 0..random.below(steps.len()) {
        let next = steps[state].without(&StateSet::empty());
        if next.is_empty() {
            break;
        }
        state = random.pick(&next);
    }
    state
}

/// How long a list is: mostly long enough, with some to spare, or now and then just not.
pub fn random_entries(random: &mut Random, states: usize) -> usize {
    match random.below(32) {
        0 => states,
        1 => random.below(states),
        2..8 => states + 1,
        _ => states + 1 + random.below(SPARE),
    }
}

/// A list of so many random entries.
pub fn random_list(random: &mut Random, entries: usize) -> Vec<u16> {
    (0..entries).map(|_| random.word() as u16).collect()
}
