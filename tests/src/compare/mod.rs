//! Two gates run on the same buffers; a difference is told in words.

pub mod routes;
mod tally;

pub use tally::{Tally, ADDED_BY_MODIFY, FULL_TO_MODIFY};

use crate::commands::{filling_command, random_command};
use crate::damage::damage;
use crate::formulas::{policy, random_formula};
use crate::gate::{Answer, Call, Gate, Lent, Outcome, Program, STORE};
use crate::inputs::random_input;
use crate::networks::{
    all_widths, crowded, full_network, guarded_network, largest, random_group, random_network,
    random_rule, work_needed, Sizes, Widths, MODEST, MOST_GROUPS, MOST_RULES,
};
use crate::random::Random;
use crate::records::Record;
use crate::reordered::Reordered;

/// Records lent in a store of random length, with random bytes behind them and in the work.
pub fn lend(random: &mut Random, records: &[Record], work: usize) -> Lent {
    let mut store = records.concat();
    let behind = STORE.saturating_sub(store.len()) + random.below(64);
    store.extend(random.bytes(behind));
    Lent { store, n: records.len(), work: random.bytes(work), ..Lent::default() }
}

/// The outcome of a call on two gates, if it is the same.
pub fn same(one: &dyn Gate, other: &dyn Gate, call: &Call, lent: &Lent) -> Result<Outcome, String> {
    let must = one.outcome(call, lent);
    let told = |difference: String| {
        let Lent { store, n, work, list } = lent;
        let lengths = [store.len(), work.len(), list.len()];
        let records = lent.records();
        format!("{difference}: {call:?}, n {n}, lengths {lengths:?}, records {records:02X?}")
    };
    other.outcome(call, lent).expect(&must).map_err(told)?;
    Ok(must)
}

/// Two gates that are compared call by call, and what they answered.
struct Comparison<'a> {
    gates: [&'a dyn Gate; 2],
    tally: Tally,
}

impl<'a> Comparison<'a> {
    fn of(one: &'a dyn Gate, other: &'a dyn Gate) -> Comparison<'a> {
        Comparison { gates: [one, other], tally: Tally::default() }
    }

    /// The outcome of a call, if the gates agree.
    fn outcome(&mut self, call: &Call, lent: &Lent) -> Result<Outcome, String> {
        let [one, other] = self.gates;
        let outcome = same(one, other, call, lent)?;
        self.tally.add(call, lent.n, outcome.answer);
        Ok(outcome)
    }

    /// The next call of a series: the buffers become those of the call behind it.
    fn go_on(&mut self, random: &mut Random, call: &Call, lent: &mut Lent) -> Result<(), String> {
        let Outcome { answer, left } = self.outcome(call, lent)?;
        let work = random.bytes(left.work.len());
        *lent = Lent { work, ..left };
        lent.go_on(answer);
        Ok(())
    }
}

/// Checks of sound networks, so many of each width.
pub fn sound_networks(
    one: &dyn Gate,
    other: &dyn Gate,
    seed: u64,
    rounds: usize,
    most: Sizes,
) -> Result<Tally, String> {
    let mut random = Random::new(seed);
    let mut compared = Comparison::of(one, other);
    for of in all_widths() {
        for _ in 0..rounds {
            let records = random_network(&mut random, of, most);
            let work = random_work(&mut random, work_needed(&records));
            let lent = lend(&mut random, &records, work);
            compared.outcome(&Call::Check, &lent)?;
        }
    }
    Ok(compared.tally)
}

/// A length that suffices, mostly with some to spare, or now and then just does not.
fn random_work(random: &mut Random, needed: usize) -> usize {
    match random.below(16) {
        0 => needed - 1,
        1 => needed,
        _ => needed + random.below(100),
    }
}

/// Checks of largest networks.
pub fn largest_networks(
    one: &dyn Gate,
    other: &dyn Gate,
    seed: u64,
    rounds: usize,
) -> Result<Tally, String> {
    let mut random = Random::new(seed);
    let mut compared = Comparison::of(one, other);
    for _ in 0..rounds {
        let records = largest(&mut random);
        let lent = lend(&mut random, &records, work_needed(&records));
        compared.outcome(&Call::Check, &lent)?;
    }
    Ok(compared.tally)
}

/// Checks, commands and routes on damaged networks of widths up to so many bits.
pub fn damaged_networks(
    one: &dyn Gate,
    other: &dyn Gate,
    seed: u64,
    rounds: usize,
    bits: u8,
) -> Result<Tally, String> {
    let mut random = Random::new(seed);
    let mut compared = Comparison::of(one, other);
    let widths = widths_up_to(bits);
    for _ in 0..rounds {
        let of = random.pick(&widths);
        let sound = random_network(&mut random, of, MODEST);
        let mut records = sound.clone();
        damage(&mut random, &mut records);
        let mut lent = lend(&mut random, &records, 4 * work_needed(&sound));
        compared.outcome(&Call::Check, &lent)?;
        let given = random_command(&mut random, &sound);
        compared.outcome(&Call::Command(given), &lent)?;
        let [start, end] = routes::random_ends(&mut random, &sound, 1)[0];
        let entries = routes::random_entries(&mut random, 1 << of.bits());
        lent.list = routes::random_list(&mut random, entries);
        compared.outcome(&Call::Route { start, end }, &lent)?;
    }
    Ok(compared.tally)
}

/// Commands on networks with the most rules, policies, nodes and groups, and checks with one record
/// more.
pub fn crowded_networks(
    one: &dyn Gate,
    other: &dyn Gate,
    seed: u64,
    rounds: usize,
    bits: u8,
) -> Result<Tally, String> {
    let mut random = Random::new(seed);
    let mut compared = Comparison::of(one, other);
    let widths = widths_up_to(bits);
    for _ in 0..rounds {
        let of = random.pick(&widths);
        let mut records = crowded(&mut random, of);
        let work = work_needed(&records);
        let lent = lend(&mut random, &records, work);
        let given = random_command(&mut random, &records);
        compared.outcome(&Call::Command(given), &lent)?;
        insert_one_more(&mut random, of, &mut records);
        let lent = lend(&mut random, &records, work);
        compared.outcome(&Call::Check, &lent)?;
    }
    Ok(compared.tally)
}

/// Checks of networks with the most rules, of which one has the key of an earlier one: row 8 at its place,
/// wherever the two stand.
pub fn repeated_rules(
    one: &dyn Gate,
    other: &dyn Gate,
    seed: u64,
    rounds: usize,
    bits: u8,
) -> Result<(), String> {
    let mut random = Random::new(seed);
    let widths = widths_up_to(bits);
    for _ in 0..rounds {
        let of = random.pick(&widths);
        let mut records = crowded(&mut random, of);
        let rules = records.partition_point(|record| record[0] < 4);
        let later = 1 + random.below(MOST_RULES - 1);
        let earlier = records[rules + random.below(later)];
        records[rules + later][1..8].copy_from_slice(&earlier[1..8]);
        expect_refusal(one, other, &mut random, &records, 8, rules + later)?;
    }
    Ok(())
}

/// Checks of largest networks, of which one link ends where an earlier one does: row 6 at its place,
/// whichever of the four ends are the same.
pub fn repeated_points(
    one: &dyn Gate,
    other: &dyn Gate,
    seed: u64,
    rounds: usize,
) -> Result<(), String> {
    let mut random = Random::new(seed);
    for _ in 0..rounds {
        let mut records = largest(&mut random);
        let links = records.partition_point(|record| record[0] < 3) - 1;
        let later = 1 + random.below(links - 1);
        let earlier = records[1 + random.below(later)];
        let [from, to] = random.pick(&[[1, 1], [1, 3], [3, 1], [3, 3]]);
        records[1 + later][to..to + 2].copy_from_slice(&earlier[from..from + 2]);
        expect_refusal(one, other, &mut random, &records, 6, 1 + later)?;
    }
    Ok(())
}

/// An error, unless both gates refuse the records by this row at this place.
fn expect_refusal(
    one: &dyn Gate,
    other: &dyn Gate,
    random: &mut Random,
    records: &[Record],
    number: usize,
    place: usize,
) -> Result<(), String> {
    let work = random.below(64);
    let lent = lend(random, records, work);
    let answer = same(one, other, &Call::Check, &lent)?.answer;
    if answer == (Answer::Refused { number, place }) {
        return Ok(());
    }
    Err(format!("{answer:?}, not row {number} at {place}"))
}

/// Puts a rule, a policy or a group behind the last one of a crowded network.
fn insert_one_more(random: &mut Random, of: Widths, records: &mut Vec<Record>) {
    let policies_end = records.len() - MOST_GROUPS;
    match random.below(3) {
        0 => {
            let rules_end = policies_end - 8 * 32;
            records.insert(rules_end, random_rule(random, of, records));
        }
        1 => {
            let number = 6 + random.below(3) as u8;
            let formula = random_formula(random, of.bits(), 1);
            records.splice(policies_end..policies_end, policy(number, &formula));
        }
        _ => {
            let last = records[records.len() - 1];
            let number = random.pick(&[last[2], last[2] + 1]);
            records.push(random_group(random, of, last[1], number, records));
        }
    }
}

/// Series of so many commands, each on the store and count that the ones before left. The first gate
/// finds the networks to start with.
pub fn series(
    one: &dyn Gate,
    other: &dyn Gate,
    seed: u64,
    rounds: usize,
    bits: u8,
    length: usize,
) -> Result<Tally, String> {
    let mut random = Random::new(seed);
    let mut compared = Comparison::of(one, other);
    let widths = widths_up_to(bits);
    for _ in 0..rounds {
        let of = random.pick(&widths);
        let mut lent = holding_network(&mut random, one, of);
        for _ in 0..length {
            let given = random_command(&mut random, lent.records());
            compared.go_on(&mut random, &Call::Command(given), &mut lent)?;
        }
    }
    Ok(compared.tally)
}

/// Series on networks whose table is full or almost.
pub fn full_tables(
    one: &dyn Gate,
    other: &dyn Gate,
    seed: u64,
    rounds: usize,
    bits: u8,
    length: usize,
) -> Result<Tally, String> {
    let mut random = Random::new(seed);
    let mut compared = Comparison::of(one, other);
    let widths = widths_up_to(bits);
    for _ in 0..rounds {
        let of = random.pick(&widths);
        let mut lent = holding(&mut random, one, |random| full_network(random, of));
        for _ in 0..length {
            let given = filling_command(&mut random, lent.records());
            compared.go_on(&mut random, &Call::Command(given), &mut lent)?;
        }
    }
    Ok(compared.tally)
}

/// A gate on networks and on the same with their rules in any order: checks, commands and routes.
pub fn orders(gate: &dyn Gate, seed: u64, rounds: usize) -> Result<(), String> {
    let reordered = Reordered::new(gate, seed);
    let most = Sizes { links: 6, rules: 12, policies: 2, nodes: 6, groups: 4 };
    damaged_networks(gate, &reordered, seed, 8_000 * rounds, 5)?;
    sound_networks(gate, &reordered, seed, rounds, most)?;
    series(gate, &reordered, seed, 20 * rounds, 6, 16)?;
    Ok(())
}

/// Whole inputs through both programs.
pub fn programs(one: Program, other: Program, seed: u64, rounds: usize) -> Result<(), String> {
    let mut random = Random::new(seed);
    for _ in 0..rounds {
        let input = random_input(&mut random);
        let (printed, its) = (one(&input), other(&input));
        if printed != its {
            let (printed, its) = (String::from_utf8_lossy(&printed), String::from_utf8_lossy(&its));
            return Err(format!("{printed:?} against {its:?} for {input:02X?}"));
        }
    }
    Ok(())
}

/// The widths with at most so many bits of state.
pub fn widths_up_to(bits: u8) -> Vec<Widths> {
    let mut widths = all_widths();
    widths.retain(|widths| widths.bits() <= bits);
    widths
}

/// A random network of which the gate says that it holds, mostly one that commands may break.
pub fn holding_network(random: &mut Random, gate: &dyn Gate, of: Widths) -> Lent {
    holding(random, gate, |random| match random.one_in(4) {
        true => random_network(random, of, MODEST),
        false => guarded_network(random, of),
    })
}

/// The first network made of which the gate says that it holds.
fn holding(
    random: &mut Random,
    gate: &dyn Gate,
    network: impl Fn(&mut Random) -> Vec<Record>,
) -> Lent {
    for _ in 0..1_000 {
        let records = network(random);
        let lent = lend(random, &records, work_needed(&records));
        if gate.answer(&Call::Check, &mut lent.clone()) == Answer::Holds {
            return lent;
        }
    }
    panic!("the gate lets none of 1,000 networks hold");
}
