//! Random inputs for the program.

use crate::commands::random_command;
use crate::damage::damage;
use crate::gate::RECORD;
use crate::networks::{guarded_network, random_network, Sizes, Widths};
use crate::random::Random;
use crate::records::{add, delete, modify, Record};

/// Sizes of networks for which the program's work suffices, up to N of 7.
const SMALL: Sizes = Sizes { links: 4, rules: 6, policies: 2, nodes: 18, groups: 4 };

/// A network and some commands as one input, sometimes damaged, cut or strange.
pub fn random_input(random: &mut Random) -> Vec<u8> {
    let of = Widths { h: 1 + random.bits(1), p: 2, w: random.below(3) as u8 };
    let sound = match random.one_in(2) {
        true => random_network(random, of, SMALL),
        false => guarded_network(random, of),
    };
    let mut records = sound.clone();
    if random.one_in(4) {
        damage(random, &mut records);
    }
    let mut commands: Vec<Record> = vec![];
    for _ in 0..random.below(8) {
        let before = commands.last().copied();
        commands.push(match before {
            Some(before) if random.one_in(4) => random_kind(random, before),
            _ => random_whole_command(random, &sound),
        });
    }
    let mut input = [records, commands].concat().concat();
    if random.one_in(4) {
        input.truncate(random.up_to(input.len()));
    }
    input
}

/// A random command of 24 bytes, now and then no command at all.
fn random_whole_command(random: &mut Random, records: &[Record]) -> Record {
    let mut command = match random.one_in(10) {
        true => random.bytes(RECORD),
        false => random_command(random, records),
    };
    command.resize(RECORD, 0);
    command.try_into().expect("as long as a record")
}

/// A command on the rule of the one before, which may have added or deleted it.
fn random_kind(random: &mut Random, before: Record) -> Record {
    let kind = random.pick(&[add, modify, delete]);
    kind(before)
}
