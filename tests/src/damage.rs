//! Damaged networks: one change to sound records.

use crate::gate::{MOST_RECORDS, RECORD};
use crate::networks::{random_group, Widths};
use crate::random::Random;
use crate::records::Record;

/// Damages the records in one way, and tells the first record that is another one now.
pub fn damage(random: &mut Random, records: &mut Vec<Record>) -> usize {
    match random.below(12) {
        0 => set_byte(random, records),
        1 => flip_bit(random, records),
        2 => put_action(random, records),
        3 => swap(random, records),
        4 => cut(random, records),
        5 => remove(random, records),
        6 => set_group_byte(random, records),
        7 => remove_group(random, records),
        8 => add_group(random, records),
        9 => redirect_bucket(random, records),
        10 => set_version(random, records),
        _ => duplicate(random, records),
    }
}

/// Sets one byte, mostly an early one of its record, to a small or any value.
fn set_byte(random: &mut Random, records: &mut [Record]) -> usize {
    let place = random.below(records.len());
    let any = random.below(RECORD);
    let byte = random.pick(&[0, 1, 2, 3, 4, any, any, any]);
    let (small, any) = (random.below(12) as u8, random.byte());
    records[place][byte] = random.pick(&[small, any]);
    place
}

fn flip_bit(random: &mut Random, records: &mut [Record]) -> usize {
    let place = random.below(records.len());
    records[place][random.below(RECORD)] ^= 1 << random.below(8);
    place
}

/// Sets the version, which is no damage if there is such a one, and now and then a width too.
fn set_version(random: &mut Random, records: &mut [Record]) -> usize {
    let any = random.byte();
    records[0][4] = random.pick(&[0, 1, 4, 2, 3, 5, 255, any]);
    if random.one_in(4) {
        records[0][1 + random.below(3)] = random.bits(3);
    }
    0
}

/// Puts an action of a kind from 0 to 5 into a miss or a rule, if there is one. Of its value and its
/// care at most one is not zero, so that little is wrong with an IN_PORT or a group.
fn put_action(random: &mut Random, records: &mut [Record]) -> usize {
    let place = random_place(random, records, &[3, 4]);
    let (kind, small, stray) = (random.below(6) as u8, random.bits(5), random.byte());
    let [value, care] = random.pick(&[[0, 0], [small, 0], [stray, 0], [0, stray]]);
    let first = 9 + 3 * random.below(4);
    records[place][first..first + 3].copy_from_slice(&[kind, value, care]);
    place
}

/// The place of a record of these kinds, if there is one, or else of any.
fn random_place(random: &mut Random, records: &[Record], kinds: &[u8]) -> usize {
    let any = random.below(records.len());
    let places: Vec<usize> =
        (0..records.len()).filter(|place| kinds.contains(&records[*place][0])).collect();
    if places.is_empty() {
        any
    } else {
        random.pick(&places)
    }
}

/// Sets one byte of a group, mostly to a small value, if there is a group.
fn set_group_byte(random: &mut Random, records: &mut [Record]) -> usize {
    let place = random_place(random, records, &[9]);
    let any = random.below(RECORD);
    let of_bucket = 9 + random.below(12);
    let target = random.pick(&[11, 12, 15, 16, 19, 20]);
    let byte = random.pick(&[1, 2, 8, any, of_bucket, target]);
    let (small, next, any) = (random.bits(5), records[place][byte] ^ 1, random.byte());
    records[place][byte] = random.pick(&[small, next, any]);
    place
}

/// Sends a bucket on to its own group or to any of the groups, if there is one.
fn redirect_bucket(random: &mut Random, records: &mut [Record]) -> usize {
    let place = random_place(random, records, &[9]);
    let target = records[random_place(random, records, &[9])][2];
    let group = &mut records[place];
    if group[0] == 9 {
        let target = random.pick(&[group[2], target]);
        let first = 11 + 4 * random.below(usize::from(group[8]));
        group[first..first + 2].copy_from_slice(&[2, target]);
    }
    place
}

/// Removes a group, if there is one.
fn remove_group(random: &mut Random, records: &mut Vec<Record>) -> usize {
    let place = random_place(random, records, &[9]);
    if records[place][0] == 9 {
        records.remove(place);
    }
    place
}

/// Puts a group behind another one or at the end, if there is room, mostly out of order.
fn add_group(random: &mut Random, records: &mut Vec<Record>) -> usize {
    let of = Widths::of(&records[0]);
    let place = match random.one_in(2) {
        true => random_place(random, records, &[9]) + 1,
        false => records.len(),
    };
    let [switch, number] = [random.bits(of.w), random.bits(4)];
    let added = random_group(random, of, switch, number, records);
    if records.len() < MOST_RECORDS {
        records.insert(place, added);
    }
    place
}

fn swap(random: &mut Random, records: &mut [Record]) -> usize {
    let one = random.below(records.len());
    let other = random.below(records.len());
    records.swap(one, other);
    one.min(other)
}

/// Cuts off a tail, but leaves one record.
fn cut(random: &mut Random, records: &mut Vec<Record>) -> usize {
    records.truncate(1 + random.below(records.len()));
    records.len()
}

/// Removes one record, unless it is the only one.
fn remove(random: &mut Random, records: &mut Vec<Record>) -> usize {
    let place = random.below(records.len());
    if records.len() > 1 {
        records.remove(place);
    }
    place
}

/// Puts a copy of one record somewhere, if there is room.
fn duplicate(random: &mut Random, records: &mut Vec<Record>) -> usize {
    let copy = random.pick(records);
    let place = random.up_to(records.len());
    if records.len() < MOST_RECORDS {
        records.insert(place, copy);
    }
    place
}
