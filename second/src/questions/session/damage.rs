//! Damaged session messages and records: one to three strokes, each of a kind that some rule looks
//! at. Some change the parts, and some the bytes that are made of them.

use super::sample::{shuffle, Group, Sample, BODY_PLACE, RECORD};
use crate::questions::parts::{measure, Parts};
use crate::questions::strokes::{
    change, lengthen, shorten, some_byte, some_count, some_direction, some_unit, strike,
    strike_from, strokes,
};
use crate::questions::writing::pattern;
use crate::random::Random;
use crate::rules::frame::HEADER;
use crate::rules::record::SIZE;

/// From here on a record is mostly zero.
const MOSTLY_UNUSED: usize = 230;

/// A direction and the bytes of a damaged message, which may still be valid.
pub fn message(random: &mut Random, sample: &Sample) -> (u8, Vec<u8>) {
    let (sample, left) = struck(random, sample);
    let mut direction = sample.session.direction();
    let mut bytes = sample.bytes();
    for _ in 0..left {
        strike_bytes(random, &mut direction, &mut bytes);
    }
    (direction, bytes)
}

/// A direction, a damaged record and a buffer for its message.
pub fn record(random: &mut Random, sample: &Sample) -> (u8, Vec<u8>, Vec<u8>) {
    let (sample, left) = struck(random, sample);
    let mut direction = sample.session.direction();
    let mut bytes = sample.record();
    let mut room = sample.bytes().len();
    for _ in 0..left {
        strike_record(random, &mut direction, &mut bytes, &mut room);
    }
    (direction, bytes, pattern(random, room))
}

/// The parts after some of the strokes, and how many are left for the bytes.
fn struck(random: &mut Random, sample: &Sample) -> (Sample, u64) {
    let mut sample = sample.clone();
    let all = strokes(random);
    let of_parts = random.below(all + 1);
    for _ in 0..of_parts {
        strike_parts(random, &mut sample);
    }
    (sample, all - of_parts)
}

/// A place of a list that is not empty.
fn some_place<T>(random: &mut Random, list: &[T]) -> Option<usize> {
    match list.len() {
        0 => None,
        size => Some(random.between(0, size - 1)),
    }
}

fn strike_parts(random: &mut Random, sample: &mut Sample) {
    match random.below(16) {
        0 => sample.unit = some_unit(random),
        1 => sample.number = 1 << random.below(32),
        2..=4 => {
            if let Some(index) = some_place(random, &sample.fields) {
                let value = &mut sample.fields[index];
                let place = random.between(0, value.len() - 1);
                value[place] = some_byte(random);
            }
        }
        5 => sample.unit_count = some_count(random, sample.unit_count),
        6 => {
            if let Some(index) = some_place(random, &sample.pairs) {
                sample.pairs[index].0 = some_unit(random);
            }
        }
        // One pair more or less.
        7 => {
            let mut pairs = sample.pairs.clone();
            match random.below(2) {
                0 => pairs.push((random.between(1, 33) as u8, random.number())),
                _ => drop(pairs.pop()),
            }
            sample.set_pairs(pairs);
        }
        8 => sample.group_count = some_count(random, sample.group_count),
        // A group more, perhaps of a kind that is there, or one less.
        9 => {
            let mut groups = sample.groups.clone();
            match (random.below(4), some_place(random, &groups)) {
                (0, Some(index)) => groups.push(groups[index].clone()),
                (1, Some(index)) => drop(groups.remove(index)),
                (2, _) => groups.push(Group::units(0, &[])),
                _ => groups.push(Group::bitfields(random.pick(&[0x25, 0x2C]), &[1])),
            }
            sample.set_groups(groups);
        }
        10 => shuffle(random, &mut sample.groups),
        11 => {
            sample.after = random.bytes(3);
            let size = random.between(1, 3);
            sample.after.truncate(size);
        }
        _ => {
            if let Some(index) = some_place(random, &sample.groups) {
                strike_group(random, &mut sample.groups[index]);
            }
        }
    }
}

fn strike_group(random: &mut Random, group: &mut Group) {
    match random.below(7) {
        0 => {
            let by = [1, 5, 256, 65_531, 65_535][random.between(0, 4)];
            group.length = group.length.wrapping_add(by);
        }
        1 => group.type_byte = random.pick(&[0x80, 0x81, 0x82, 0x7F, 0x00]),
        2 => group.choice = random.pick(&[0, 1, 2, 0x25, 0x26, 0x2C, 0xFF]),
        3 => group.count = some_count(random, group.count),
        4 => {
            if let Some(place) = some_place(random, &group.list) {
                group.list[place] = some_byte(random);
            }
        }
        // A bitfield or a pair more or less, as the length says, and mostly as the count says.
        _ => {
            let width = if group.type_byte == 0x80 { 5 } else { 1 };
            if random.below(2) == 0 {
                group.list.push(random.between(1, 33) as u8);
                group.list.extend(random.bytes(width - 1));
                group.count = group.count.wrapping_add(1);
            } else if group.list.len() >= width {
                group.list.truncate(group.list.len() - width);
                group.count = group.count.wrapping_sub(1);
            }
            if random.below(4) == 0 {
                group.count = some_count(random, group.count);
            }
            group.fit();
        }
    }
}

fn strike_bytes(random: &mut Random, direction: &mut u8, bytes: &mut Vec<u8>) {
    match random.below(9) {
        0 => *direction = some_direction(random, *direction),
        1 => strike(random, bytes, 0, 9),
        2 | 3 => strike_from(random, bytes, HEADER),
        4 => {
            shorten(random, bytes);
            measure(bytes);
        }
        5 => shorten(random, bytes),
        6 => {
            let by = random.pick(&[1, 2, 5, 252, 254, 255]);
            change(bytes, 2, |length| length.wrapping_add(by));
        }
        7 => {
            lengthen(random, bytes, 5);
            measure(bytes);
        }
        _ => lengthen(random, bytes, 12),
    }
}

fn strike_record(random: &mut Random, direction: &mut u8, bytes: &mut Vec<u8>, room: &mut usize) {
    match random.below(8) {
        0 => *direction = some_direction(random, *direction),
        1 => {
            let other = random.pick(&[0x37, 0x24, 0x08, 0x03, 0x09, 0x13, 0x02, 0x38, 0x25, 0x26]);
            change(bytes, 0, |_| other);
        }
        2 => strike(random, bytes, 1, 5),
        3 | 4 => strike_from(random, bytes, BODY_PLACE),
        5 => {
            let size = match random.below(6) {
                0 => random.between(0, 2),
                1 => random.between(0, RECORD),
                2 => random.between(SIZE - 6, SIZE + 6),
                _ => random.between(RECORD - 10, RECORD + 10),
            };
            bytes.resize(size, random.byte());
        }
        // A byte that is not zero in what is mostly not used.
        6 => {
            if bytes.len() > MOSTLY_UNUSED {
                let place = random.between(MOSTLY_UNUSED, bytes.len() - 1);
                change(bytes, place, |byte| byte ^ 1);
            }
        }
        _ => *room = random.between(0, *room),
    }
}

#[cfg(test)]
mod tests {
    use super::*;
    use crate::questions::judged;
    use crate::questions::session::sample::LISTED;

    /// Random damage reaches every number, in each type.
    #[test]
    fn every_refusal() {
        let mut random = Random::new(170);
        for which in 0..6 {
            let (reads, writes) = judged::damaged_answers::<Sample>(&mut random, which, 4_000);
            // More may come where the damage makes another message of it.
            let (least_reads, least_writes): (&[u8], &[u8]) = match LISTED.contains(&which) {
                true => (&[0, 1, 2, 3, 4, 5, 6, 10, 11], &[0, 4, 5, 10, 11, 13]),
                false => (&[0, 1, 2, 3, 4, 5, 6], &[0, 4, 5, 12, 13]),
            };
            assert!(least_reads.iter().all(|number| reads.contains(number)));
            assert!(least_writes.iter().all(|number| writes.contains(number)));
        }
    }

    #[test]
    fn round_trips_of_the_damaged() {
        judged::round_trips_of_the_damaged::<Sample>(171, 6, 6_000);
    }
}
