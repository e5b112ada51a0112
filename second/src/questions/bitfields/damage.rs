//! Damaged messages with bitfields and damaged records of them: one to three strokes, each of a
//! kind that some rule looks at.

use super::late;
use super::sample::Sample;
use crate::questions::parts::{measure, Parts};
use crate::questions::strokes::{
    change, lengthen, shorten, some_bit, some_count, some_direction, some_unit, strike,
    strike_from, strike_one_of, strokes,
};
use crate::questions::writing::pattern;
use crate::random::Random;
use crate::rules::frame::HEADER;
use crate::rules::layout::Layout;
use crate::rules::record::{
    BITFIELDS_PLACE, COUNT_PLACE, FIXED_PLACE, SESSION_SIZE, SIZE, SLOTS_PLACE,
};

/// Types of records of every direction and of none.
const TYPE_BYTES: [u8; 15] = [
    0x38, 0x39, 0x25, 0x2C, 0x26, 0x29, 0x2B, 0x37, 0x24, 0x00, 0x27, 0xFF, 0x3A, 0x47, 0xB8,
];

/// A direction and the bytes of a damaged message, which may still be valid.
pub fn message(random: &mut Random, sample: &Sample) -> (u8, Vec<u8>) {
    let (sample, strokes) = begun(random, sample);
    let mut direction = sample.layout.direction();
    let mut bytes = sample.bytes();
    for _ in 0..strokes {
        strike_message(random, sample.layout, &mut direction, &mut bytes);
    }
    (direction, bytes)
}

/// A direction, a damaged record and a buffer for its message.
pub fn record(random: &mut Random, sample: &Sample) -> (u8, Vec<u8>, Vec<u8>) {
    let (sample, strokes) = begun(random, sample);
    let mut direction = sample.layout.direction();
    let mut bytes = Sample::lent(random, &sample.record());
    let mut room = sample.bytes().len();
    for _ in 0..strokes {
        strike_record(random, sample.layout, &mut direction, &mut bytes, &mut room);
    }
    (direction, bytes, pattern(random, room))
}

/// What the strokes fall on, and how many fall. Where values ask for other fields the sample itself is
/// careless in half, with a stroke less.
fn begun(random: &mut Random, sample: &Sample) -> (Sample, u64) {
    let strokes = strokes(random);
    if late::asks(sample.layout) && random.below(2) == 0 {
        (late::careless(random, sample), strokes - 1)
    } else {
        (sample.clone(), strokes)
    }
}

/// Another unit, or of what is unsequenced perhaps another number, which follows it.
fn strike_header(random: &mut Random, layout: &Layout, bytes: &mut [u8], unit_place: usize) {
    if layout.greatest_number == 0 && random.below(2) == 0 {
        strike(random, bytes, unit_place + 1, unit_place + 4);
    } else {
        let unit = some_unit(random);
        change(bytes, unit_place, |_| unit);
    }
}

fn strike_message(random: &mut Random, layout: &Layout, direction: &mut u8, bytes: &mut Vec<u8>) {
    let count_place = layout.count_place();
    let first = layout.bitfields_place();
    match random.below(20) {
        0 => strike_header(random, layout, bytes, 5),
        1 => change(bytes, count_place, |count| some_count(random, count)),
        2 | 3 => {
            let place = first + random.between(0, layout.most - 1);
            let bit = some_bit(random);
            change(bytes, place, |bitfield| bitfield ^ bit);
        }
        // One more bitfield, perhaps one too many.
        4 | 5 => {
            if count_place < bytes.len() {
                let end = first + usize::from(bytes[count_place]);
                if end <= bytes.len() {
                    let bit = some_bit(random);
                    let bitfield = random.pick(&[0, 0, bit]);
                    bytes.insert(end, bitfield);
                    change(bytes, count_place, |count| count.wrapping_add(1));
                    measure(bytes);
                }
            }
        }
        6..=8 => strike(random, bytes, HEADER, count_place - 1),
        9..=11 => strike_from(random, bytes, first),
        12 => {
            lengthen(random, bytes, 4);
            measure(bytes);
        }
        13 => {
            let fewer = random.between(1, 4);
            bytes.truncate(bytes.len().saturating_sub(fewer));
            measure(bytes);
        }
        14 => {
            shorten(random, bytes);
            measure(bytes);
        }
        15 => {
            let by = random.pick(&[1, 2, 8, 253, 254, 255]);
            change(bytes, 2, |length| length.wrapping_add(by));
        }
        16 => shorten(random, bytes),
        17 => *direction = some_direction(random, *direction),
        18 => strike(random, bytes, 0, 4),
        _ => lengthen(random, bytes, 12),
    }
}

fn strike_record(
    random: &mut Random,
    layout: &Layout,
    direction: &mut u8,
    bytes: &mut Vec<u8>,
    room: &mut usize,
) {
    match random.below(16) {
        0 => strike_header(random, layout, bytes, 1),
        1 | 2 => change(bytes, COUNT_PLACE, |count| some_count(random, count)),
        3 | 4 => {
            let place = BITFIELDS_PLACE + random.between(0, layout.most - 1);
            let bit = some_bit(random);
            change(bytes, place, |bitfield| bitfield ^ bit);
        }
        5 => {
            let place = random.between(BITFIELDS_PLACE, SLOTS_PLACE - 1);
            let bit = some_bit(random);
            change(bytes, place, |bitfield| bitfield ^ bit);
        }
        6 | 7 => {
            let end = FIXED_PLACE + layout.fixed_width();
            strike(random, bytes, FIXED_PLACE, end - 1);
        }
        // A byte of a text, or of a selected field.
        8 | 9 => {
            let places = places_of(bytes, |byte| byte != 0);
            strike_one_of(random, bytes, &places);
        }
        // A byte of the filling or of an unused place.
        10 | 11 => {
            let places = places_of(bytes, |byte| byte == 0);
            strike_one_of(random, bytes, &places);
        }
        12 => *direction = some_direction(random, *direction),
        13 => {
            let other = random.pick(&TYPE_BYTES);
            change(bytes, 0, |_| other);
        }
        14 => {
            let size = match random.below(6) {
                0 => random.between(0, 2),
                1 => random.between(SESSION_SIZE - 10, SESSION_SIZE + 10),
                _ => random.between(SIZE - 10, SIZE + 10),
            };
            bytes.resize(size, random.byte());
        }
        _ => *room = random.between(0, *room),
    }
}

/// The places from the fixed part on whose bytes are of a sort.
fn places_of(bytes: &[u8], sort: impl Fn(u8) -> bool) -> Vec<usize> {
    (FIXED_PLACE..bytes.len().min(SIZE))
        .filter(|place| sort(bytes[*place]))
        .collect()
}

#[cfg(test)]
mod tests {
    use super::*;
    use crate::questions::bitfields::sample::{required_field, PURGE, TYPES};
    use crate::questions::judged;
    use std::collections::BTreeSet;

    /// Random damage reaches every number, in each type.
    #[test]
    fn every_refusal() {
        let mut random = Random::new(110);
        for which in 0..TYPES {
            let (reads, writes) = judged::damaged_answers::<Sample>(&mut random, which, 6_000);
            // More may come where the damage makes another message of it.
            let mut least_reads = BTreeSet::from([0, 1, 2, 3, 4, 5, 6, 7, 8, 9, 10]);
            let mut least_writes = BTreeSet::from([0, 4, 5, 7, 8, 9, 10, 12, 13]);
            if required_field(which).is_none() {
                least_reads.remove(&9);
                least_writes.remove(&9);
            }
            if which == PURGE {
                least_reads.insert(23);
                least_writes.insert(23);
            }
            assert!(reads.is_superset(&least_reads));
            assert!(writes.is_superset(&least_writes));
        }
    }

    #[test]
    fn round_trips_of_the_damaged() {
        judged::round_trips_of_the_damaged::<Sample>(131, TYPES, 18_000);
    }
}
