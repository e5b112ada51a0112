//! Questions about writing records of messages with bitfields.

mod order;
mod unused;

use super::read;
use super::sample::{
    Sample, ACKNOWLEDGMENT, CANCEL, CANCEL_REJECTED, EXECUTION, MODIFY, MODIFY_REJECTED, NEW_ORDER,
    NEW_ORDERS, OPTIONS, ORDER_REJECTED, PURGE, WITH_QUANTITY,
};
use super::texts::texts;
use crate::questions::parts::{other_directions, Parts};
use crate::questions::values::bad_bytes;
use crate::questions::writing::{self, add, line, pattern};
use crate::random::Random;
use crate::rules::layout;
use crate::rules::types::VENUE;
use std::collections::BTreeSet;

pub fn ask(lines: &mut Vec<String>) {
    let mut random = Random::new(7);
    writing::records_of::<Sample>(lines, &mut random, read::messages());
    for which in 0..layout::ALL.len() {
        rooms(lines, &mut random, which);
        headers(lines, &mut random, which);
        counts(lines, &mut random, which);
        bits(lines, &mut random, which);
        bad_texts(lines, &mut random, which);
        unused::ask(lines, &mut random, which);
        order::ask(lines, &mut random, which);
    }
    quantities(lines, &mut random);
    required(lines, &mut random);
    let counts = [
        (NEW_ORDER, 80),
        (CANCEL, 40),
        (ACKNOWLEDGMENT, 60),
        (EXECUTION, 60),
        (ORDER_REJECTED, 50),
        (CANCEL_REJECTED, 30),
        (MODIFY_REJECTED, 20),
        (MODIFY, 30),
        (PURGE, 50),
        (OPTIONS, 50),
    ];
    writing::damaged::<Sample>(lines, &mut random, &counts);
}

/// Buffers about the size of the message, their bytes all different from what is written there.
fn rooms(lines: &mut Vec<String>, random: &mut Random, which: usize) {
    let sample = Sample::any(random, which);
    let total = sample.bytes().len();
    let rooms: Vec<usize> = match which {
        CANCEL => (0..=total + 2).collect(),
        _ => vec![
            0,
            1,
            2,
            10,
            total - 2,
            total - 1,
            total,
            total + 1,
            total + 2,
            total + 20,
        ],
    };
    writing::rooms(lines, random, &sample, rooms);
}

fn headers(lines: &mut Vec<String>, random: &mut Random, which: usize) {
    let least = Sample::least(random, which);
    let own = least.layout.direction();
    for unit in [0, 1, 2, 31, 32, 33, 64, 128, 255] {
        let mut sample = least.clone();
        sample.unit = unit;
        add(lines, random, &sample);
    }
    for number in [0, 1, 0x0102_0304, 0x8000_0000, 0xFFFF_FFFF] {
        let mut sample = least.clone();
        sample.number = number;
        add(lines, random, &sample);
    }
    if own == VENUE {
        for (unit, number) in [
            (0, 0),
            (0, 1),
            (1, 0),
            (1, 1),
            (1, u32::MAX),
            (32, 256),
            (255, 0x0100_0000),
        ] {
            let mut sample = least.clone();
            (sample.unit, sample.number) = (unit, number);
            add(lines, random, &sample);
        }
    }
    for direction in other_directions(own) {
        let room = random.between(0, 40);
        let buffer = pattern(random, room);
        let record = Sample::lent(random, &least.record());
        lines.push(line(direction, &record, &buffer));
    }
    for type_byte in [
        0x00, 0x02, 0x26, 0x29, 0x2B, 0x2D, 0x36, 0x48, 0x38, 0x39, 0x25, 0x2C, 0x37, 0x24, 0x03,
        0x09, 0xFF, 0x3A, 0x47, 0xB8,
    ] {
        let mut record = Sample::lent(random, &least.record());
        record[0] = type_byte;
        let room = random.between(0, 40);
        let buffer = pattern(random, room);
        lines.push(line(own, &record, &buffer));
    }
}

/// Counts up to the most and past it, over zero bitfields and over set ones.
fn counts(lines: &mut Vec<String>, random: &mut Random, which: usize) {
    let most = layout::ALL[which].most as u8;
    let mut all = Sample::least(random, which);
    all.select_all();
    for count in 0..=most {
        all.count = count;
        add(lines, random, &all);
    }
    let mut least = Sample::least(random, which);
    // About the most of the others too, which the record has places for.
    let far = [16, 18, 19, 20, 32, 127, 128, 255];
    let counts: BTreeSet<u8> = (0..most + 3).chain(far).collect();
    for count in counts {
        least.count = count;
        add(lines, random, &least);
    }
}

/// Bits that are not listed: all of them where the bitfield has listed ones, else one of them.
fn bits(lines: &mut Vec<String>, random: &mut Random, which: usize) {
    let layout = &layout::ALL[which];
    for byte in 1..=layout.most {
        let listed = layout.listed_bits(byte);
        let one = random.below(8);
        for shift in (0..8).filter(|shift| listed != 0 || *shift == one) {
            let bit = 1 << shift;
            if listed & bit == 0 {
                let mut sample = Sample::least(random, which);
                sample.set_bit(byte, bit);
                add(lines, random, &sample);
            }
        }
    }
}

/// In each text field: bad bytes first and last, a character after a NUL, and none if there must
/// be some.
fn bad_texts(lines: &mut Vec<String>, random: &mut Random, which: usize) {
    for text in texts(random, which) {
        let mut sample = text.sample;
        let good = sample.value(text.name).clone();
        let last = good.len() - 1;
        for place in BTreeSet::from([0, last]) {
            let bad = random.pick(bad_bytes(text.kind));
            sample.value(text.name)[place] = bad;
            add(lines, random, &sample);
            sample.value(text.name).copy_from_slice(&good);
        }
        if last > 0 {
            sample.value(text.name)[random.between(0, last - 1)] = 0;
            add(lines, random, &sample);
        }
        if text.never_blank {
            sample.value(text.name).fill(0);
            add(lines, random, &sample);
        }
    }
}

/// OrderQty, which has a range in the New Orders alone.
fn quantities(lines: &mut Vec<String>, random: &mut Random) {
    for which in WITH_QUANTITY {
        let mut sample = Sample::least(random, which);
        if !NEW_ORDERS.contains(&which) {
            sample.select("OrderQty");
        }
        for quantity in [0_u32, 1, 999_999, 1_000_000, 4_294_967_295] {
            let value = sample.value("OrderQty");
            value.copy_from_slice(&quantity.to_le_bytes());
            add(lines, random, &sample);
        }
    }
}

/// Every choice of the fields that a New Order's requirement names.
fn required(lines: &mut Vec<String>, random: &mut Random) {
    for which in NEW_ORDERS {
        for choice in 0..16 {
            let mut sample = Sample::least(random, which);
            sample.clear();
            sample.select_required(choice);
            add(lines, random, &sample);
        }
    }
}

#[cfg(test)]
mod tests {
    use super::*;
    use crate::questions::judged;

    /// What each record's type gets, and that what is written reads as the record again.
    #[test]
    fn each_type_gets_each_answer() {
        let seen = judged::writes(&judged::asked_by(ask));
        for layout in &layout::ALL {
            let mut numbers = vec![0, 4, 5, 7, 8, 10, 12, 13];
            if !layout.required.is_empty() {
                numbers.push(9);
            }
            if layout.type_byte == 0x47 {
                numbers.push(23);
            }
            judged::gets_each(&seen, layout.record_type, &numbers);
        }
    }

    #[test]
    fn every_valid_message() {
        judged::every_valid_message(&judged::asked_by(ask), read::messages());
    }
}
