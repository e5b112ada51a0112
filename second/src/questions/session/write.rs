//! Questions about writing the records of session messages.

mod order;

use super::faults;
use super::read;
use super::sample::{Group, Sample, BARE, BODY_PLACE, LISTED, LOGIN, LOGOUT, RECORD, RESPONSE};
use crate::questions::parts::{other_directions, Parts};
use crate::questions::values::{bad_bytes, textual};
use crate::questions::writing::{self, add, add_record, line, pattern};
use crate::random::Random;
use crate::rules::record::SIZE;
use crate::rules::session;
use std::collections::BTreeSet;

pub fn ask(lines: &mut Vec<String>) {
    let mut random = Random::new(9);
    writing::records_of::<Sample>(lines, &mut random, read::messages());
    for which in 0..session::ALL.len() {
        rooms(lines, &mut random, which);
        headers(lines, &mut random, which);
        unused(lines, &mut random, which);
        order::ask(lines, &mut random, which);
    }
    for which in LISTED {
        faulty_lists(lines, &mut random, which);
        bad_texts(lines, &mut random, which);
    }
    for which in [LOGIN, RESPONSE] {
        full_records(lines, &mut random, which);
    }
    let mut counts = vec![(LOGIN, 90), (RESPONSE, 90), (LOGOUT, 60)];
    counts.extend(BARE.map(|which| (which, 12)));
    writing::damaged::<Sample>(lines, &mut random, &counts);
}

/// Buffers about the size of the message, their bytes all different from what is written there.
fn rooms(lines: &mut Vec<String>, random: &mut Random, which: usize) {
    let sample = Sample::whole(random, which);
    let total = sample.bytes().len();
    let rooms = BTreeSet::from([
        0,
        1,
        4,
        9,
        10,
        total - 2,
        total - 1,
        total,
        total + 1,
        total + 20,
    ]);
    writing::rooms(lines, random, &sample, rooms);
}

/// Units and numbers, which are all 0; directions; and other types over the same record.
fn headers(lines: &mut Vec<String>, random: &mut Random, which: usize) {
    let least = Sample::least(random, which);
    let own = least.session.direction();
    for (unit, number) in [
        (0, 0),
        (1, 0),
        (32, 0),
        (255, 0),
        (0, 1),
        (0, 256),
        (0, 65_536),
        (0, 16_777_216),
        (0, 0x8000_0000),
        (1, 0xFFFF_FFFF),
    ] {
        let mut sample = least.clone();
        (sample.unit, sample.number) = (unit, number);
        add(lines, random, &sample);
    }
    for direction in other_directions(own) {
        let room = random.between(0, 40);
        let buffer = pattern(random, room);
        lines.push(line(direction, &least.record(), &buffer));
    }
    for type_byte in [
        0x00, 0x02, 0x03, 0x08, 0x09, 0x13, 0x24, 0x25, 0x37, 0x38, 0x39, 0xFF,
    ] {
        let mut record = least.record();
        record[0] = type_byte;
        let buffer = pattern(random, 90);
        lines.push(line(own, &record, &buffer));
    }
}

/// One byte that is not zero after the last list: right after it, last of all, and between.
fn unused(lines: &mut Vec<String>, random: &mut Random, which: usize) {
    for sample in [
        Sample::least(random, which),
        Sample::whole(random, which),
        Sample::any(random, which),
    ] {
        let end = BODY_PLACE + sample.body().len();
        let between: Vec<usize> = (0..4).map(|_| random.between(end, RECORD - 1)).collect();
        for place in [end, end + 1, SIZE - 1, SIZE, RECORD - 1]
            .into_iter()
            .chain(between)
            .filter(|place| (end..RECORD).contains(place))
        {
            let mut record = sample.record();
            record[place] = random.pick(&[1, b'A', 0x7F, 0x80, 255]);
            add_record(lines, random, &sample, &record);
        }
    }
}

/// One rule of the lists broken at a time, and bytes left after them.
fn faulty_lists(lines: &mut Vec<String>, random: &mut Random, which: usize) {
    for sample in faults::broken(random, which) {
        add(lines, random, &sample);
    }
    for sample in faults::left(random, which) {
        add(lines, random, &sample);
    }
    // Bytes that a message would miss are zero in a record.
    for missing in 1..=12 {
        let sample = Sample::whole(random, which);
        let mut record = sample.record();
        let end = BODY_PLACE + sample.body().len();
        record[end - missing..end].fill(0);
        add_record(lines, random, &sample, &record);
    }
}

/// In each text field: bad bytes first and last, and a character after a NUL.
fn bad_texts(lines: &mut Vec<String>, random: &mut Random, which: usize) {
    let whole = Sample::whole(random, which);
    for (index, field) in whole.session.fields.iter().enumerate() {
        if !textual(field.kind) {
            continue;
        }
        let last = field.width - 1;
        for _ in 0..3 {
            for place in BTreeSet::from([0, last]) {
                let mut sample = whole.clone();
                sample.fields[index][place] = random.pick(bad_bytes(field.kind));
                add(lines, random, &sample);
            }
        }
        for byte in [0, b'!'] {
            let mut sample = whole.clone();
            sample.fields[index][0] = byte;
            add(lines, random, &sample);
        }
    }
}

/// Records whose lists take all the places that there are, or want more.
fn full_records(lines: &mut Vec<String>, random: &mut Random, which: usize) {
    let largest = Sample::largest(random, which);
    add(lines, random, &largest);
    for count in [0, 1, 2, 4, 255] {
        let mut sample = largest.clone();
        sample.group_count = count;
        add(lines, random, &sample);
    }
    for extra in [
        Group::units(0, &[]),
        Group::bitfields(0x25, &[]),
        Group::bitfields(0x2C, &[255; 15]),
    ] {
        for place in 0..=3 {
            let mut sample = largest.clone();
            let mut groups = sample.groups.clone();
            groups.insert(place, extra.clone());
            sample.set_groups(groups);
            add(lines, random, &sample);
        }
    }
    // A last group that says it is longer than the places that are left.
    for (length, count) in [(21, 16), (255, 15), (261, 255), (65_535, 15)] {
        let mut sample = largest.clone();
        sample.groups[2].length = length;
        sample.groups[2].count = count;
        add(lines, random, &sample);
    }
    // Groups one after the other up to the last place.
    let mut sample = Sample::least(random, which);
    let groups = vec![Group::bitfields(0x25, &[]); 86];
    sample.set_groups(groups);
    add(lines, random, &sample);
    sample.group_count = 255;
    add(lines, random, &sample);
}

#[cfg(test)]
mod tests {
    use super::*;
    use crate::questions::judged;

    /// What each record's type gets, and that what is written reads as the record again.
    #[test]
    fn each_type_gets_each_answer() {
        let seen = judged::writes(&judged::asked_by(ask));
        for session in &session::ALL {
            let numbers: &[u8] = match session.lists.is_empty() {
                true => &[0, 4, 5, 12, 13],
                false => &[0, 4, 5, 10, 11, 13],
            };
            judged::gets_each(&seen, session.type_byte, numbers);
        }
    }

    #[test]
    fn every_valid_message() {
        judged::every_valid_message(&judged::asked_by(ask), read::messages());
    }
}
