//! What the stored questions are answered, those about reading and writing judged once for every
//! type.

use super::order;
use super::parts::Parts;
use super::reading::Asked;
use crate::random::Random;
use crate::rules::record::{SESSION_SIZE, SIZE};
use crate::rules::{read, refusal, session, write};
use crate::{ask, hex};
use std::collections::{BTreeMap, BTreeSet};

/// The questions of a section.
pub fn asked_by(ask: fn(&mut Vec<String>)) -> Vec<String> {
    let mut lines = Vec::new();
    ask(&mut lines);
    lines
}

/// How often the questions of a section got each number, by their call: "read 9".
pub fn numbers_by_call(ask: fn(&mut Vec<String>)) -> BTreeMap<String, usize> {
    let mut seen = BTreeMap::new();
    for line in asked_by(ask) {
        let answer = ask::answer(line.as_bytes());
        let number = ask::number_of(answer.split(' ').next().unwrap()).to_string();
        let call = line.split(' ').next().unwrap();
        *seen.entry(format!("{} {}", call, number)).or_default() += 1;
    }
    seen
}

/// How often each type got each number.
type Seen = BTreeMap<(u8, u8), usize>;

/// A type got each of these numbers, and no other. The questions would show little if some of its
/// answers never came.
pub fn gets_each(seen: &Seen, type_byte: u8, numbers: &[u8]) {
    for number in 0..=23 {
        let count = seen.get(&(type_byte, number)).copied().unwrap_or(0);
        let good = match numbers.contains(&number) {
            true => count >= 5,
            false => count == 0,
        };
        assert!(
            good,
            "type {:02X} got {} {} times",
            type_byte, number, count
        );
    }
}

/// The number of the first fault in the order, 0 where there is none.
fn first_of(faults: u16, order: &[u8]) -> u8 {
    let first = order::numbers(faults, order).first().copied();
    first.map_or(0, order::told)
}

/// The bytes that a message has by its length field.
fn total_of(message: &[u8]) -> usize {
    usize::from(u16::from_le_bytes([message[2], message[3]])) + 2
}

// Reading.

/// The type that the record of a message has, by README.md.
pub fn record_type(direction: u8, message: &[u8]) -> u8 {
    match (direction, message[4]) {
        (2, 0x38) => 0xB8,
        (_, type_byte) => type_byte,
    }
}

/// By the type that the record has.
pub fn reads(asked: &Asked) -> Seen {
    let mut seen = Seen::new();
    for (direction, bytes) in asked.iter().filter(|(_, bytes)| bytes.len() > 4) {
        let answer = refusal(read::message(*direction, bytes));
        let record_type = record_type(*direction, bytes);
        *seen.entry((record_type, answer)).or_default() += 1;
    }
    seen
}

/// Reads a message with some faults: the first of them in the order is told.
pub fn first_fault_read(direction: u8, message: &[u8], faults: u16, order: &[u8]) {
    let answer = refusal(read::message(direction, message));
    let expected = first_of(faults, order);
    assert_eq!(answer, expected, "type {} {:08b}", message[4], faults);
}

// Writing.

/// What is written must read as the record again and leave the rest of its buffer; what is refused
/// must leave all of it.
pub fn writes(lines: &[String]) -> Seen {
    let mut seen = Seen::new();
    for line in lines {
        let answer = ask::answer(line.as_bytes());
        if answer == "?" {
            continue;
        }
        let words: Vec<&str> = line.split(' ').collect();
        let direction: u8 = words[1].parse().unwrap();
        let record = hex::read(words[2]).unwrap();
        let buffer = hex::read(words[3]).unwrap();
        let (number, after) = answer.split_once(' ').unwrap();
        let after = hex::read(after).unwrap();
        if number == "0" {
            let again = read::message(direction, &after).unwrap();
            assert_eq!(again, record[..again.len()]);
            let total = total_of(&after);
            assert_eq!(after[total..], buffer[total..]);
            assert_eq!(after.len(), buffer.len());
        } else {
            assert_eq!(after, buffer);
        }
        if !record.is_empty() {
            let number = ask::number_of(number).parse().unwrap();
            *seen.entry((record[0], number)).or_default() += 1;
        }
    }
    seen
}

/// Writes a record with some faults: the first of them in the order is told, and the buffer changes
/// where there is none. Of a shorter record only the type is judged, and that if it is there.
pub fn first_fault_written(direction: u8, record: &[u8], before: &[u8], faults: u16, order: &[u8]) {
    let mut buffer = before.to_vec();
    let answer = refusal(write::record(direction, record, &mut buffer));
    let expected = first_of(faults, order);
    assert_eq!(answer, expected, "type {} {:08b}", record[0], faults);
    assert_eq!(buffer == before, faults != 0);
    let of_the_session = session::ALL
        .iter()
        .any(|session| session.type_byte == record[0]);
    let size = if of_the_session { SESSION_SIZE } else { SIZE };
    for end in [0, 1, size - 1] {
        let answer = refusal(write::record(direction, &record[..end], &mut buffer));
        let judged = end > 0 && expected == 4;
        assert_eq!(answer, if judged { 4 } else { 13 }, "{} bytes", end);
    }
}

/// Each valid message that is read is also written.
pub fn every_valid_message(lines: &[String], asked: Asked) {
    let written: BTreeSet<String> = lines
        .iter()
        .filter_map(|line| line.split(' ').nth(2).map(str::to_string))
        .collect();
    for (direction, bytes) in asked {
        if let Ok(record) = read::message(direction, &bytes) {
            let digits = hex::write(&record);
            let found = written
                .range(digits.clone()..)
                .next()
                .map_or(false, |next| next.starts_with(&digits));
            assert!(found, "{}", digits);
        }
    }
}

// Both.

/// The parts, put together by the places of README.md, are what the reader and the writer answer.
pub fn agree(sample: &impl Parts) {
    let direction = sample.direction();
    let message = sample.bytes();
    let mut record = sample.record();
    assert_eq!(read::message(direction, &message), Ok(record.clone()));
    for more in [0, 1, 204] {
        record.resize(record.len() + more, 0xFF);
        let mut buffer = vec![0x5A; message.len() + 3];
        assert_eq!(write::record(direction, &record, &mut buffer), Ok(()));
        assert_eq!(buffer[..message.len()], message);
        assert_eq!(buffer[message.len()..], [0x5A; 3]);
    }
}

/// The numbers that damaged messages of a type are read with, and damaged records written.
pub fn damaged_answers<P: Parts>(
    random: &mut Random,
    which: usize,
    rounds: usize,
) -> (BTreeSet<u8>, BTreeSet<u8>) {
    let mut reads = BTreeSet::new();
    let mut writes = BTreeSet::new();
    for _ in 0..rounds {
        let sample = P::any(random, which);
        let (direction, bytes) = sample.damaged(random);
        reads.insert(refusal(read::message(direction, &bytes)));
        let (direction, bytes, mut buffer) = sample.damaged_record(random);
        writes.insert(refusal(write::record(direction, &bytes, &mut buffer)));
    }
    (reads, writes)
}

/// What damage leaves valid comes back as it was, and a refusal leaves the buffer.
pub fn round_trips_of_the_damaged<P: Parts>(seed: u64, types: usize, rounds: usize) {
    let mut random = Random::new(seed);
    let (mut messages, mut records) = (0, 0);
    for round in 0..rounds {
        let sample = P::any(&mut random, round % types);
        let (direction, bytes) = sample.damaged(&mut random);
        if let Ok(record) = read::message(direction, &bytes) {
            let mut buffer = vec![0; bytes.len()];
            assert_eq!(write::record(direction, &record, &mut buffer), Ok(()));
            let total = total_of(&buffer);
            assert_eq!(buffer[..total], bytes[..total]);
            messages += 1;
        }
        let (direction, bytes, mut buffer) = sample.damaged_record(&mut random);
        let before = buffer.clone();
        if write::record(direction, &bytes, &mut buffer).is_ok() {
            let again = read::message(direction, &buffer).unwrap();
            assert_eq!(again, bytes[..again.len()]);
            records += 1;
        } else {
            assert_eq!(buffer, before);
        }
    }
    assert!(messages > 500 && records > 500);
}
