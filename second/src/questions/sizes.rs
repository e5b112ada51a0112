//! Records of every type cut about the two sizes that records have, and buffers for them. A type says
//! how many bytes its record has. In writing it is judged first, and where there is no type byte there
//! is nothing to judge; in reading the buffer's size is judged last.

use super::bitfields::sample::{Sample, NEW_ORDER};
use super::parts::{way_back, Parts, NO_DIRECTION};
use super::session::sample::Sample as Session;
use super::writing::{line, pattern};
use crate::hex;
use crate::random::Random;
use crate::rules::layout;
use crate::rules::record::{SESSION_SIZE, SIZE, SLOTS_PLACE};
use crate::rules::session;
use crate::rules::types::{MEMBER, OPTIONS_MEMBER, VENUE};

const SIZES: [usize; 16] = [
    0,
    1,
    2,
    6,
    7,
    SLOTS_PLACE,
    SIZE - 1,
    SIZE,
    SIZE + 1,
    300,
    SESSION_SIZE - 2,
    SESSION_SIZE - 1,
    SESSION_SIZE,
    SESSION_SIZE + 1,
    SESSION_SIZE + 2,
    LONGEST,
];
const LONGEST: usize = 500;

/// The ends alone, for what is asked in several directions.
const ENDS: [usize; 7] = [
    0,
    1,
    SIZE - 1,
    SIZE,
    SESSION_SIZE - 1,
    SESSION_SIZE,
    SESSION_SIZE + 1,
];

/// Types that no direction has.
const UNKNOWN: [u8; 8] = [0x00, 0x02, 0x27, 0x2D, 0x36, 0x3B, 0x48, 0xFF];

pub fn ask(lines: &mut Vec<String>) {
    let mut random = Random::new(10);
    for which in 0..layout::ALL.len() {
        let sample = Sample::any(&mut random, which);
        of_type(lines, &mut random, &sample);
        read_into(lines, &mut random, &sample);
    }
    for which in 0..session::ALL.len() {
        let sample = Session::any(&mut random, which);
        of_type(lines, &mut random, &sample);
        read_into(lines, &mut random, &sample);
    }
    // What is required is not selected.
    let mut missing = Sample::least(&mut random, NEW_ORDER);
    missing.clear();
    for size in ENDS {
        lines.push(into(&mut random, MEMBER, &missing.bytes(), size));
    }
    for type_byte in UNKNOWN {
        for direction in [MEMBER, VENUE, OPTIONS_MEMBER] {
            for size in ENDS {
                let mut record = random.bytes(size);
                if let Some(first) = record.first_mut() {
                    *first = type_byte;
                }
                let buffer = pattern(&mut random, 3);
                lines.push(line(direction, &record, &buffer));
            }
        }
    }
}

/// A valid record cut, or with bytes after it; then in directions that do not have its type, without
/// room for its message, and with a fault that is judged right after its size.
fn of_type(lines: &mut Vec<String>, random: &mut Random, sample: &impl Parts) {
    let own = sample.direction();
    let total = sample.bytes().len();
    let mut record = sample.record();
    let more = LONGEST - record.len();
    record.extend(random.bytes(more));
    for size in SIZES {
        let buffer = pattern(random, total);
        lines.push(line(own, &record[..size], &buffer));
    }
    for size in ENDS {
        for direction in [way_back(own), NO_DIRECTION] {
            let buffer = pattern(random, 3);
            lines.push(line(direction, &record[..size], &buffer));
        }
        lines.push(line(own, &record[..size], &[]));
    }
    record[1] = 200;
    for size in ENDS {
        lines.push(line(own, &record[..size], &[1, 2, 3]));
    }
}

/// A question about reading into a buffer of a size.
pub fn into(random: &mut Random, direction: u8, bytes: &[u8], size: usize) -> String {
    let (bytes, buffer) = (hex::write(bytes), hex::write(&pattern(random, size)));
    format!("read-into {} {} {}", direction, bytes, buffer)
}

/// A valid message read into buffers of each size; then in directions that do not have its type, cut,
/// followed by another, and damaged.
fn read_into(lines: &mut Vec<String>, random: &mut Random, sample: &impl Parts) {
    let own = sample.direction();
    let message = sample.bytes();
    let mut ask = |random: &mut Random, direction: u8, bytes: &[u8], size: usize| {
        lines.push(into(random, direction, bytes, size));
    };
    for size in ENDS.into_iter().chain([SIZE + 1]) {
        ask(random, own, &message, size);
    }
    for (index, size) in ENDS.into_iter().enumerate() {
        match index % 2 {
            0 => {
                let others = [way_back(own), NO_DIRECTION];
                ask(random, others[index / 2 % 2], &message, size);
            }
            _ => ask(random, own, &message[..message.len() - 1], size),
        }
    }
    for size in [SIZE - 1, SESSION_SIZE] {
        ask(random, own, &[&message[..], &message].concat(), size);
    }
    for _ in 0..10 {
        let (direction, bytes) = sample.damaged(random);
        let size = ENDS[random.between(0, ENDS.len() - 1)];
        ask(random, direction, &bytes, size);
    }
}

#[cfg(test)]
mod tests {
    use super::*;
    use crate::ask;
    use crate::questions::judged;
    use crate::rules::{read, types};
    use std::collections::BTreeSet;

    /// The bytes that a record of a type has, by the table of README.md.
    fn size_of(direction: u8, record_type: u8) -> Option<usize> {
        match (direction, record_type) {
            (MEMBER, types::NEW_ORDER) | (OPTIONS_MEMBER, types::OPTIONS_ORDER) => Some(291),
            (MEMBER | OPTIONS_MEMBER, types::CANCEL_ORDER) => Some(291),
            (MEMBER | OPTIONS_MEMBER, types::MODIFY_ORDER | types::PURGE_ORDERS) => Some(291),
            (VENUE, types::ACKNOWLEDGMENT | types::EXECUTION) => Some(291),
            (VENUE, types::ORDER_REJECTED | types::CANCEL_REJECTED) => Some(291),
            (VENUE, types::MODIFY_REJECTED) => Some(291),
            (MEMBER | OPTIONS_MEMBER, types::LOGIN_REQUEST) => Some(439),
            (MEMBER | OPTIONS_MEMBER, types::CLIENT_HEARTBEAT) => Some(439),
            (VENUE, types::LOGIN_RESPONSE | types::LOGOUT) => Some(439),
            (VENUE, types::SERVER_HEARTBEAT | types::REPLAY_COMPLETE) => Some(439),
            _ => None,
        }
    }

    /// What each size is answered: 13 without a type byte, 4, 13 under the type's size, then what
    /// the record and the room say.
    #[test]
    fn answers() {
        let mut lines = Vec::new();
        ask(&mut lines);
        lines.retain(|line| line.starts_with("write "));
        let mut sizes = BTreeSet::new();
        for question in &lines {
            let words: Vec<&str> = question.split(' ').collect();
            let direction = words[1].parse().unwrap();
            let record = hex::read(words[2]).unwrap();
            let room = hex::read(words[3]).unwrap().len();
            let size = record.len();
            let expected = match record.first() {
                None => 13,
                Some(first) => match size_of(direction, *first) {
                    None => 4,
                    Some(own) if size < own => 13,
                    Some(_) if record[1] == 200 => 5,
                    Some(_) if room == 0 => 13,
                    Some(own) => {
                        sizes.insert((own, size));
                        0
                    }
                },
            };
            let answer = ask::answer(question.as_bytes());
            let number = answer.split(' ').next().unwrap();
            assert_eq!(number, expected.to_string(), "{}", question);
        }
        for size in [291, 292, 438, 439] {
            assert!(sizes.contains(&(291, size)));
        }
        assert!(!sizes.contains(&(439, 438)) && sizes.contains(&(439, 439)));
    }

    /// What a message is refused for comes first, then 13 for a buffer under its type's size; each
    /// type is read into both kinds of buffer.
    #[test]
    fn answers_of_reading() {
        let mut lines = Vec::new();
        ask(&mut lines);
        lines.retain(|line| line.starts_with("read-into "));
        let mut seen = BTreeSet::new();
        for question in &lines {
            let words: Vec<&str> = question.split(' ').collect();
            let direction = words[1].parse().unwrap();
            let bytes = hex::read(words[2]).unwrap();
            let size = hex::read(words[3]).unwrap().len();
            let answer = ask::answer(question.as_bytes());
            let (number, after) = answer.split_once(' ').unwrap();
            if let Err(refusal) = read::message(direction, &bytes) {
                assert_eq!((number, after), (&refusal.to_string()[..], words[3]));
                continue;
            }
            let record_type = judged::record_type(direction, &bytes);
            let own = size_of(direction, record_type).unwrap();
            seen.insert((record_type, size));
            assert_eq!(number == "13" && after == words[3], size < own);
            assert_eq!(number == "0", size >= own);
            assert_eq!(after.len(), words[3].len());
            assert_eq!(after.get(2 * own..), words[3].get(2 * own..));
        }
        for record_type in seen.clone().into_iter().map(|(record_type, _)| record_type) {
            for size in ENDS {
                assert!(seen.contains(&(record_type, size)));
            }
        }
        assert!(seen.len() >= 16 * ENDS.len());
    }
}
