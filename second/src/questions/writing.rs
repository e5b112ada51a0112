//! Questions about writing that are made in the same way of any record.

use super::parts::Parts;
use super::reading::{self, Asked};
use crate::hex;
use crate::random::Random;
use crate::rules::{read, write};
use std::collections::BTreeSet;

pub fn line(direction: u8, record: &[u8], buffer: &[u8]) -> String {
    let (record, buffer) = (hex::write(record), hex::write(buffer));
    format!("write {} {} {}", direction, record, buffer)
}

/// A buffer in which every change shows: its bytes are alike and not zero.
pub fn pattern(random: &mut Random, size: usize) -> Vec<u8> {
    vec![1 + random.below(255) as u8; size]
}

pub fn add<P: Parts>(lines: &mut Vec<String>, random: &mut Random, sample: &P) {
    add_record(lines, random, sample, &sample.record());
}

/// A record made from a sample's, with the buffer that the sample's message takes; in one of three
/// questions it is empty, so that 13 does not come too early.
pub fn add_record<P: Parts>(
    lines: &mut Vec<String>,
    random: &mut Random,
    sample: &P,
    record: &[u8],
) {
    let room = match random.below(3) {
        0 => 0,
        _ => sample.bytes().len(),
    };
    let buffer = pattern(random, room);
    let record = P::lent(random, record);
    lines.push(line(sample.direction(), &record, &buffer));
}

/// A sample's record alone, with a buffer that its message just fits where the record is taken; else
/// with a short one, which would be refused last.
pub fn alone<P: Parts>(lines: &mut Vec<String>, random: &mut Random, sample: &P) {
    let (direction, record) = (sample.direction(), sample.record());
    let size = sample.bytes().len();
    let taken = write::record(direction, &record, &mut vec![0; size]).is_ok();
    let room = if taken { size } else { random.between(0, 2) };
    lines.push(line(direction, &record, &pattern(random, room)));
}

/// The message read, and its record written.
pub fn both<P: Parts>(lines: &mut Vec<String>, random: &mut Random, sample: &P) {
    lines.push(reading::line(sample.direction(), &sample.bytes()));
    alone(lines, random, sample);
}

/// The records of all messages that the questions about reading hold, each once. The buffers are
/// just long enough, or longer.
pub fn records_of<P: Parts>(lines: &mut Vec<String>, random: &mut Random, asked: Asked) {
    let mut seen = BTreeSet::new();
    for (direction, bytes) in asked {
        if let Ok(record) = read::message(direction, &bytes) {
            if seen.insert(record.clone()) {
                let total = usize::from(u16::from_le_bytes([bytes[2], bytes[3]])) + 2;
                let more = match random.below(4) {
                    0 => random.between(1, 9),
                    _ => 0,
                };
                let buffer = pattern(random, total + more);
                lines.push(line(direction, &P::lent(random, &record), &buffer));
            }
        }
    }
}

/// Buffers of these sizes, their bytes all different from what is written there.
pub fn rooms<P: Parts>(
    lines: &mut Vec<String>,
    random: &mut Random,
    sample: &P,
    rooms: impl IntoIterator<Item = usize>,
) {
    let message = sample.bytes();
    for room in rooms {
        let mut buffer = random.bytes(room);
        for (place, byte) in buffer.iter_mut().enumerate() {
            if message.get(place) == Some(byte) {
                *byte ^= 0xFF;
            }
        }
        let record = P::lent(random, &sample.record());
        lines.push(line(sample.direction(), &record, &buffer));
    }
}

/// As many damaged records of each type as are wanted.
pub fn damaged<P: Parts>(lines: &mut Vec<String>, random: &mut Random, counts: &[(usize, usize)]) {
    for (which, count) in counts {
        for _ in 0..*count {
            let sample = P::any(random, *which);
            let (direction, record, buffer) = sample.damaged_record(random);
            lines.push(line(direction, &record, &buffer));
        }
    }
}
