//! Questions about reading that are made in the same way of any message.

use super::parts::{measure, Parts};
use crate::hex;
use crate::random::Random;
use crate::rules::read;
use std::ops::Range;

/// DIRECTION and BYTES of each question.
pub type Asked = Vec<(u8, Vec<u8>)>;

pub fn line(direction: u8, bytes: &[u8]) -> String {
    format!("read {} {}", direction, hex::write(bytes))
}

pub fn ask(lines: &mut Vec<String>, asked: Asked) {
    for (direction, bytes) in asked {
        lines.push(line(direction, &bytes));
    }
}

pub fn add(asked: &mut Asked, sample: &impl Parts) {
    asked.push((sample.direction(), sample.bytes()));
}

/// Length fields over the same bytes.
pub fn lengths(asked: &mut Asked, direction: u8, message: &[u8], lengths: &[u16]) {
    for length in lengths {
        let mut message = message.to_vec();
        message[2..4].copy_from_slice(&length.to_le_bytes());
        asked.push((direction, message));
    }
}

/// Bytes with a length that fits them.
pub fn measured(asked: &mut Asked, direction: u8, mut bytes: Vec<u8>) {
    measure(&mut bytes);
    asked.push((direction, bytes));
}

/// Zeros after the last part, up to the greatest length.
pub fn longest(asked: &mut Asked, direction: u8, mut message: Vec<u8>) {
    message.resize(2048, 0);
    measured(asked, direction, message);
}

/// Bytes after the message.
pub fn followed(asked: &mut Asked, direction: u8, message: &[u8], after: &[Vec<u8>]) {
    for more in after {
        asked.push((direction, [message, more].concat()));
    }
}

/// The message cut at every byte.
pub fn cut_anywhere(asked: &mut Asked, direction: u8, message: &[u8]) {
    for end in 0..message.len() {
        asked.push((direction, message[..end].to_vec()));
    }
}

/// The message cut at these places, with a length that fits.
pub fn cut(asked: &mut Asked, direction: u8, message: &[u8], ends: Range<usize>) {
    for end in ends {
        measured(asked, direction, message[..end].to_vec());
    }
}

/// Every set of faults that a message can have, so that the order shows; then those of framing,
/// before all or none of the others.
pub fn orders(
    asked: &mut Asked,
    random: &mut Random,
    sets: &[u16],
    faulty: impl Fn(&mut Random, u16) -> (u8, Vec<u8>),
) {
    for faults in sets {
        asked.push(faulty(random, *faults));
    }
    let all = sets[sets.len() - 1];
    for framing in 1..8 {
        for faults in [0, all] {
            let (direction, mut message) = faulty(random, faults);
            if framing & 1 != 0 {
                message[random.between(0, 1)] ^= 0xFF;
            }
            if framing & 2 != 0 {
                message[3] = 0x08;
            }
            if framing & 4 != 0 {
                message.pop();
            }
            asked.push((direction, message));
        }
    }
}

/// As many random messages of each type as are wanted.
pub fn any<P: Parts>(asked: &mut Asked, random: &mut Random, counts: &[(usize, usize)]) {
    for (which, count) in counts {
        for _ in 0..*count {
            add(asked, &P::any(random, *which));
        }
    }
}

/// As many damaged messages of each type. Not all damage is refused; of what is still valid only
/// some is asked.
pub fn damaged<P: Parts>(asked: &mut Asked, random: &mut Random, counts: &[(usize, usize)]) {
    for (which, count) in counts {
        let mut missing = *count;
        while missing > 0 {
            let (direction, bytes) = P::any(random, *which).damaged(random);
            if read::message(direction, &bytes).is_err() || random.below(4) == 0 {
                asked.push((direction, bytes));
                missing -= 1;
            }
        }
    }
}
