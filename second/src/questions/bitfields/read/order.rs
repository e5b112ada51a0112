//! The order of reading.

use crate::questions::bitfields::faults::{sets, small_with, spoil_value, CONFLICT};
use crate::questions::order::{numbers, LATE};
use crate::questions::parts::{measure, way_back, Parts};
use crate::questions::reading::{self, Asked};
use crate::random::Random;

/// The numbers that a whole message can be refused with, in the order of reading. Of the three
/// places of 6 it is the last.
const ORDER: [u8; 9] = [4, 5, 7, 8, 9, 6, 10, LATE, CONFLICT];

/// A message with these faults.
fn faulty(random: &mut Random, which: usize, faults: u16) -> (u8, Vec<u8>) {
    let numbers = numbers(faults, &ORDER);
    let mut sample = small_with(random, which, &numbers);
    let layout = sample.layout;
    let mut direction = layout.direction();
    if numbers.contains(&4) {
        direction = way_back(direction);
    }
    if numbers.contains(&7) {
        sample.lengthen(layout.most + 1);
    }
    if numbers.contains(&10) {
        spoil_value(random, &mut sample, 19, b'@');
    }
    let mut message = sample.bytes();
    if numbers.contains(&6) {
        // A message without fields has its count or a bitfield last: without that 6 comes early.
        if random.below(2) == 0 || layout.listed.is_empty() {
            message.push(random.byte());
        } else {
            message.pop();
        }
        measure(&mut message);
    }
    (direction, message)
}

pub fn ask(asked: &mut Asked, random: &mut Random, which: usize) {
    reading::orders(asked, random, &sets(which, &ORDER), |random, faults| {
        faulty(random, which, faults)
    });
}

#[cfg(test)]
mod tests {
    use super::*;
    use crate::questions::bitfields::sample::TYPES;
    use crate::questions::judged;

    /// The first fault in the order is the one that is told.
    #[test]
    fn order_of_reading() {
        let mut random = Random::new(120);
        for which in 0..TYPES {
            for faults in sets(which, &ORDER) {
                let (direction, message) = faulty(&mut random, which, faults);
                judged::first_fault_read(direction, &message, faults, &ORDER);
            }
        }
    }
}
