//! The order of reading.

use crate::questions::order::{self, numbers};
use crate::questions::parts::{measure, way_back, Parts};
use crate::questions::reading::{self, Asked};
use crate::questions::session::faults;
use crate::questions::session::sample::LISTED;
use crate::random::Random;
use crate::rules::frame::HEADER;

/// The numbers that a whole message can be refused with, in the order of reading: 6 comes where
/// the fixed part does not fit, and last where bytes are left.
const ORDER: [u8; 6] = [4, 5, 6, 10, 11, 6];
/// The first and the last place of 6.
const SHORT: u16 = 1 << 2;
const LEFT: u16 = 1 << 5;

/// A message with these faults.
fn faulty(random: &mut Random, which: usize, faults: u16) -> (u8, Vec<u8>) {
    let numbers = numbers(faults, &ORDER);
    let mut sample = faults::whole_or_broken(random, which, &numbers);
    let mut direction = sample.session.direction();
    if numbers.contains(&4) {
        direction = way_back(direction);
    }
    faults::spoil(random, &mut sample, &numbers);
    if faults & LEFT != 0 {
        sample.after = vec![random.byte()];
    }
    let mut message = sample.bytes();
    if faults & SHORT != 0 {
        let most = HEADER + sample.session.fields_width();
        let size = match random.below(2) {
            0 => most,
            _ => random.between(HEADER, most),
        };
        message.truncate(size);
        measure(&mut message);
    }
    (direction, message)
}

/// The sets of faults that a message can have: one that is its header alone has no values and no
/// lists, and no part that does not fit.
fn sets(which: usize) -> Vec<u16> {
    order::sets(&ORDER, |faults| {
        LISTED.contains(&which) || faults & !(1 | 2 | LEFT) == 0
    })
}

pub fn ask(asked: &mut Asked, random: &mut Random, which: usize) {
    reading::orders(asked, random, &sets(which), |random, faults| {
        faulty(random, which, faults)
    });
}

#[cfg(test)]
mod tests {
    use super::*;
    use crate::questions::judged;

    /// The first fault in the order is the one that is told.
    #[test]
    fn order_of_reading() {
        let mut random = Random::new(160);
        for which in 0..6 {
            for faults in sets(which) {
                let (direction, message) = faulty(&mut random, which, faults);
                judged::first_fault_read(direction, &message, faults, &ORDER);
            }
        }
    }
}
