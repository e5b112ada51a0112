//! The order of writing.

use crate::questions::order::{self, numbers};
use crate::questions::parts::{way_back, Parts, NO_DIRECTION};
use crate::questions::session::faults;
use crate::questions::session::sample::{BODY_PLACE, LISTED, RECORD};
use crate::questions::writing::{line, pattern};
use crate::random::Random;
use crate::rules::frame::HEADER;
use crate::rules::record::SIZE;

/// The numbers that a record can be refused with, in the order of writing.
const ORDER: [u8; 6] = [4, 5, 10, 11, 12, 13];

/// A record and a buffer with these faults.
fn faulty(random: &mut Random, which: usize, faults: u16) -> (u8, Vec<u8>, Vec<u8>) {
    let numbers = numbers(faults, &ORDER);
    let mut sample = faults::whole_or_broken(random, which, &numbers);
    let mut room = sample.bytes().len();
    let mut direction = sample.session.direction();
    if numbers.contains(&4) {
        direction = random.pick(&[way_back(direction), NO_DIRECTION]);
    }
    faults::spoil(random, &mut sample, &numbers);
    let mut record = sample.record();
    if numbers.contains(&12) {
        record[random.between(BODY_PLACE, RECORD - 1)] = 1 << random.below(8);
    }
    if numbers.contains(&13) {
        room = match random.below(2) {
            0 => random.between(0, HEADER - 1),
            _ => room - 1,
        };
    }
    (direction, record, pattern(random, room))
}

/// The sets of faults that a record can have: one whose message has lists has no 12, the others
/// have neither 10 nor 11.
fn sets(which: usize) -> Vec<u16> {
    let never: &[u8] = match LISTED.contains(&which) {
        true => &[12],
        false => &[10, 11],
    };
    order::sets(&ORDER, |faults| {
        !numbers(faults, &ORDER)
            .iter()
            .any(|number| never.contains(number))
    })
}

/// Every set of faults, so that the order shows; then records too short with all of them.
pub fn ask(lines: &mut Vec<String>, random: &mut Random, which: usize) {
    let sets = sets(which);
    let all = sets[sets.len() - 1];
    for faults in sets {
        let (direction, record, buffer) = faulty(random, which, faults);
        lines.push(line(direction, &record, &buffer));
    }
    for faults in [all, all - 1] {
        for size in [0, 1, SIZE, RECORD - 1] {
            let (direction, record, buffer) = faulty(random, which, faults);
            lines.push(line(direction, &record[..size], &buffer));
        }
    }
}

#[cfg(test)]
mod tests {
    use super::*;
    use crate::questions::judged;

    /// The first fault in the order is the one that is told, and the buffer stays.
    #[test]
    fn order_of_writing() {
        let mut random = Random::new(180);
        for which in 0..6 {
            for faults in sets(which) {
                let (direction, record, before) = faulty(&mut random, which, faults);
                judged::first_fault_written(direction, &record, &before, faults, &ORDER);
            }
        }
    }
}
