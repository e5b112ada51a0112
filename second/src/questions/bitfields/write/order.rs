//! The order of writing.

use super::unused;
use crate::questions::bitfields::faults::{sets, small_with, spoil_value, CONFLICT};
use crate::questions::bitfields::late;
use crate::questions::bitfields::sample::Sample;
use crate::questions::order::{numbers, LATE};
use crate::questions::parts::{way_back, Parts, NO_DIRECTION};
use crate::questions::writing::{line, pattern};
use crate::random::Random;
use crate::rules::layout;
use crate::rules::record::{COUNT_PLACE, SIZE};

/// The numbers that a record can be refused with, in the order of writing.
const ORDER: [u8; 10] = [4, 5, 7, 8, 9, 10, LATE, CONFLICT, 12, 13];

/// A record and a buffer with these faults.
fn faulty(random: &mut Random, which: usize, faults: u16) -> (u8, Vec<u8>, Vec<u8>) {
    let numbers = numbers(faults, &ORDER);
    let mut sample = small_with(random, which, &numbers);
    let layout = sample.layout;
    let mut direction = layout.direction();
    if numbers.contains(&4) {
        direction = random.pick(&[way_back(direction), NO_DIRECTION]);
    }
    if numbers.contains(&10) {
        spoil_value(random, &mut sample, 0, b';');
    }
    let mut record = sample.record();
    if numbers.contains(&12) {
        let runs = unused::places(&sample);
        let run = &runs[random.between(0, runs.len() - 1)];
        record[run[random.between(0, run.len() - 1)]] = 0x80;
    }
    if numbers.contains(&7) {
        record[COUNT_PLACE] = layout.most as u8 + 1;
    }
    let mut room = sample.bytes().len();
    if numbers.contains(&13) {
        room = random.between(0, room - 1);
    }
    let record = Sample::lent(random, &record);
    (direction, record, pattern(random, room))
}

/// Every set of faults but those of 4 and 5, which are asked with each of the others and with all;
/// then records too short with all. Where a value asks for other fields there are more faults: of
/// their sets those of at most two faults, and of all.
pub fn ask(lines: &mut Vec<String>, random: &mut Random, which: usize) {
    let sets = sets(which, &ORDER);
    let all = sets[sets.len() - 1];
    let last = ORDER.len();
    let without = (0..1 << (last - 2)).map(|faults| faults << 2);
    let pairs = (1..last).map(|shift| 1 | 1 << shift);
    let other_pairs = (2..last).map(|shift| 2 | 1 << shift);
    let most = match late::asks(&layout::ALL[which]) {
        true => 2,
        false => last as u32,
    };
    for faults in without
        .filter(|faults: &u16| faults.count_ones() <= most)
        .chain([1, 2])
        .chain(pairs)
        .chain(other_pairs)
        .chain([all, all - 1])
        .filter(|faults| sets.contains(faults))
    {
        let (direction, record, buffer) = faulty(random, which, faults);
        lines.push(line(direction, &record, &buffer));
    }
    for faults in [all, all - 1] {
        for size in [0, 1, SIZE - 1] {
            let (direction, record, buffer) = faulty(random, which, faults);
            lines.push(line(direction, &record[..size], &buffer));
        }
    }
}

#[cfg(test)]
mod tests {
    use super::*;
    use crate::questions::bitfields::sample::TYPES;
    use crate::questions::judged;

    /// The first fault in the order is the one that is told, and the buffer stays.
    #[test]
    fn order_of_writing() {
        let mut random = Random::new(121);
        for which in 0..TYPES {
            for faults in sets(which, &ORDER) {
                let (direction, record, before) = faulty(&mut random, which, faults);
                judged::first_fault_written(direction, &record, &before, faults, &ORDER);
            }
        }
    }
}
