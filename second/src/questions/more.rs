//! Questions past the stored ones, as many as are wanted (README.md, "More questions").

use super::bitfields::sample::{
    Sample, ACKNOWLEDGMENT, CANCEL, CANCEL_REJECTED, EXECUTION, MODIFY, MODIFY_REJECTED, NEW_ORDER,
    NEW_ORDERS, OPTIONS, ORDER_REJECTED, PURGE,
};
use super::parts::Parts;
use super::session::sample::{
    Sample as Session, CLIENT_HEARTBEAT, LOGIN, LOGOUT, REPLAY_COMPLETE, RESPONSE, SERVER_HEARTBEAT,
};
use super::writing::{self, pattern};
use super::{book, last, reading};
use crate::random::Random;
use crate::rules::layout;
use std::collections::VecDeque;

/// How often each type of the messages with bitfields comes, in nineteen.
const TYPES: [usize; 19] = [
    NEW_ORDER,
    NEW_ORDER,
    NEW_ORDER,
    CANCEL,
    ACKNOWLEDGMENT,
    ACKNOWLEDGMENT,
    EXECUTION,
    EXECUTION,
    ORDER_REJECTED,
    ORDER_REJECTED,
    CANCEL_REJECTED,
    MODIFY_REJECTED,
    MODIFY,
    MODIFY,
    PURGE,
    PURGE,
    OPTIONS,
    OPTIONS,
    OPTIONS,
];

/// How often each type of the session messages comes, in twelve.
const SESSION_TYPES: [usize; 12] = [
    LOGIN,
    LOGIN,
    LOGIN,
    LOGIN,
    RESPONSE,
    RESPONSE,
    RESPONSE,
    LOGOUT,
    LOGOUT,
    CLIENT_HEARTBEAT,
    SERVER_HEARTBEAT,
    REPLAY_COMPLETE,
];

/// Lines without their LF; there is no last one.
pub struct More {
    random: Random,
    waiting: VecDeque<String>,
}

impl More {
    pub fn new(seed: u64) -> More {
        let mut more = More {
            random: Random::new(seed),
            waiting: VecDeque::new(),
        };
        more.pairs();
        more
    }

    /// Every pair of a New Order's listed bits, with what is required besides; of both markets.
    fn pairs(&mut self) {
        for which in NEW_ORDERS {
            self.pairs_of(which);
        }
    }

    fn pairs_of(&mut self, which: usize) {
        let listed = layout::ALL[which].listed;
        for (index, second) in listed.iter().enumerate() {
            for first in &listed[..index] {
                let mut sample = Sample::any(&mut self.random, which);
                sample.clear();
                sample.select(first.name);
                sample.select(second.name);
                sample.require();
                self.waiting
                    .push_back(reading::line(sample.direction(), &sample.bytes()));
            }
        }
    }

    /// One time in nine nine questions of a day book, three times four of the session, else four of
    /// a message with bitfields.
    fn group(&mut self) {
        match self.random.below(9) {
            0 => self.nine(),
            1..=3 => self.four::<Session>(&SESSION_TYPES),
            _ => self.four::<Sample>(&TYPES),
        }
    }

    /// A day book, and the last messages of its units.
    fn nine(&mut self) {
        let group = book::group(&mut self.random);
        let lasts = last::three(&mut self.random, &group);
        self.waiting.extend(group.lines);
        self.waiting.extend(lasts);
    }

    /// A message, its record, and both of them damaged.
    fn four<P: Parts>(&mut self, types: &[usize]) {
        let random = &mut self.random;
        let which = types[random.between(0, types.len() - 1)];
        let sample = P::any(random, which);
        let message = sample.bytes();
        let more = random.between(0, 5);
        let buffer = pattern(random, message.len() + more);
        let record = P::lent(random, &sample.record());
        let (direction, damaged) = sample.damaged(random);
        let (record_direction, damaged_record, damaged_buffer) = sample.damaged_record(random);
        self.waiting.extend([
            reading::line(sample.direction(), &message),
            writing::line(sample.direction(), &record, &buffer),
            reading::line(direction, &damaged),
            writing::line(record_direction, &damaged_record, &damaged_buffer),
        ]);
    }
}

impl Iterator for More {
    type Item = String;

    fn next(&mut self) -> Option<String> {
        if self.waiting.is_empty() {
            self.group();
        }
        self.waiting.pop_front()
    }
}

#[cfg(test)]
mod tests {
    use super::*;
    use crate::ask;
    use crate::hex;
    use crate::rules;
    use std::collections::BTreeSet;

    #[test]
    fn made_from_the_seed() {
        let lines = |seed: u64| -> Vec<String> { More::new(seed).take(400).collect() };
        assert_eq!(lines(7), lines(7));
        assert_ne!(lines(7), lines(8));
        let longer: Vec<String> = More::new(7).take(500).collect();
        assert_eq!(lines(7), longer[..400]);
    }

    /// The pairs of both: of 20 listed bits, and of 16.
    const PAIRS: usize = 190 + 120;

    /// All are valid, and each pair is among the bits that one of them has.
    #[test]
    fn pairs_of_bits() {
        let mut lines = More::new(1).take(PAIRS);
        for (which, start, count) in [
            (NEW_ORDER, "read 0 BABA", 190),
            (OPTIONS, "read 2 BABA", 120),
        ] {
            let listed = layout::ALL[which].listed;
            let mut bitfields = Vec::new();
            for line in lines.by_ref().take(count) {
                assert!(line.starts_with(start));
                let answer = ask::answer(line.as_bytes());
                let record = hex::read(answer.strip_prefix("0 ").unwrap()).unwrap();
                bitfields.push(record[97..116].to_vec());
            }
            for (index, second) in listed.iter().enumerate() {
                for first in &listed[..index] {
                    let least = bitfields
                        .iter()
                        .filter(|bits| first.selected(bits) && second.selected(bits))
                        .map(|bits| bits.iter().map(|byte| byte.count_ones()).sum::<u32>())
                        .min();
                    // The pair and at most three that are required.
                    assert!(least.unwrap() <= 5);
                }
            }
            assert_eq!(bitfields.len(), listed.len() * (listed.len() - 1) / 2);
        }
        assert!(!More::new(1).nth(PAIRS + 1).unwrap().starts_with("read"));
    }

    /// Each answer comes, and about a third of the questions are of the session, some of books.
    #[test]
    fn every_answer_and_every_type() {
        let mut seen = BTreeSet::new();
        let mut types = BTreeSet::new();
        let mut of_the_session = 0;
        let mut of_books = 0;
        for line in More::new(3).skip(PAIRS).take(12_000) {
            let answer = ask::answer(line.as_bytes());
            let words: Vec<&str> = line.split(' ').collect();
            let number = ask::number_of(answer.split(' ').next().unwrap());
            seen.insert(format!("{} {}", words[0], number));
            if words[0] != "read" && words[0] != "write" {
                of_books += 1;
                continue;
            }
            let bytes = hex::read(words[2]).unwrap();
            let type_place = if words[0] == "read" { 4 } else { 0 };
            if let Some(type_byte) = bytes.get(type_place) {
                let found = rules::session::ALL
                    .iter()
                    .any(|session| session.type_byte == *type_byte);
                of_the_session += usize::from(found);
                if number == "0" {
                    types.insert(*type_byte);
                }
            }
        }
        let mut expected = BTreeSet::new();
        for number in (0..=11).chain([23]) {
            expected.insert(format!("read {}", number));
        }
        for number in [0, 4, 5, 7, 8, 9, 10, 11, 12, 13, 23] {
            expected.insert(format!("write {}", number));
        }
        for answer in [
            "restart 0",
            "restart 17",
            "restart 18",
            "restart 22",
            "append 0",
            "close 0",
            "list mark",
            "list 18",
            "list 22",
            "last 0",
            "last-state 0",
            "last-state 5",
            "last-state 13",
            "last-state 18",
            "last-state 26",
            "last-line 5",
            "last-line 18",
            "last-line 22",
            "last-line 25",
            "last-line 26",
            "last-line 2C",
        ] {
            expected.insert(answer.to_string());
        }
        assert_eq!(seen, expected);
        assert_eq!(types.len(), 16);
        assert!((2_300..3_000).contains(&of_books));
        assert!((3_200..4_400).contains(&of_the_session));
    }
}
