//! Session messages in parts, from which the questions about reading and writing are made.

use super::damage;
use crate::questions::parts::Parts;
use crate::questions::values::{full_value, some_number, some_value};
use crate::random::Random;
use crate::rules::session::{self, List, Session};

pub const LOGIN: usize = 0;
pub const RESPONSE: usize = 1;
pub const LOGOUT: usize = 2;
pub const CLIENT_HEARTBEAT: usize = 3;
pub const SERVER_HEARTBEAT: usize = 4;
pub const REPLAY_COMPLETE: usize = 5;

/// The messages that have lists, and those that are their header alone.
pub const LISTED: [usize; 3] = [LOGIN, RESPONSE, LOGOUT];
pub const BARE: [usize; 3] = [CLIENT_HEARTBEAT, SERVER_HEARTBEAT, REPLAY_COMPLETE];

/// The place of the body in a record, and the record's bytes.
pub const BODY_PLACE: usize = 6;
pub const RECORD: usize = 439;

/// A unit and its number.
pub type Pair = (u8, u32);

/// Valid as it is made; a question may then make its parts disagree.
#[derive(Clone)]
pub struct Sample {
    pub session: &'static Session,
    pub unit: u8,
    pub number: u32,
    /// One value for each field of the fixed part.
    pub fields: Vec<Vec<u8>>,
    pub unit_count: u8,
    pub pairs: Vec<Pair>,
    pub group_count: u8,
    pub groups: Vec<Group>,
    /// What follows the last list.
    pub after: Vec<u8>,
}

#[derive(Clone, PartialEq, Eq, Debug)]
pub struct Group {
    pub length: u16,
    pub type_byte: u8,
    /// The flag, or the message type.
    pub choice: u8,
    pub count: u8,
    pub list: Vec<u8>,
}

impl Group {
    pub fn units(flag: u8, pairs: &[Pair]) -> Group {
        Group::new(0x80, flag, pairs.len() as u8, list_of(pairs))
    }

    pub fn bitfields(returned: u8, bitfields: &[u8]) -> Group {
        Group::new(0x81, returned, bitfields.len() as u8, bitfields.to_vec())
    }

    fn new(type_byte: u8, choice: u8, count: u8, list: Vec<u8>) -> Group {
        let mut group = Group {
            length: 0,
            type_byte,
            choice,
            count,
            list,
        };
        group.fit();
        group
    }

    /// Makes the length that of the bytes.
    pub fn fit(&mut self) {
        self.length = 5 + self.list.len() as u16;
    }

    pub fn bytes(&self) -> Vec<u8> {
        let mut bytes = self.length.to_le_bytes().to_vec();
        bytes.extend([self.type_byte, self.choice, self.count]);
        bytes.extend(&self.list);
        bytes
    }
}

fn list_of(pairs: &[Pair]) -> Vec<u8> {
    let mut bytes = Vec::new();
    for (unit, number) in pairs {
        bytes.push(*unit);
        bytes.extend(number.to_le_bytes());
    }
    bytes
}

impl Sample {
    /// Texts as long as their fields, the flag 0 or 1, and empty lists.
    pub fn least(random: &mut Random, which: usize) -> Sample {
        let session = &session::ALL[which];
        let mut fields = Vec::new();
        for field in session.fields {
            let value = match session.flag == Some(field.name) {
                true => vec![random.below(2) as u8],
                false => full_value(random, field.kind, field.width),
            };
            fields.push(value);
        }
        Sample {
            session,
            unit: 0,
            number: 0,
            fields,
            unit_count: 0,
            pairs: Vec::new(),
            group_count: 0,
            groups: Vec::new(),
            after: Vec::new(),
        }
    }

    /// Four pairs and the three groups, none of them empty.
    pub fn whole(random: &mut Random, which: usize) -> Sample {
        let mut sample = Sample::least(random, which);
        let pairs = some_pairs(random, 4);
        sample.set_pairs(pairs);
        let units = some_pairs(random, 3);
        let flag = random.below(2) as u8;
        sample.set_groups(vec![
            Group::units(flag, &units),
            Group::bitfields(0x25, &random.bytes(3)),
            Group::bitfields(0x2C, &random.bytes(7)),
        ]);
        sample
    }

    /// All units and all bitfields that there can be.
    pub fn largest(random: &mut Random, which: usize) -> Sample {
        let mut sample = Sample::least(random, which);
        let pairs = some_pairs(random, 32);
        sample.set_pairs(pairs);
        let units = some_pairs(random, 32);
        sample.set_groups(vec![
            Group::units(1, &units),
            Group::bitfields(0x25, &random.bytes(15)),
            Group::bitfields(0x2C, &random.bytes(15)),
        ]);
        sample
    }

    pub fn has(&self, list: List) -> bool {
        self.session.lists.contains(&list)
    }

    pub fn set_pairs(&mut self, pairs: Vec<Pair>) {
        self.unit_count = pairs.len() as u8;
        self.pairs = pairs;
    }

    pub fn set_groups(&mut self, groups: Vec<Group>) {
        self.group_count = groups.len() as u8;
        self.groups = groups;
    }

    /// The value of a field.
    pub fn value(&mut self, name: &str) -> &mut Vec<u8> {
        let index = self
            .session
            .fields
            .iter()
            .position(|field| field.name == name)
            .expect("a field of the message");
        &mut self.fields[index]
    }
}

impl Parts for Sample {
    fn any(random: &mut Random, which: usize) -> Sample {
        let mut sample = Sample::least(random, which);
        let session = sample.session;
        for (field, value) in session.fields.iter().zip(&mut sample.fields) {
            if session.flag != Some(field.name) {
                *value = some_value(random, field.kind, field.width, 0);
                if !field.also.is_empty() && random.below(4) == 0 {
                    *value = field.also.to_vec();
                }
            }
        }
        let count = some_length(random, 32);
        let pairs = some_pairs(random, count);
        sample.set_pairs(pairs);
        let mut groups = Vec::new();
        if random.below(4) != 0 {
            let count = some_length(random, 32);
            let units = some_pairs(random, count);
            groups.push(Group::units(random.below(2) as u8, &units));
        }
        for returned in [0x25, 0x2C] {
            if random.below(4) != 0 {
                let count = some_length(random, 15);
                groups.push(Group::bitfields(returned, &random.bytes(count)));
            }
        }
        shuffle(random, &mut groups);
        sample.set_groups(groups);
        sample
    }

    fn direction(&self) -> u8 {
        self.session.direction()
    }

    fn header(&self) -> (u8, u8, u32) {
        (self.session.type_byte, self.unit, self.number)
    }

    fn body(&self) -> Vec<u8> {
        let mut body = self.fields.concat();
        if self.has(List::Pairs) {
            body.push(self.unit_count);
            body.extend(list_of(&self.pairs));
        }
        if self.has(List::Groups) {
            body.push(self.group_count);
            for group in &self.groups {
                body.extend(group.bytes());
            }
        }
        body.extend(&self.after);
        body
    }

    fn record(&self) -> Vec<u8> {
        let mut record = self.record_head();
        record.extend(self.body());
        record.resize(RECORD, 0);
        record
    }

    /// Its own bytes alone.
    fn lent(_: &mut Random, record: &[u8]) -> Vec<u8> {
        let mut bytes = record.to_vec();
        bytes.resize(RECORD, 0);
        bytes
    }

    fn damaged(&self, random: &mut Random) -> (u8, Vec<u8>) {
        damage::message(random, self)
    }

    fn damaged_record(&self, random: &mut Random) -> (u8, Vec<u8>, Vec<u8>) {
        damage::record(random, self)
    }
}

/// Few more often than many, with both ends.
fn some_length(random: &mut Random, most: usize) -> usize {
    match random.below(8) {
        0 => 0,
        1 => most,
        2 => random.between(0, most),
        _ => random.between(1, 4),
    }
}

/// As many units as are wanted, none twice, in any order.
pub fn some_pairs(random: &mut Random, count: usize) -> Vec<Pair> {
    let mut units: Vec<u8> = (1..=32).collect();
    shuffle(random, &mut units);
    units.truncate(count);
    units
        .into_iter()
        .map(|unit| (unit, some_number(random)))
        .collect()
}

pub fn shuffle<T>(random: &mut Random, list: &mut [T]) {
    for last in (1..list.len()).rev() {
        list.swap(last, random.between(0, last));
    }
}

#[cfg(test)]
mod tests {
    use super::*;
    use crate::questions::judged;
    use std::collections::BTreeSet;

    #[test]
    fn reader_and_writer_agree_with_the_parts() {
        let mut random = Random::new(140);
        for round in 0..3_000 {
            let sample = match round % 20 {
                0 => Sample::largest(&mut random, round % 6),
                1 => Sample::whole(&mut random, round % 6),
                2 => Sample::least(&mut random, round % 6),
                _ => Sample::any(&mut random, round % 6),
            };
            judged::agree(&sample);
        }
    }

    /// Each count of units and of bitfields, each order of the groups, and each unit.
    #[test]
    fn any_sample_is_any() {
        let mut random = Random::new(141);
        let samples: Vec<Sample> = (0..4_000)
            .map(|_| Sample::any(&mut random, RESPONSE))
            .collect();
        let counts: BTreeSet<u8> = samples.iter().map(|sample| sample.unit_count).collect();
        assert_eq!(counts, (0..=32).collect());
        let mut orders = BTreeSet::new();
        let mut bitfields = BTreeSet::new();
        let mut listed = BTreeSet::new();
        for sample in &samples {
            let names: Vec<(u8, u8)> = sample
                .groups
                .iter()
                .map(|group| (group.type_byte, group.choice.max(1)))
                .collect();
            orders.insert(names);
            for group in &sample.groups {
                if group.type_byte == 0x81 {
                    bitfields.insert(group.count);
                } else {
                    listed.insert(group.count);
                }
            }
        }
        assert_eq!(orders.len(), 1 + 3 + 6 + 6);
        assert_eq!(bitfields, (0..=15).collect());
        assert_eq!(listed, (0..=32).collect());
        let mut reasons = BTreeSet::new();
        for _ in 0..2_000 {
            let mut sample = Sample::any(&mut random, LOGOUT);
            reasons.insert(sample.value("LogoutReason")[0]);
        }
        // Letters and digits, blank, and the one besides.
        assert_eq!(reasons.len(), 62 + 2);
    }

    #[test]
    fn sizes_of_the_largest() {
        let mut random = Random::new(142);
        let mut size = |which: usize| Sample::largest(&mut random, which).bytes().len();
        assert_eq!(size(LOGIN), 29 + 165 + 20 + 20);
        assert_eq!(size(RESPONSE), 77 + 160 + 1 + 165 + 20 + 20);
        assert_eq!(size(RESPONSE), 10 + 433);
        assert_eq!(size(LOGOUT), 76 + 160);
        for which in BARE {
            assert_eq!(size(which), 10);
        }
    }
}
