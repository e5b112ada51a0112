//! Session messages with one rule of their pairs or groups broken, or with several faults at once.

use super::sample::{shuffle, some_pairs, Group, Pair, Sample};
use crate::random::Random;
use crate::rules::session::List;

/// Units that there are not.
const BAD_UNITS: [u8; 12] = [0, 33, 34, 48, 63, 64, 65, 127, 128, 129, 160, 255];
const BAD_FLAGS: [u8; 8] = [2, 3, 4, 16, 127, 128, 129, 255];
const BAD_TYPES: [u8; 9] = [0x00, 0x01, 0x25, 0x2C, 0x7F, 0x82, 0x90, 0xFE, 0xFF];
/// Message types next to the two that are taken, and others.
const BAD_RETURNED: [u8; 14] = [
    0x00, 0x01, 0x24, 0x26, 0x29, 0x2B, 0x2D, 0x37, 0x38, 0x52, 0x80, 0xA5, 0xAC, 0xFF,
];

/// Groups whose length is that of their bytes.
const ODD_GROUPS: [&[u8]; 7] = [
    &[2, 0],
    &[3, 0, 0x80],
    &[3, 0, 0x82],
    &[4, 0, 0x80, 1],
    &[4, 0, 0x81, 0x25],
    &[5, 0, 0x82, 0, 0],
    &[9, 0, 0x83, 1, 4, 5, 6, 7, 8],
];

/// Each of them is 11, read or written.
pub fn broken(random: &mut Random, which: usize) -> Vec<Sample> {
    let whole = Sample::whole(random, which);
    let mut all = Vec::new();
    if let Some(flag) = whole.session.flag {
        for byte in BAD_FLAGS {
            let mut sample = whole.clone();
            sample.value(flag)[0] = byte;
            all.push(sample);
        }
    }
    if whole.has(List::Pairs) {
        for pairs in broken_pairs(random, &whole.pairs) {
            let mut sample = whole.clone();
            sample.set_pairs(pairs);
            all.push(sample);
        }
        for count in [33, 34, 64, 128, 255, whole.unit_count + 1] {
            let mut sample = whole.clone();
            sample.unit_count = count;
            all.push(sample);
        }
    }
    if whole.has(List::Groups) {
        for (index, good) in whole.groups.iter().enumerate() {
            for group in broken_groups(random, good) {
                let mut sample = whole.clone();
                sample.groups[index] = group;
                // The broken group may be the first, the second or the last.
                shuffle(random, &mut sample.groups);
                all.push(sample);
            }
        }
        for groups in broken_sets(random, &whole.groups) {
            let mut sample = whole.clone();
            sample.set_groups(groups);
            all.push(sample);
        }
        for count in [whole.group_count + 1, 5, 128, 255] {
            let mut sample = whole.clone();
            sample.group_count = count;
            all.push(sample);
        }
        // A third group that is shorter than any, or of no known type.
        for third in ODD_GROUPS {
            let mut sample = whole.clone();
            sample.groups.remove(0);
            sample.after = third.to_vec();
            all.push(sample);
        }
        let mut sample = whole;
        sample.groups.clear();
        for count in [1, 2, 3, 4, 255] {
            sample.group_count = count;
            all.push(sample.clone());
        }
    }
    all
}

/// Units that there are not, units twice, and more units than there are.
fn broken_pairs(random: &mut Random, good: &[Pair]) -> Vec<Vec<Pair>> {
    let last = good.len() - 1;
    let mut all = Vec::new();
    for (index, unit) in BAD_UNITS.into_iter().enumerate() {
        let mut pairs = good.to_vec();
        pairs[[0, last][index % 2]].0 = unit;
        all.push(pairs);
    }
    let mut pairs = good.to_vec();
    (pairs[0].0, pairs[last].0) = (33, 0);
    all.push(pairs);
    for (first, second) in [(0, 1), (0, last), (last - 1, last)] {
        let mut pairs = good.to_vec();
        pairs[first].0 = pairs[second].0;
        all.push(pairs);
    }
    for more in [&[(33, 7)][..], &[(5, 0)], &[(33, 1), (34, 2)]] {
        let mut pairs = some_pairs(random, 32);
        pairs.extend(more);
        all.push(pairs);
    }
    all
}

/// Groups that are against the rules by themselves.
fn broken_groups(random: &mut Random, good: &Group) -> Vec<Group> {
    let mut all = Vec::new();
    let mut add = |change: &dyn Fn(&mut Group)| {
        let mut group = good.clone();
        change(&mut group);
        all.push(group);
    };
    for length in [
        0,
        1,
        good.length - 5,
        good.length - 1,
        good.length + 1,
        good.length + 5,
        good.length + 256,
        good.length.swap_bytes(),
        65_535,
    ] {
        add(&|group| group.length = length);
    }
    for count in [0, good.count - 1, good.count + 1, 255] {
        add(&|group| group.count = count);
    }
    // A byte more or less than the count says, as the length says too.
    add(&|group| {
        group.list.push(0);
        group.fit();
    });
    add(&|group| {
        group.list.pop();
        group.fit();
    });
    for type_byte in BAD_TYPES {
        add(&|group| group.type_byte = type_byte);
    }
    add(&|group| group.type_byte ^= 1);
    if good.type_byte == 0x80 {
        for flag in BAD_FLAGS {
            add(&|group| group.choice = flag);
        }
        let pairs = some_pairs(random, 3);
        for pairs in broken_pairs(random, &pairs) {
            all.push(Group::units(good.choice, &pairs));
        }
    } else {
        for returned in BAD_RETURNED {
            add(&|group| group.choice = returned);
        }
        for count in [16, 17, 32, 255] {
            all.push(Group::bitfields(good.choice, &random.bytes(count)));
        }
    }
    all
}

/// Groups that are in order one by one, but not together; and a fourth that is of no known type.
fn broken_sets(random: &mut Random, good: &[Group]) -> Vec<Vec<Group>> {
    let mut all = Vec::new();
    for group in good {
        let empty = match group.type_byte {
            0x80 => Group::units(1 - group.choice, &[]),
            _ => Group::bitfields(group.choice, &[]),
        };
        let other = match group.type_byte {
            0x80 => Group::units(group.choice, &some_pairs(random, 2)),
            _ => Group::bitfields(group.choice, &random.bytes(2)),
        };
        for second in [group, &empty, &other] {
            all.push(vec![group.clone(), second.clone()]);
            all.push(vec![second.clone(), group.clone()]);
            let mut groups = good.to_vec();
            groups.insert(random.between(0, good.len()), second.clone());
            all.push(groups);
        }
        for other in good.iter().filter(|other| *other != group) {
            all.push(vec![group.clone(), other.clone(), group.clone()]);
        }
    }
    for type_byte in [0x82, 0x00] {
        let mut groups = good.to_vec();
        let mut fourth = Group::units(0, &[]);
        fourth.type_byte = type_byte;
        groups.push(fourth);
        all.push(groups);
    }
    all
}

/// Bytes after the last list, not all of them zero: 6 read, 11 written.
pub fn left(random: &mut Random, which: usize) -> Vec<Sample> {
    let whole = Sample::whole(random, which);
    let mut all = Vec::new();
    for size in [1, 2, 4, 5, 6, 20] {
        let mut sample = whole.clone();
        sample.after = random.bytes(size);
        sample.after[size - 1] |= 1;
        all.push(sample);
    }
    for list in [&[1][..], &[0, 0, 0, 0, 1], &[5, 0, 0x80, 0, 0]] {
        let mut sample = whole.clone();
        sample.after = list.to_vec();
        all.push(sample);
    }
    if whole.has(List::Groups) {
        for count in 0..whole.group_count {
            let mut sample = whole.clone();
            shuffle(random, &mut sample.groups);
            sample.group_count = count;
            all.push(sample);
        }
        // The last group has one bitfield or one unit more than it says.
        for index in 0..whole.groups.len() {
            let mut sample = whole.clone();
            let width = match sample.groups[index].type_byte {
                0x80 => 5,
                _ => 1,
            };
            sample.groups[index].count -= 1;
            sample.groups[index].length -= width;
            *sample.groups[index].list.last_mut().expect("a list") |= 1;
            sample.groups.swap(index, 2);
            all.push(sample);
        }
    } else {
        for count in 0..whole.unit_count {
            let mut sample = whole.clone();
            sample.unit_count = count;
            all.push(sample);
        }
    }
    all
}

/// A sample with all its lists; with a rule of them broken if 11 is among the numbers.
pub fn whole_or_broken(random: &mut Random, which: usize, numbers: &[u8]) -> Sample {
    let whole = Sample::whole(random, which);
    if !numbers.contains(&11) {
        return whole;
    }
    let mut broken = broken(random, which);
    broken.swap_remove(random.between(0, broken.len() - 1))
}

/// Those of the faults 5 and 10 that are among the numbers.
pub fn spoil(random: &mut Random, sample: &mut Sample, numbers: &[u8]) {
    if numbers.contains(&5) {
        match random.below(3) {
            0 => sample.unit = 1,
            1 => sample.number = 1 << random.below(32),
            _ => (sample.unit, sample.number) = (32, 7),
        }
    }
    if numbers.contains(&10) {
        // The first field is a text in each message that has fields.
        sample.fields[0][0] = random.pick(b" @/:[`{\x7F");
    }
}

#[cfg(test)]
mod tests {
    use super::*;
    use crate::questions::parts::Parts;
    use crate::questions::session::sample::{LISTED, LOGIN, RESPONSE};
    use crate::rules::{read, write, Refusal};

    #[test]
    fn broken_is_11() {
        let mut random = Random::new(150);
        for _ in 0..8 {
            for which in LISTED {
                let all = broken(&mut random, which);
                assert!(all.len() > 20);
                for sample in all {
                    let direction = sample.session.direction();
                    let answer = read::message(direction, &sample.bytes());
                    assert_eq!(answer, Err(Refusal::Group), "{:?}", sample.groups);
                    let answer = write::record(direction, &sample.record(), &mut [0; 2_000]);
                    assert_eq!(answer, Err(Refusal::Group), "{:?}", sample.groups);
                }
            }
        }
    }

    #[test]
    fn left_is_6_and_11() {
        let mut random = Random::new(151);
        for _ in 0..8 {
            for which in LISTED {
                for sample in left(&mut random, which) {
                    let direction = sample.session.direction();
                    let message = sample.bytes();
                    let answer = read::message(direction, &message);
                    assert_eq!(answer, Err(Refusal::Total(message.len())));
                    let answer = write::record(direction, &sample.record(), &mut [0; 2_000]);
                    assert_eq!(answer, Err(Refusal::Group));
                }
            }
        }
    }

    /// Without the one fault each would be taken.
    #[test]
    fn whole_is_taken() {
        let mut random = Random::new(152);
        for which in [LOGIN, RESPONSE] {
            let mut sample = Sample::whole(&mut random, which);
            for _ in 0..20 {
                shuffle(&mut random, &mut sample.groups);
                let direction = sample.session.direction();
                assert!(read::message(direction, &sample.bytes()).is_ok());
            }
        }
    }
}
