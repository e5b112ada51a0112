//! Values of fields, and single bytes of pairs and groups.

use crate::questions::reading::{add, Asked};
use crate::questions::session::sample::{Group, Sample, LOGIN, LOGOUT, RESPONSE};
use crate::questions::values::{bad_bytes, end_bytes, textual};
use crate::random::Random;
use std::collections::BTreeSet;

/// In each text field: bad bytes first and last, and characters after a NUL.
pub fn bad_texts(asked: &mut Asked, random: &mut Random, which: usize) {
    let whole = Sample::whole(random, which);
    for (index, field) in whole.session.fields.iter().enumerate() {
        let last = field.width - 1;
        let mut put = |place: usize, byte: u8| {
            let mut sample = whole.clone();
            sample.fields[index][place] = byte;
            add(asked, &sample);
        };
        for byte in bad_bytes(field.kind) {
            put(0, *byte);
            if last > 0 {
                put(last, *byte);
            }
        }
        if textual(field.kind) && last > 0 {
            put(0, 0);
            put(last - 1, 0);
            put(last, b'!');
        }
    }
}

/// Each field blank, of some sizes, and full of what is at the ends of its kind.
pub fn good_texts(asked: &mut Asked, random: &mut Random, which: usize) {
    let whole = Sample::whole(random, which);
    for (index, field) in whole.session.fields.iter().enumerate() {
        if whole.session.flag == Some(field.name) {
            continue;
        }
        for end in [0, 1, field.width / 2, field.width - 1] {
            let mut sample = whole.clone();
            sample.fields[index][end..].fill(0);
            add(asked, &sample);
        }
        for byte in end_bytes(field.kind) {
            let mut sample = whole.clone();
            sample.fields[index].fill(*byte);
            add(asked, &sample);
        }
    }
    let mut blank = whole;
    for value in &mut blank.fields {
        value.fill(0);
    }
    add(asked, &blank);
}

/// Single bytes of which only some are taken: all there are, or those about what is taken.
pub fn single_bytes(asked: &mut Asked, random: &mut Random) {
    let mut sample = Sample::least(random, LOGOUT);
    for byte in 0..=255 {
        sample.value("LogoutReason")[0] = byte;
        add(asked, &sample);
    }
    let mut sample = Sample::least(random, LOGOUT);
    for byte in near(&[1, 32]).into_iter().chain(0..=34) {
        sample.set_pairs(vec![(byte, 0x0403_0201)]);
        add(asked, &sample);
    }
    let mut sample = Sample::least(random, RESPONSE);
    for byte in near(b"AZaz09!") {
        sample.value("LoginResponseStatus")[0] = byte;
        add(asked, &sample);
    }
    let mut sample = Sample::least(random, RESPONSE);
    for byte in near(&[0, 1]) {
        sample.value("NoUnspecifiedUnitReplay")[0] = byte;
        add(asked, &sample);
    }
    let mut sample = Sample::least(random, LOGIN);
    let mut put = |group: Group| {
        sample.set_groups(vec![group]);
        add(asked, &sample);
    };
    for byte in near(&[0, 1]) {
        put(Group::units(byte, &[(7, 8)]));
    }
    for byte in near(&[0x25, 0x2C]) {
        put(Group::bitfields(byte, &[9]));
    }
    for byte in near(&[0x80, 0x81]) {
        for mut group in [Group::units(0, &[]), Group::bitfields(0x2C, &[])] {
            group.type_byte = byte;
            put(group);
        }
    }
}

/// These bytes, those next to them, those that differ in one bit, and the ends.
fn near(taken: &[u8]) -> BTreeSet<u8> {
    let mut near = BTreeSet::from([0, 127, 128, 255]);
    for byte in taken {
        near.extend([byte.wrapping_sub(1), *byte, byte.wrapping_add(1)]);
        near.extend((0..8).map(|bit| byte ^ 1 << bit));
    }
    near
}
