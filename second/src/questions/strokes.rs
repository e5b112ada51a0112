//! Strokes of damage that fall on any bytes, and what they put there.

use crate::random::Random;

/// Bytes at the ends of the ranges that the rules name.
const ENDS: &[u8] = b"\x00\x01\x1F !\"+,-/09:;<@AZ[`az{|}~\x7F\x80\xFF";
const UNITS: [u8; 6] = [0, 1, 32, 33, 128, 255];

/// How many strokes fall.
pub fn strokes(random: &mut Random) -> u64 {
    match random.below(4) {
        0 => 2,
        1 => 3,
        _ => 1,
    }
}

pub fn some_byte(random: &mut Random) -> u8 {
    match random.below(3) {
        0 => random.byte(),
        _ => random.pick(ENDS),
    }
}

pub fn some_unit(random: &mut Random) -> u8 {
    match random.below(3) {
        0 => random.byte(),
        _ => random.pick(&UNITS),
    }
}

/// Another of the three directions, or any number.
pub fn some_direction(random: &mut Random, direction: u8) -> u8 {
    match random.below(4) {
        0 => random.byte(),
        1 => (direction % 3 + 2) % 3,
        _ => (direction % 3 + 1) % 3,
    }
}

/// Another count, mostly a near one.
pub fn some_count(random: &mut Random, count: u8) -> u8 {
    match random.below(6) {
        0 | 1 => count.wrapping_add(1),
        2 | 3 => count.wrapping_sub(1),
        4 => random.between(0, 20) as u8,
        _ => random.byte(),
    }
}

pub fn some_bit(random: &mut Random) -> u8 {
    1 << random.below(8)
}

/// Changes the byte at a place, if there is one.
pub fn change(bytes: &mut [u8], place: usize, change: impl FnOnce(u8) -> u8) {
    if place < bytes.len() {
        bytes[place] = change(bytes[place]);
    }
}

/// Puts some byte at a place from `first` to `last`.
pub fn strike(random: &mut Random, bytes: &mut [u8], first: usize, last: usize) {
    let place = random.between(first, last);
    let byte = some_byte(random);
    change(bytes, place, |_| byte);
}

/// Puts some byte at a place from `first` on, if there is one.
pub fn strike_from(random: &mut Random, bytes: &mut [u8], first: usize) {
    if bytes.len() > first {
        strike(random, bytes, first, bytes.len() - 1);
    }
}

/// Puts some byte at one of the places, if there is one.
pub fn strike_one_of(random: &mut Random, bytes: &mut [u8], places: &[usize]) {
    if !places.is_empty() {
        let place = places[random.between(0, places.len() - 1)];
        let byte = some_byte(random);
        change(bytes, place, |_| byte);
    }
}

/// Leaves out bytes at the end, at times all of them.
pub fn shorten(random: &mut Random, bytes: &mut Vec<u8>) {
    let size = random.between(0, bytes.len());
    bytes.truncate(size);
}

/// Puts up to `most` bytes at the end.
pub fn lengthen(random: &mut Random, bytes: &mut Vec<u8>, most: usize) {
    let more = random.between(1, most);
    bytes.extend(random.bytes(more));
}
