//! Values of fields.

use crate::questions::bitfields::sample::{
    Sample, ACKNOWLEDGMENT, CANCEL, EXECUTION, NEW_ORDERS, PURGE, REJECTED, WITH_QUANTITY,
};
use crate::questions::bitfields::texts::texts;
use crate::questions::reading::{add, Asked};
use crate::questions::values::{bad_bytes, end_value, textual};
use crate::random::Random;
use crate::rules::kinds;
use crate::rules::layout;

/// In each text field: bad bytes first and last, and characters after a NUL.
pub fn bad_texts(asked: &mut Asked, random: &mut Random, which: usize) {
    for text in texts(random, which) {
        let mut sample = text.sample;
        let good = sample.value(text.name).clone();
        let last = good.len() - 1;
        let mut put = |place: usize, byte: u8| {
            let value = sample.value(text.name);
            value.copy_from_slice(&good);
            value[place] = byte;
            add(asked, &sample);
        };
        for byte in bad_bytes(text.kind) {
            put(0, *byte);
            if last > 0 {
                put(last, *byte);
            }
        }
        if last > 0 {
            put(0, 0);
            put(last - 1, 0);
        }
        let value = sample.value(text.name);
        value.fill(0);
        value[last] = good[last];
        if last > 0 {
            add(asked, &sample);
        }
        if text.never_blank {
            sample.value(text.name).fill(0);
            add(asked, &sample);
        }
    }
}

/// In each text field: blank, or what is nearly blank where that is refused; of the identifiers of
/// a Cancel Order all sizes.
pub fn good_texts(asked: &mut Asked, random: &mut Random, which: usize) {
    for text in texts(random, which) {
        let mut sample = text.sample;
        let size = sample.value(text.name).len();
        let ends: Vec<usize> = match (text.never_blank, which) {
            (false, _) => vec![0],
            (true, CANCEL) => (1..size).collect(),
            (true, _) => vec![1, size - 1],
        };
        for end in ends.into_iter().filter(|end| *end < size).rev() {
            let value = sample.value(text.name);
            value[end..].fill(0);
            add(asked, &sample);
        }
    }
}

/// All fields selected and each filled with one byte at the ends of its kind.
pub fn ends(asked: &mut Asked, random: &mut Random, which: usize) {
    let layout = &layout::ALL[which];
    let rounds = if which == CANCEL { 11 } else { 6 };
    for round in 0..rounds {
        let mut sample = Sample::least(random, which);
        sample.select_all();
        for text in texts(random, which) {
            let value = sample.value(text.name);
            *value = end_value(text.kind, value.len(), round);
        }
        for field in layout.listed {
            if !textual(field.kind) {
                *sample.value(field.name) = end_value(field.kind, field.width, round);
            }
        }
        add(asked, &sample);
    }
    // All of them blank that may be.
    let mut sample = Sample::least(random, which);
    sample.select_all();
    for field in layout.listed {
        let blank = vec![0; field.width];
        if kinds::agrees(field.kind, &blank) {
            *sample.value(field.name) = blank;
        }
    }
    add(asked, &sample);
}

/// OrderQty, which has a range in the New Orders alone.
pub fn quantities(asked: &mut Asked, random: &mut Random) {
    for which in WITH_QUANTITY {
        let mut sample = Sample::least(random, which);
        if !NEW_ORDERS.contains(&which) {
            sample.select("OrderQty");
        }
        for quantity in [
            0_u32,
            1,
            65_536,
            999_998,
            999_999,
            1_000_000,
            1_000_001,
            999_999_u32.swap_bytes(),
            16_777_216,
            16_777_217,
            2_147_483_648,
            4_294_967_294,
            4_294_967_295,
        ] {
            let value = sample.value("OrderQty");
            value.copy_from_slice(&quantity.to_le_bytes());
            add(asked, &sample);
        }
    }
}

pub fn reserved_bytes(asked: &mut Asked, random: &mut Random) {
    let of_two = [ACKNOWLEDGMENT, EXECUTION].into_iter();
    for which in of_two.chain(REJECTED).chain([PURGE]) {
        let mut sample = Sample::least(random, which);
        for byte in [0, 1, 10, 31, 32, 44, 64, 65, 127, 128, 255] {
            sample.value("Reserved")[0] = byte;
            add(asked, &sample);
        }
    }
}
