//! Questions about what is particular to Modify Order (document 02, request 1): Price, which may be
//! absent from a market order, and what its OrdType then is.

use super::bitfields::sample::{Sample, MODIFY};
use super::parts::{measure, Parts};
use super::reading;
use super::without_repeats;
use super::writing::{self, both};
use crate::examples;
use crate::random::Random;
use crate::rules::layout;
use crate::rules::record::SLOTS_PLACE;
use crate::rules::types::MEMBER;

/// OrdType: market, another, blank, against its kind, a letter.
const ORD_TYPES: [u8; 5] = [0x31, 0x32, 0x00, 0x2D, 0x41];
/// Those and some that are near the market value.
const MORE_TYPES: [u8; 10] = [0x31, 0x32, 0x00, 0x2D, 0x41, 0x30, 0x01, 0x11, 0x71, 0xB1];
const BASE: [&str; 3] = ["OrderQty", "Price", "OrdType"];

pub fn ask(lines: &mut Vec<String>) {
    let mut random = Random::new(24);
    let mut asked = Vec::new();
    tails(&mut asked, &mut random);
    subsets(&mut asked, &mut random);
    choices(&mut asked, &mut random);
    pairs(&mut asked, &mut random);
    slots(&mut asked, &mut random);
    lines.extend(without_repeats(asked));
}

/// Table 29's message up to its count byte, with other tails: as long as they are, longer and shorter.
fn tails(lines: &mut Vec<String>, random: &mut Random) {
    let example = examples::modify();
    let (front, own) = example.split_at(50);
    let mut tails = vec![own.to_vec(), vec![0], vec![1, 4, 0xE0, 0x2E, 0, 0]];
    for ord_type in MORE_TYPES {
        tails.push(vec![1, 0x14, 0xE0, 0x2E, 0, 0, ord_type]);
        tails.push(vec![2, 0x14, 0, 0xE0, 0x2E, 0, 0, ord_type]);
    }
    tails.push(vec![1, 0x10, 0x31]);
    tails.push(vec![1, 0x18, 8, 0xE2, 1, 0, 0, 0, 0, 0, 0x31]);
    tails.push([&own[..2], &[0; 12]].concat());
    for tail in tails {
        for more in [0, 1, 3] {
            let mut message = [front, &tail, &random.bytes(more)].concat();
            measure(&mut message);
            lines.push(reading::line(MEMBER, &message));
        }
        let mut message = [front, &tail[..tail.len() - 1]].concat();
        measure(&mut message);
        lines.push(reading::line(MEMBER, &message));
    }
}

/// Every choice of a bitfield's listed bits: of the first alone and with all of the second, of the
/// second with what is required. Those that have an OrderQty are also written.
fn subsets(lines: &mut Vec<String>, random: &mut Random) {
    let layout = &layout::ALL[MODIFY];
    let second = layout.listed_bits(2);
    for bits in 0..=255 {
        if bits & !layout.listed_bits(1) == 0 {
            let mut sample = Sample::least(random, MODIFY);
            sample.bitfields = vec![bits];
            *sample.value("OrdType") = vec![random.pick(b"12")];
            match sample.selects("OrderQty") {
                true => both(lines, random, &sample),
                false => lines.push(reading::line(MEMBER, &sample.bytes())),
            }
            sample.set_bit(2, second);
            lines.push(reading::line(MEMBER, &sample.bytes()));
        }
        if bits & !second == 0 {
            let mut sample = Sample::least(random, MODIFY);
            sample.lengthen(2);
            sample.bitfields[1] = bits;
            both(lines, random, &sample);
        }
    }
}

/// Every choice of the three fields that the requirement names, with each OrdType, alone and among
/// others.
fn choices(lines: &mut Vec<String>, random: &mut Random) {
    for choice in 0..8 {
        for ord_type in ORD_TYPES {
            let mut sample = Sample::least(random, MODIFY);
            sample.clear();
            for (shift, name) in BASE.into_iter().enumerate() {
                if choice >> shift & 1 != 0 {
                    sample.select(name);
                }
            }
            if sample.bitfields.is_empty() {
                sample.lengthen(1);
            }
            *sample.value("OrdType") = vec![ord_type];
            both(lines, random, &sample);
            sample.select("ClearingFirm");
            sample.select("StopPx");
            lines.push(reading::line(MEMBER, &sample.bytes()));
        }
    }
}

/// The late 9 with a bad value elsewhere, before OrdType and after it, and with totals that are off.
fn pairs(lines: &mut Vec<String>, random: &mut Random) {
    for ord_type in [b'1', b'2', 0, b'-'] {
        for name in [
            "ClOrdID",
            "OrigClOrdID",
            "ClearingFirm",
            "Side",
            "LocateBroker",
        ] {
            let mut sample = Sample::least(random, MODIFY);
            sample.unselect("Price");
            sample.select("OrdType");
            *sample.value("OrdType") = vec![ord_type];
            if !name.ends_with("OrdID") {
                sample.select(name);
            }
            sample.value(name)[0] = 0x01;
            both(lines, random, &sample);
        }
        let mut sample = Sample::least(random, MODIFY);
        sample.unselect("Price");
        sample.select("OrdType");
        sample.select("Side");
        *sample.value("OrdType") = vec![ord_type];
        // Side may be blank.
        sample.value("Side")[0] = 0;
        both(lines, random, &sample);
        let size = sample.bytes().len();
        for other in [size - 2, size - 1, size + 1, size + 8] {
            let mut message = sample.bytes();
            message.resize(other, b'1');
            measure(&mut message);
            lines.push(reading::line(MEMBER, &message));
        }
    }
}

/// Slots that are not selected do not speak: an OrdType that is not, and a Price that is not.
fn slots(lines: &mut Vec<String>, random: &mut Random) {
    for (selected, slot, byte) in [
        (&["OrderQty", "OrdType"][..], 8, 1),
        (&["OrderQty", "OrdType"], 15, 0x80),
        (&["OrderQty"], 16, b'1'),
        (&["OrderQty"], 8, 1),
        (&["OrderQty", "Price"], 16, b'1'),
        (&["OrderQty", "Price"], 16, b'-'),
        (&["OrdType"], 4, 1),
        (&["Price", "OrdType"], 4, 1),
    ] {
        for ord_type in [b'1', b'2'] {
            let mut sample = Sample::least(random, MODIFY);
            sample.clear();
            selected.iter().for_each(|name| sample.select(name));
            *sample.value("OrdType") = vec![ord_type];
            let mut record = sample.record();
            record[SLOTS_PLACE + slot] = byte;
            lines.push(writing::line(MEMBER, &record, &[7; 3]));
        }
    }
}

#[cfg(test)]
mod tests {
    use super::*;
    use crate::questions::judged;

    /// Each number comes that these questions are about, read and written.
    #[test]
    fn numbers() {
        let seen = judged::numbers_by_call(ask);
        for expected in [
            "read 0", "read 6", "read 9", "read 10", "write 0", "write 9", "write 10", "write 12",
        ] {
            assert!(
                seen.get(expected).copied().unwrap_or(0) >= 3,
                "{}",
                expected
            );
        }
        assert!(!seen.keys().any(|key| key.ends_with(" 23")));
    }
}
