//! Values that ask for other fields, or do not go with them (document 02, request 1): those of a
//! Modify Order and of a Purge Orders. The other messages have none.

use super::sample::Sample;
use crate::random::Random;
use crate::rules::layout::Layout;
use crate::rules::types::{MODIFY_ORDER, PURGE_ORDERS};

/// The first three characters of MassCancelInst: those that ask for something, those that do not, and
/// near ones. A NUL ends the text.
const FIRST: &[u8] = b"AFFXf";
const SECOND: &[u8] = b"MSBNs\0";
const THIRD: &[u8] = b"NLLl\0";
/// OrdType: market, others, blank.
const ORD_TYPES: &[u8] = b"112\x0034P";

/// Puts characters at the start of MassCancelInst; what follows a NUL is NUL.
pub fn instruct(sample: &mut Sample, characters: &[u8]) {
    let text = sample.value("MassCancelInst");
    text[..characters.len()].copy_from_slice(characters);
    if let Some(end) = text.iter().position(|byte| *byte == 0) {
        text[end..].fill(0);
    }
}

/// MassCancelInst asks for nothing.
pub fn ask_nothing(sample: &mut Sample) {
    if sample.layout.type_byte == PURGE_ORDERS {
        let text = sample.value("MassCancelInst");
        for (byte, meaning, other) in [(0, &b"F"[..], b'A'), (1, b"SB", b'M'), (2, b"L", b'N')] {
            if meaning.contains(&text[byte]) {
                text[byte] = other;
            }
        }
    }
}

/// Values with a meaning, in most; they need not go together.
pub fn choose(random: &mut Random, sample: &mut Sample) {
    match sample.layout.type_byte {
        MODIFY_ORDER => {
            if random.below(2) == 0 {
                let ord_type = random.pick(ORD_TYPES);
                *sample.value("OrdType") = vec![ord_type];
            }
        }
        PURGE_ORDERS => {
            if random.below(4) != 0 {
                let characters = [FIRST, SECOND, THIRD].map(|some| random.pick(some));
                instruct(sample, &characters);
            }
            if random.below(2) == 0 {
                *sample.value("MatchingUnit") = vec![random.pick(&[0, 1, 32, 33, 255])];
            }
        }
        _ => {}
    }
}

/// Makes the values and the selected fields go together: what is needed is selected, and what does not
/// go is changed.
pub fn agree(sample: &mut Sample) {
    match sample.layout.type_byte {
        MODIFY_ORDER => {
            if !sample.selects("Price") {
                *sample.value("OrdType") = vec![b'1'];
            }
        }
        PURGE_ORDERS => {
            let text = sample.value("MassCancelInst");
            if text[2] == b'L' {
                text[0] = b'F';
            }
            let (first, second) = (text[0], text[1]);
            if first == b'F' {
                sample.select("ClearingFirm");
            }
            if second == b'S' || second == b'B' {
                sample.select("MassCancelID");
            }
            if sample.selects("Symbol") && sample.selects("MatchingUnit") {
                *sample.value("MatchingUnit") = vec![0];
            }
        }
        _ => {}
    }
}

/// Whether the message is one whose values ask for other fields.
pub fn asks(layout: &Layout) -> bool {
    [MODIFY_ORDER, PURGE_ORDERS].contains(&layout.type_byte)
}

/// A message whose parts fit each other and whose values may ask for what is not there: a field turned
/// on or off, other values, another number of ids.
pub fn careless(random: &mut Random, sample: &Sample) -> Sample {
    let mut sample = sample.clone();
    if random.below(2) == 0 {
        let listed = sample.layout.listed;
        let name = listed[random.between(0, listed.len() - 1)].name;
        match sample.selects(name) {
            true => sample.unselect(name),
            false => sample.select(name),
        }
    }
    choose(random, &mut sample);
    if !sample.middle.is_empty() && random.below(4) == 0 {
        let count = random.pick(&[0, 1, 9, 10, 11, 12, 40, 255]);
        sample.put_ids(random, usize::from(count));
    }
    sample
}
