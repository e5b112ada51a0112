//! Messages with bitfields that have several faults at once.

use super::late::instruct;
use super::sample::{required_field, unlisted_bit, Sample, MODIFY, PURGE};
use crate::questions::order::{self, LATE};
use crate::random::Random;

/// The number of a conflict.
pub const CONFLICT: u8 = 23;

/// The sets of faults of an order that a message can have. Where no field is required none can be left
/// out; a value asks for others in two messages alone. What MassCancelInst asks for is not asked where
/// it is left out.
pub fn sets(which: usize, order: &[u8]) -> Vec<u16> {
    order::sets(order, |faults| {
        let numbers = order::numbers(faults, order);
        let has = |number: u8| numbers.contains(&number);
        let early = !has(9) || required_field(which).is_some();
        let late = !has(LATE) || which == MODIFY || which == PURGE && !has(9);
        early && late && (!has(CONFLICT) || which == PURGE)
    })
}

/// A small sample with those of the faults 5, 8, both 9 and 23 that are among the numbers.
pub fn small_with(random: &mut Random, which: usize, numbers: &[u8]) -> Sample {
    let mut sample = Sample::with_first_field(random, which);
    let has = |number: u8| numbers.contains(&number);
    if has(5) {
        sample.spoil_header(random);
    }
    if has(8) {
        let (byte, bit) = unlisted_bit(which);
        sample.set_bit(byte, bit);
    }
    if has(9) {
        required_field(which)
            .into_iter()
            .for_each(|name| sample.unselect(name));
    }
    if which == MODIFY && has(LATE) {
        sample.unselect("Price");
        sample.select("OrdType");
        *sample.value("OrdType") = vec![random.pick(b"0234P\0")];
    }
    if which == PURGE {
        purge_with(random, &mut sample, has(9), has(LATE), has(CONFLICT));
    }
    sample
}

/// A Purge Orders that lacks what it needs, or has what does not go together: by its MassCancelInst,
/// if that is there, or by Symbol and MatchingUnit.
fn purge_with(random: &mut Random, sample: &mut Sample, early: bool, late: bool, conflict: bool) {
    let lockout = conflict && !early && random.below(2) == 0;
    let by_firm = late && !lockout && random.below(2) == 0;
    let first = if by_firm { b'F' } else { random.pick(b"AXf") };
    let second = match late && !by_firm {
        true => random.pick(b"SB"),
        false => random.pick(b"MN"),
    };
    let third = if lockout { b'L' } else { b'N' };
    instruct(sample, &[first, second, third]);
    if by_firm {
        sample.unselect("ClearingFirm");
        // Another field for what the other faults want of one.
        sample.select("SymbolSfx");
    }
    if conflict && !lockout {
        sample.select("Symbol");
        sample.select("MatchingUnit");
    }
}

/// 10, by a value that none of the other faults looks at: in an identifier, or in the number of ids.
pub fn spoil_value(random: &mut Random, sample: &mut Sample, place: usize, byte: u8) {
    if sample.middle.is_empty() {
        sample.spoil_never_blank(place, byte);
    } else {
        let count = random.pick(&[11, 12, 20]);
        sample.put_ids(random, usize::from(count));
    }
}
