//! Bits and counts of bitfields.

use crate::questions::bitfields::sample::{Sample, CANCEL, NEW_ORDERS, OPTIONS, REQUIRED};
use crate::questions::reading::{add, Asked};
use crate::random::Random;
use crate::rules::layout;
use crate::rules::record::BITFIELDS;

/// Each bit of each bitfield, listed or not: with what is required and without.
pub fn single(asked: &mut Asked, random: &mut Random, which: usize) {
    let layout = &layout::ALL[which];
    for byte in 1..=layout.most {
        for bit in (0..8).map(|shift| 1 << shift) {
            let mut sample = Sample::least(random, which);
            sample.set_bit(byte, bit);
            add(asked, &sample);
            if layout.listed_bits(byte) & bit != 0 {
                let mut longer = sample.clone();
                longer.lengthen(layout.most);
                add(asked, &longer);
            }
            if !layout.required.is_empty() {
                sample.clear();
                sample.set_bit(byte, bit);
                add(asked, &sample);
            }
        }
    }
}

/// All listed bits, those of each bitfield, and every bit there is.
pub fn many(asked: &mut Asked, random: &mut Random, which: usize) {
    let layout = &layout::ALL[which];
    let mut sample = Sample::least(random, which);
    sample.select_all();
    add(asked, &sample);
    sample.lengthen(layout.most);
    add(asked, &sample);
    for byte in 1..=layout.most {
        let listed = layout.listed_bits(byte);
        if listed != 0 {
            let mut sample = Sample::least(random, which);
            sample.set_bit(byte, listed);
            add(asked, &sample);
        }
    }
    let mut sample = Sample::least(random, which);
    sample.lengthen(layout.most);
    sample.bitfields.fill(255);
    add(asked, &sample);
}

/// Counts with as many bitfields, counts with fewer or more, and counts that end a message.
pub fn counts(asked: &mut Asked, random: &mut Random, which: usize) {
    let layout = &layout::ALL[which];
    let mut sample = Sample::with_first_field(random, which);
    for count in sample.bitfields.len()..=layout.most + 3 {
        let mut longer = sample.clone();
        longer.lengthen(count);
        add(asked, &longer);
    }
    let near = 0..BITFIELDS as u8 + 5;
    let far = [31, 32, 33, 63, 64, 65, 127, 128, 129, 192, 254, 255];
    let chosen: Vec<u8> = match which {
        CANCEL => (0..=255).collect(),
        _ => near.clone().chain(far).collect(),
    };
    for count in chosen {
        sample.count = count;
        add(asked, &sample);
    }
    sample.clear();
    for count in near.chain(far) {
        sample.count = count;
        add(asked, &sample);
    }
}

/// Every choice of the fields that a New Order's requirement names, alone and among others.
pub fn required(asked: &mut Asked, random: &mut Random) {
    for which in NEW_ORDERS {
        for choice in 0..16 {
            for others in [false, true] {
                let mut sample = Sample::least(random, which);
                sample.clear();
                if others {
                    sample.select("TimeInForce");
                    sample.select("RoutingInst");
                    sample.select(match which {
                        OPTIONS => "StrikePrice",
                        _ => "StopPx",
                    });
                }
                sample.select_required(choice);
                add(asked, &sample);
            }
        }
        // Selected is enough: they may be blank.
        let mut sample = Sample::least(random, which);
        sample.select("OrdType");
        for name in REQUIRED {
            sample.value(name).fill(0);
            add(asked, &sample);
        }
    }
}
