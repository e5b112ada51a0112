//! Places of a record that its message does not use.

use crate::questions::bitfields::sample::Sample;
use crate::questions::parts::Parts;
use crate::questions::writing::add_record;
use crate::random::Random;
use crate::rules::layout;
use crate::rules::record::{
    BITFIELDS, BITFIELDS_PLACE, COUNT_PLACE, FIXED_PLACE, SIZE, SLOTS_PLACE,
};
use std::collections::BTreeSet;

/// The places of a record that a sample's message does not use, in runs that belong together.
pub fn places(sample: &Sample) -> Vec<Vec<usize>> {
    let layout = sample.layout;
    let mut runs = vec![
        (FIXED_PLACE + layout.fixed_width() + sample.middle.len()..COUNT_PLACE).collect(),
        (BITFIELDS_PLACE + sample.bitfields.len()..SLOTS_PLACE).collect(),
    ];
    let mut place = SLOTS_PLACE;
    for field in layout.listed {
        if !field.selected(&sample.bitfields) {
            runs.push((place..place + field.width).collect());
        }
        place += field.width;
    }
    runs.push((place..SIZE).collect());
    runs.retain(|run: &Vec<usize>| !run.is_empty());
    runs
}

/// One byte that is not zero: first and last in each unused run, and inside the longer ones.
pub fn ask(lines: &mut Vec<String>, random: &mut Random, which: usize) {
    let layout = &layout::ALL[which];
    let sample = Sample::least(random, which);
    for run in places(&sample) {
        let mut places = BTreeSet::from([run[0], run[run.len() - 1]]);
        if run.len() > 20 {
            places.insert(run[random.between(1, run.len() - 2)]);
        }
        for place in places {
            let mut record = sample.record();
            record[place] = random.pick(&[1, b'A', b',', 0x7F, 0x80, 255]);
            add_record(lines, random, &sample, &record);
        }
    }
    // Past the count, listed bits and others are alike, whether their fields are there or not.
    for byte in sample.bitfields.len() + 1..=BITFIELDS {
        let mut record = sample.record();
        record[BITFIELDS_PLACE + byte - 1] = match layout.listed_bits(byte) {
            0 => 1 << random.below(8),
            listed => listed,
        };
        add_record(lines, random, &sample, &record);
    }
    let mut longer = sample;
    for field in layout.listed {
        longer.set_bit(field.byte, field.bit);
        let mut record = longer.record();
        // A field whose bit is past the count, or not set.
        if random.below(2) == 0 {
            record[COUNT_PLACE] = field.byte as u8 - 1;
        } else {
            record[BITFIELDS_PLACE + field.byte - 1] &= !field.bit;
        }
        add_record(lines, random, &longer, &record);
    }
}
