//! Questions about reading messages with bitfields.

mod bits;
mod order;
mod values;

use super::sample::{
    self, Sample, ACKNOWLEDGMENT, CANCEL, CANCEL_REJECTED, EXECUTION, MODIFY, MODIFY_REJECTED,
    NEW_ORDER, OPTIONS, ORDER_REJECTED, PURGE,
};
use crate::examples;
use crate::questions::parts::{other_directions, Parts};
use crate::questions::reading::{self, add, measured, Asked};
use crate::random::Random;
use crate::rules::frame::HEADER;
use crate::rules::layout;
use crate::rules::types::{MEMBER, OPTIONS_MEMBER, VENUE};

pub fn ask(lines: &mut Vec<String>) {
    reading::ask(lines, messages());
}

/// What is asked; the questions about writing take their records from the valid ones.
pub fn messages() -> Asked {
    let mut asked = Vec::new();
    let mut random = Random::new(6);
    from_the_documents(&mut asked);
    for which in 0..layout::ALL.len() {
        bits::single(&mut asked, &mut random, which);
        bits::many(&mut asked, &mut random, which);
        bits::counts(&mut asked, &mut random, which);
        lengths(&mut asked, &mut random, which);
        cuts(&mut asked, &mut random, which);
        after(&mut asked, &mut random, which);
        headers(&mut asked, &mut random, which);
        values::bad_texts(&mut asked, &mut random, which);
        values::good_texts(&mut asked, &mut random, which);
        values::ends(&mut asked, &mut random, which);
        order::ask(&mut asked, &mut random, which);
        directions(&mut asked, &mut random, which);
    }
    values::quantities(&mut asked, &mut random);
    bits::required(&mut asked, &mut random);
    values::reserved_bytes(&mut asked, &mut random);
    types(&mut asked);
    random_messages(&mut asked, &mut random);
    asked
}

fn from_the_documents(asked: &mut Asked) {
    asked.push((MEMBER, examples::new_order()));
    asked.push((MEMBER, examples::new_order_of_the_notes()));
    asked.push((MEMBER, examples::cancel()));
    asked.push((MEMBER, examples::cancel_without_bitfields()));
    asked.push((MEMBER, examples::cancel_of_another_bit()));
    asked.push((MEMBER, examples::cancel_of_three_bitfields()));
    asked.push((VENUE, examples::acknowledgment()));
    asked.push((VENUE, examples::least_acknowledgment()));
    asked.push((VENUE, examples::booked_acknowledgment()));
    asked.push((VENUE, examples::execution()));
    asked.push((VENUE, examples::order_rejected()));
    asked.push((VENUE, examples::cancel_rejected()));
    asked.push((VENUE, examples::modify_rejected()));
    asked.push((MEMBER, examples::modify()));
    asked.push((MEMBER, examples::purge_by_ids()));
    asked.push((MEMBER, examples::purge_by_symbol()));
    asked.push((MEMBER, examples::purge_by_ids_with_its_length()));
    asked.push((MEMBER, examples::purge_by_symbol_with_its_length()));
    let longer = [examples::purge_by_symbol(), vec![0; 2]].concat();
    asked.push((MEMBER, longer));
    asked.push((OPTIONS_MEMBER, examples::options_order()));
    // P9 and P10 in other forms.
    let mut message = examples::cancel();
    message[30] = 3;
    asked.push((MEMBER, message));
    let mut message = examples::cancel_without_bitfields();
    message[30] = 3;
    asked.push((MEMBER, message));
    let mut message = examples::cancel();
    message[31] = 2;
    message.truncate(32);
    measured(asked, MEMBER, message);
}

/// Length fields that are off, with the same bytes and with as many bytes as they say.
fn lengths(asked: &mut Asked, random: &mut Random, which: usize) {
    let sample = Sample::with_first_field(random, which);
    let direction = sample.layout.direction();
    let message = sample.bytes();
    let length = message.len() as u16 - 2;
    let others = [
        0,
        1,
        7,
        8,
        9,
        length - 2,
        length - 1,
        length + 1,
        length + 2,
        length + 256,
        length.swap_bytes(),
        2046,
        2047,
        65535,
    ];
    reading::lengths(asked, direction, &message, &others);
    for fewer in 1..=5 {
        let end = message.len() - fewer;
        measured(asked, direction, message[..end].to_vec());
    }
    for more in 1..=5 {
        let longer = [&message[..], &random.bytes(more)].concat();
        measured(asked, direction, longer);
    }
    reading::longest(asked, direction, message);
}

/// Messages cut at every byte: as they are, with a length that fits, and so again with faults that
/// other rules look at, since the place of the cut decides which of them is told.
fn cuts(asked: &mut Asked, random: &mut Random, which: usize) {
    let layout = &layout::ALL[which];
    let direction = layout.direction();
    let whole = match which {
        NEW_ORDER => examples::new_order(),
        CANCEL => examples::cancel(),
        ACKNOWLEDGMENT => examples::acknowledgment(),
        EXECUTION => examples::execution(),
        ORDER_REJECTED => examples::order_rejected(),
        CANCEL_REJECTED => examples::cancel_rejected(),
        MODIFY => examples::modify(),
        PURGE => examples::purge_by_ids_with_its_length(),
        OPTIONS => examples::options_order(),
        _ => examples::modify_rejected(),
    };
    reading::cut_anywhere(asked, direction, &whole);
    let mut cut_from = |first: usize, message: &[u8]| {
        reading::cut(asked, direction, message, first..message.len());
    };
    cut_from(4, &whole);
    let near = layout.count_place() - 1;
    let mut sample = Sample::with_first_field(random, which);
    sample.spoil_never_blank(0, b',');
    cut_from(near, &sample.bytes());
    if let Some(name) = sample::required_field(which) {
        sample.unselect(name);
        cut_from(near, &sample.bytes());
    }
    let (byte, bit) = sample::unlisted_bit(which);
    sample.set_bit(byte, bit);
    cut_from(near, &sample.bytes());
    sample.lengthen(layout.most + 1);
    cut_from(near, &sample.bytes());
    sample.unit = layout.greatest_unit + 1;
    cut_from(HEADER, &sample.bytes());
}

/// Bytes after a message.
fn after(asked: &mut Asked, random: &mut Random, which: usize) {
    let sample = Sample::any(random, which);
    let message = sample.bytes();
    let more = [
        vec![0],
        vec![0xBA],
        vec![0xBA, 0xBA],
        vec![0, 0, 0, 0],
        vec![255; 30],
        random.bytes(7),
        message.clone(),
    ];
    reading::followed(asked, sample.layout.direction(), &message, &more);
}

fn headers(asked: &mut Asked, random: &mut Random, which: usize) {
    let mut sample = Sample::least(random, which);
    for unit in [
        0, 1, 2, 3, 4, 8, 15, 16, 17, 24, 30, 31, 32, 33, 34, 48, 63, 64, 65, 127, 128, 129, 160,
        192, 254, 255,
    ] {
        sample.unit = unit;
        add(asked, &sample);
    }
    sample.unit = sample.layout.greatest_unit;
    for number in [
        0,
        1,
        256,
        0x0102_0304,
        0x7FFF_FFFF,
        0x8000_0000,
        0xFFFF_FFFF,
    ] {
        sample.number = number;
        add(asked, &sample);
    }
    // Units and numbers together, which matter to what is unsequenced and to what is not.
    if sample.layout.direction() == VENUE {
        for unit in [0, 1, 32, 33, 255] {
            for number in [0, 1, 256, 65_536, 0x0100_0000, 0xFFFF_FFFF] {
                (sample.unit, sample.number) = (unit, number);
                add(asked, &sample);
            }
        }
    }
}

/// Other directions, also with faults of framing and of the unit; and the type of the record on the wire,
/// where it is not the message's.
fn directions(asked: &mut Asked, random: &mut Random, which: usize) {
    let mut sample = Sample::any(random, which);
    let own = sample.layout.direction();
    for direction in other_directions(own) {
        asked.push((direction, sample.bytes()));
    }
    let message = sample.bytes();
    if sample.layout.record_type != sample.layout.type_byte {
        let mut recorded = message.clone();
        recorded[4] = sample.layout.record_type;
        for direction in [own].into_iter().chain(other_directions(own)) {
            asked.push((direction, recorded.clone()));
        }
    }
    for direction in other_directions(own).take(3) {
        let mut start = message.clone();
        start[1] = 0;
        asked.push((direction, start));
        let mut length = message.clone();
        length[3] = 0xFF;
        asked.push((direction, length));
        asked.push((direction, message[..message.len() - 1].to_vec()));
        asked.push((direction, message[..4].to_vec()));
    }
    sample.unit = sample.layout.greatest_unit + 1;
    for direction in other_directions(own).take(3) {
        asked.push((direction, sample.bytes()));
    }
}

/// Every type in a header alone, with a number that the session messages do not have.
fn types(asked: &mut Asked) {
    for direction in [MEMBER, VENUE, OPTIONS_MEMBER] {
        let unit = u8::from(direction == VENUE);
        for type_byte in 0..=255 {
            let message = [0xBA, 0xBA, 8, 0, type_byte, unit, 1, 0, 0, 0];
            asked.push((direction, message.to_vec()));
        }
    }
}

fn random_messages(asked: &mut Asked, random: &mut Random) {
    let counts = [
        (NEW_ORDER, 380),
        (CANCEL, 90),
        (ACKNOWLEDGMENT, 350),
        (EXECUTION, 300),
        (ORDER_REJECTED, 170),
        (CANCEL_REJECTED, 80),
        (MODIFY_REJECTED, 30),
        (MODIFY, 70),
        (PURGE, 90),
        (OPTIONS, 140),
    ];
    reading::any::<Sample>(asked, random, &counts);
    let counts = [
        (NEW_ORDER, 280),
        (CANCEL, 120),
        (ACKNOWLEDGMENT, 200),
        (EXECUTION, 200),
        (ORDER_REJECTED, 120),
        (CANCEL_REJECTED, 80),
        (MODIFY_REJECTED, 50),
        (MODIFY, 90),
        (PURGE, 120),
        (OPTIONS, 120),
    ];
    reading::damaged::<Sample>(asked, random, &counts);
}

#[cfg(test)]
mod tests {
    use super::*;
    use crate::questions::judged;

    #[test]
    fn each_type_gets_each_answer() {
        let seen = judged::reads(&messages());
        for layout in &layout::ALL {
            let mut numbers = vec![0, 1, 2, 3, 4, 5, 6, 7, 8, 10];
            if !layout.required.is_empty() {
                numbers.push(9);
            }
            if layout.type_byte == 0x47 {
                numbers.push(23);
            }
            judged::gets_each(&seen, layout.record_type, &numbers);
        }
    }
}
