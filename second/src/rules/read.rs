//! Reading a message (document 01, "Numbers of refusal", the reading order).

use super::frame::{self, HEADER};
use super::layout::Layout;
use super::record::{Record, BITFIELDS, FIXED, SLOTS};
use super::session::Session;
use super::{check, Refusal};

/// The record of the first whole message of a buffer. What the message does not hold is zero in
/// the record; what follows the message plays no part.
pub fn message(direction: u8, buffer: &[u8]) -> Result<Vec<u8>, Refusal> {
    let message = frame::message(buffer)?;
    let type_byte = frame::header(message).type_byte;
    if let Some(session) = Session::of(direction, type_byte) {
        return session.read(message);
    }
    let layout = Layout::of(direction, type_byte)?;
    Ok(with_bitfields(layout, message)?.bytes())
}

/// Puts the record of the first whole message of `bytes` at the start of `buffer`: 13 comes last,
/// where the buffer is shorter than the record of that type. What follows the record stays.
pub fn into(direction: u8, bytes: &[u8], buffer: &mut [u8]) -> Result<(), Refusal> {
    let record = message(direction, bytes)?;
    check(buffer.len() >= record.len(), Refusal::Room)?;
    buffer[..record.len()].copy_from_slice(&record);
    Ok(())
}

/// The first whole message of a buffer, if it can be read. A type other than these is 4, at 4's
/// place.
pub fn of_types<'a>(direction: u8, buffer: &'a [u8], types: &[u8]) -> Result<&'a [u8], Refusal> {
    let whole = frame::message(buffer)?;
    let type_byte = frame::header(whole).type_byte;
    check(types.contains(&type_byte), Refusal::Type)?;
    message(direction, whole)?;
    Ok(whole)
}

/// The record of a whole message with bitfields.
fn with_bitfields(layout: &Layout, message: &[u8]) -> Result<Record, Refusal> {
    let header = frame::header(message);
    layout.check_header(header.unit, header.number)?;

    // The total is judged three times: up to the count byte, up to the end of the bitfields, and
    // in whole. It is the place that is told in each of them.
    let total = message.len();
    let first = layout.bitfields_place();
    check(total >= first, Refusal::Total(total))?;
    let count = message[layout.count_place()];
    layout.check_count(count)?;
    let end = first + usize::from(count);
    check(total >= end, Refusal::Total(total))?;
    let bitfields = &message[first..end];
    layout.check_bits(bitfields)?;
    layout.check_required(bitfields)?;
    let width = layout.middle.width(&message[end..]);
    let whole = layout.total(bitfields, width);
    check(total == whole, Refusal::Total(total))?;

    let fixed = &message[HEADER..layout.count_place()];
    let middle = &message[end..end + width];
    let mut fields = Vec::new();
    for place in layout.places(bitfields, width) {
        let value = &message[place.wire..place.wire + place.field.width];
        fields.push((place, value));
    }
    layout.check_values(fixed, bitfields, middle, &fields)?;

    let mut record = Record {
        type_byte: layout.record_type,
        unit: header.unit,
        number: header.number,
        fixed: [0; FIXED],
        count,
        bitfields: [0; BITFIELDS],
        slots: [0; SLOTS],
    };
    put(&mut record.fixed, 0, fixed);
    put(&mut record.fixed, fixed.len(), middle);
    put(&mut record.bitfields, 0, bitfields);
    for (place, value) in fields {
        put(&mut record.slots, place.slot, value);
    }
    Ok(record)
}

fn put(part: &mut [u8], place: usize, bytes: &[u8]) {
    part[place..place + bytes.len()].copy_from_slice(bytes);
}

#[cfg(test)]
mod tests {
    use super::*;
    use crate::examples;
    use crate::questions::parts::{measure, way_back};
    use crate::rules;

    /// The record of a message with bitfields.
    fn record_of(direction: u8, buffer: &[u8]) -> Record {
        Record::of_bytes(&message(direction, buffer).unwrap())
    }

    fn refusal(direction: u8, buffer: &[u8]) -> u8 {
        rules::refusal(message(direction, buffer))
    }

    #[test]
    fn p5() {
        let example = examples::new_order();
        let layout = Layout::of(0, 0x38).unwrap();
        let bitfields = [0x04, 0xC1, 0x01];
        assert_eq!(layout.total(&bitfields, 0), 76);
        let places: Vec<(&str, usize)> = layout
            .places(&bitfields, 0)
            .iter()
            .map(|place| (place.field.name, place.wire))
            .collect();
        assert_eq!(
            places,
            [
                ("Price", 39),
                ("Symbol", 47),
                ("Capacity", 55),
                ("RoutingInst", 56),
                ("Account", 60)
            ]
        );

        let record = record_of(0, &example);
        assert_eq!((record.type_byte, record.unit), (0x38, 0));
        assert_eq!(record.number, 100);
        assert_eq!(record.fixed[..6], *b"ABC123");
        assert_eq!(record.fixed[20..25], [b'1', 0xE8, 0x03, 0, 0]);
        assert_eq!((record.count, &record.bitfields[..3]), (3, &bitfields[..]));
        assert_eq!(record.slots[8..16], [0x44, 0xD6, 0x12, 0, 0, 0, 0, 0]);
        assert_eq!(record.slots[27..35], *b"MSFT\0\0\0\0");
        assert_eq!(record.slots[43..48], *b"PR\0\0\0");
        assert_eq!(record.slots[48..64], *b"DEFG\0\0\0\0\0\0\0\0\0\0\0\0");
        // Nothing else is in it.
        let set = record.bytes().iter().filter(|byte| **byte != 0).count();
        assert_eq!(set, 2 + 6 + 3 + 1 + 3 + 3 + 4 + 2 + 4);
    }

    #[test]
    fn p6_to_p10() {
        assert_eq!(refusal(0, &examples::new_order_of_the_notes()), 6);
        let cancel = record_of(0, &examples::cancel());
        assert_eq!(examples::cancel().len(), 36);
        assert_eq!((cancel.count, cancel.bitfields[0]), (1, 1));
        assert_eq!(cancel.slots[..4], *b"TEST");
        let least = record_of(0, &examples::cancel_without_bitfields());
        assert_eq!(examples::cancel_without_bitfields().len(), 31);
        assert_eq!((least.count, least.fixed), (0, cancel.fixed));
        assert_eq!(least.slots, [0; SLOTS]);
        assert_eq!(refusal(0, &examples::cancel_of_another_bit()), 8);
        assert_eq!(refusal(0, &examples::cancel_of_three_bitfields()), 7);
    }

    /// Document 002's example and its record: the dictionary of an options market takes it, the other does
    /// not.
    #[test]
    fn options_order() {
        let example = examples::options_order();
        let record = record_of(2, &example);
        assert_eq!((record.type_byte, record.unit, record.number), (0xB8, 0, 1));
        assert_eq!(record.fixed[..6], *b"ABC123");
        assert_eq!(record.fixed[20..25], [b'1', 10, 0, 0, 0]);
        assert_eq!(
            (record.count, &record.bitfields[..4]),
            (4, &[0x04, 0xC1, 0x01, 0x17][..])
        );
        assert_eq!(record.slots[8..16], [0x70, 0x17, 0, 0, 0, 0, 0, 0]);
        assert_eq!(record.slots[27..37], *b"MSFT\0\0\0\0CR");
        assert_eq!(record.slots[40..44], *b"DEFG");
        assert_eq!(record.slots[56..60], 20_110_319_u32.to_le_bytes());
        assert_eq!(record.slots[60..68], 175_000_u64.to_le_bytes());
        assert_eq!(record.slots[68..70], *b"1O");
        let set = record.bytes().iter().filter(|byte| **byte != 0).count();
        assert_eq!(set, 2 + 6 + 2 + 1 + 4 + 2 + 4 + 2 + 4 + 4 + 3 + 2);
        assert_eq!(message(0, &example), Err(Refusal::Bit(39)));
        for direction in [1, 3, 255] {
            assert_eq!(message(direction, &example), Err(Refusal::Type));
        }
        let mut recorded = example;
        recorded[4] = 0xB8;
        for direction in 0..=255 {
            assert_eq!(message(direction, &recorded), Err(Refusal::Type));
        }
    }

    #[test]
    fn maturities() {
        for (maturity, good) in [
            (20_110_319_u32, true),
            (20_240_229, true),
            (19_700_101, true),
            (20_991_231, true),
            (20_110_229, false),
            (0, false),
            (21_000_101, false),
            (19_691_231, false),
            (u32::MAX, false),
        ] {
            let mut order = examples::options_order();
            order[77..81].copy_from_slice(&maturity.to_le_bytes());
            match good {
                true => assert_eq!(record_of(2, &order).slots[56..60], order[77..81]),
                false => assert_eq!(message(2, &order), Err(Refusal::Value(77))),
            }
        }
        // No one of the four is required.
        let mut order = examples::options_order();
        order[39] = 0;
        order.truncate(77);
        measure(&mut order);
        assert_eq!(refusal(2, &order), 0);
        assert_eq!(refusal(0, &order), 0);
    }

    /// What both dictionaries list is alike in both directions, and what one of them lists is 8 in the
    /// other.
    #[test]
    fn bits_of_one_market() {
        let equities = examples::new_order();
        for (direction, record_type) in [(0, 0x38), (2, 0xB8)] {
            let record = record_of(direction, &equities);
            assert_eq!(record.type_byte, record_type);
        }
        let mut suffixed = [&equities[..55], &[0; 8], &equities[55..]].concat();
        suffixed[37] = 0xC3;
        measure(&mut suffixed);
        assert_eq!(refusal(0, &suffixed), 0);
        assert_eq!(message(2, &suffixed), Err(Refusal::Bit(37)));
        for (place, bits) in [(38, 0xFE), (39, 0xE8), (40, 0xFF), (41, 0xFF), (45, 0xFF)] {
            for bit in (0..8)
                .map(|shift| 1_u8 << shift)
                .filter(|bit| bits & bit != 0)
            {
                let mut order = examples::options_order();
                order[35] = 10;
                order.splice(40..40, [0; 6]);
                order[place] |= bit;
                measure(&mut order);
                assert_eq!(message(2, &order), Err(Refusal::Bit(place)));
            }
        }
    }

    /// What both markets' members send alike.
    #[test]
    fn both_members() {
        for example in [
            examples::cancel(),
            examples::modify(),
            examples::purge_by_ids_with_its_length(),
            examples::login(),
            examples::client_heartbeat(),
        ] {
            let record = message(0, &example).unwrap();
            assert_eq!(message(2, &example), Ok(record));
            let mut bad = example.clone();
            bad[5] = 1;
            assert_eq!(refusal(2, &bad), 5);
            bad.push(0);
            measure(&mut bad);
            bad[5] = 0;
            assert_eq!(message(2, &bad), message(0, &bad));
        }
        for example in [examples::acknowledgment(), examples::logout()] {
            assert_eq!(refusal(2, &example), 4);
        }
    }

    /// The New Order example with bytes changed.
    fn changed(changes: &[(usize, u8)]) -> Refusal {
        let mut example = examples::new_order();
        for (place, byte) in changes {
            example[*place] = *byte;
        }
        message(0, &example).unwrap_err()
    }

    #[test]
    fn places_of_the_example() {
        assert_eq!(changed(&[(2, 0x49)]), Refusal::Total(75));
        assert_eq!(changed(&[(35, 0x0B)]), Refusal::Count(35));
        assert_eq!(changed(&[(37, 0xC9)]), Refusal::Bit(37));
        assert_eq!(changed(&[(37, 0xC0)]), Refusal::Missing(38));
        assert_eq!(changed(&[(60, 0x07)]), Refusal::Value(60));
        assert_eq!(changed(&[(75, 0x07)]), Refusal::Value(60));
        assert_eq!(changed(&[(30, 0)]), Refusal::Value(30));
        assert_eq!(changed(&[(30, 0), (60, 0x07)]), Refusal::Value(30));
        assert_eq!(changed(&[(31, 0), (32, 0)]), Refusal::Value(31));
        assert_eq!(changed(&[(29, 1), (30, 0), (33, 255)]), Refusal::Value(10));
        // The first bad bitfield, and the end that the header tells.
        assert_eq!(changed(&[(37, 0x0C), (38, 2)]), Refusal::Bit(37));
        assert_eq!(changed(&[(37, 0), (38, 2)]), Refusal::Bit(38));
        assert_eq!(changed(&[(35, 0), (2, 34)]), Refusal::Missing(35));
        assert_eq!(changed(&[(35, 1), (2, 50)]), Refusal::Missing(36));
        assert_eq!(changed(&[(2, 8)]), Refusal::Total(10));
        assert_eq!(changed(&[(2, 33)]), Refusal::Total(35));
        assert_eq!(changed(&[(2, 34)]), Refusal::Total(36));
        assert_eq!(changed(&[(2, 36)]), Refusal::Total(38));
        assert_eq!(changed(&[(2, 37)]), Refusal::Total(39));
    }

    #[test]
    fn examples_of_the_venue() {
        let record = record_of(1, &examples::acknowledgment());
        assert_eq!((record.unit, record.number, record.count), (3, 100, 3));
        assert_eq!(record.fixed[8..14], *b"ABC123");
        assert_eq!(record.bitfields[..3], [0, 0x41, 0x05]);
        assert_eq!(record.slots[16..20], *b"MSFT");
        assert_eq!(record.slots[32], b'P');
        assert_eq!(record.slots[33..36], *b"ABC");
        let least = record_of(1, &examples::least_acknowledgment());
        assert_eq!((least.count, least.fixed), (0, record.fixed));
        let booked = record_of(1, &examples::booked_acknowledgment());
        assert_eq!(booked.slots[1..4], [0x44, 0xD6, 0x12]);
        let execution = record_of(1, &examples::execution());
        assert_eq!(execution.fixed[52..58], *b"A\0BATS");
        assert_eq!(execution.bitfields[..3], [0, 0, 0x46]);
        assert_eq!(execution.slots[49..57], *b"TEST123C");
        assert_eq!(execution.slots[61..65], [120, 0, 0, 0]);
        let rejected = record_of(1, &examples::order_rejected());
        assert_eq!((rejected.unit, rejected.number, rejected.count), (0, 0, 3));
        assert_eq!(rejected.fixed[8..14], *b"ABC123");
        assert_eq!(rejected.fixed[28..46], *b"DDuplicate ClOrdID");
        assert_eq!(rejected.slots[24..28], *b"MSFT");
        assert_eq!(rejected.slots[57..61], *b"TEST");
        for (example, text) in [
            (examples::cancel_rejected(), &b"JTOO LATE\0"[..]),
            (examples::modify_rejected(), b"PPending\0"),
        ] {
            let rejected = record_of(1, &example);
            assert_eq!((rejected.count, rejected.slots), (0, [0; SLOTS]));
            assert_eq!(&rejected.fixed[28..28 + text.len()], text);
        }
    }

    /// A New Order whose parts after the fixed one are `tail`; an identifier may start with any
    /// byte.
    fn order(unit: u8, first: u8, tail: &[u8]) -> Vec<u8> {
        let mut message = vec![0xBA, 0xBA, 0, 0, 0x38, unit, 1, 0, 0, 0, first];
        message.extend([0; 19]);
        message.extend([b'1', 1, 0, 0, 0]);
        message.extend(tail);
        measure(&mut message);
        message
    }

    /// One fault after another is taken away, and the next in the order is told.
    #[test]
    fn order_of_reading() {
        let mut bad = order(1, b',', &[]);
        bad.truncate(34);
        bad[1] = 0xAB;
        bad[2..4].copy_from_slice(&[0xFF, 0x07]);
        assert_eq!(refusal(1, &bad), 1);
        bad[1] = 0xBA;
        assert_eq!(refusal(1, &bad), 2);
        bad[2..4].copy_from_slice(&[33, 0]);
        assert_eq!(refusal(1, &bad), 3);
        bad[2..4].copy_from_slice(&[32, 0]);
        assert_eq!(refusal(1, &bad), 4);
        assert_eq!(refusal(3, &bad), 4);
        assert_eq!(refusal(2, &bad), 5);
        assert_eq!(refusal(0, &bad), 5);
        bad[5] = 0;
        assert_eq!(refusal(0, &bad), 6);

        assert_eq!(refusal(0, &order(0, b',', &[])), 6);
        assert_eq!(refusal(0, &order(0, b',', &[11])), 7);
        assert_eq!(refusal(0, &order(0, b',', &[255])), 7);
        assert_eq!(refusal(0, &order(0, b',', &[10])), 6);
        assert_eq!(refusal(0, &order(0, b',', &[3, 0, 4])), 6);
        assert_eq!(refusal(0, &order(0, b',', &[2, 0, 4])), 8);
        assert_eq!(refusal(0, &order(0, b',', &[2, 4, 0x40])), 9);
        assert_eq!(refusal(0, &order(0, b',', &[0])), 9);
        let mut tail = vec![2, 4, 0x41];
        for _ in 0..17 {
            assert_eq!(refusal(0, &order(0, b',', &tail)), 6);
            tail.push(b'A');
        }
        assert_eq!(refusal(0, &order(0, b',', &tail)), 10);
        assert_eq!(refusal(0, &order(0, 0, &tail)), 10);
        assert_eq!(refusal(0, &order(0, b'A', &tail)), 0);
        tail.push(b'A');
        assert_eq!(refusal(0, &order(0, b',', &tail)), 6);
    }

    /// Unsequenced: unit 0 and number 0, both; and bitfields up to 19.
    #[test]
    fn headers_and_counts_of_rejections() {
        for example in [
            examples::order_rejected(),
            examples::cancel_rejected(),
            examples::modify_rejected(),
        ] {
            for (place, byte) in [(5, 1), (5, 255), (6, 1), (7, 1), (8, 1), (9, 1)] {
                let mut bad = example.clone();
                bad[place] = byte;
                assert_eq!(refusal(1, &bad), 5);
                assert_eq!(refusal(0, &bad), 4);
            }
            let mut message = example[..101].to_vec();
            for count in 0..=19 {
                message[100] = count;
                message.resize(101 + usize::from(count), 0);
                measure(&mut message);
                assert_eq!(record_of(1, &message).count, count);
            }
            message[100] = 20;
            assert_eq!(rules::refusal(super::message(1, &message)), 7);
        }
    }

    /// Trailing zero bitfields stay in the record, with their count.
    #[test]
    fn zero_bitfields_are_kept() {
        let mut fields = vec![b'M'; 17];
        fields[8] = b'A';
        for count in 2..=10 {
            let mut tail = vec![count, 4, 0x41];
            tail.resize(1 + usize::from(count), 0);
            tail.extend(&fields);
            let record = record_of(0, &order(0, b'A', &tail));
            assert_eq!(record.count, count);
            assert_eq!(record.bitfields[..3], [4, 0x41, 0]);
        }
    }

    #[test]
    fn bytes_after_the_message_play_no_part() {
        let whole = examples::execution();
        let record = record_of(1, &whole);
        for more in [vec![0], vec![0xBA], whole.clone()] {
            let mut buffer = whole.clone();
            buffer.extend(more);
            assert_eq!(record_of(1, &buffer), record);
        }
    }

    /// A record's buffer must have the bytes of the message's type, which is judged after the message.
    #[test]
    fn buffers() {
        for (direction, example, own) in [
            (0, examples::new_order(), 291),
            (1, examples::execution(), 291),
            (1, examples::cancel_rejected(), 291),
            (0, examples::client_heartbeat(), 439),
            (1, examples::logout_with_its_length(), 439),
            (2, examples::options_order(), 291),
        ] {
            let record = message(direction, &example).unwrap();
            let mut bad = example.clone();
            bad[5] = 200;
            for size in 0..500 {
                let before = vec![0xEE; size];
                let mut buffer = before.clone();
                assert_eq!(
                    into(way_back(direction), &example, &mut buffer),
                    Err(Refusal::Type)
                );
                assert_eq!(into(direction, &bad, &mut buffer), Err(Refusal::Unit));
                assert_eq!(buffer, before);
                let answer = rules::refusal(into(direction, &example, &mut buffer));
                assert_eq!(answer, if size < own { 13 } else { 0 });
                if answer == 0 {
                    assert_eq!(buffer[..own], record);
                    assert_eq!(buffer[own..], before[own..]);
                } else {
                    assert_eq!(buffer, before);
                }
            }
        }
    }

    /// The venue's identifier is judged like the member's, its other texts may be blank, and its
    /// reserved byte may be any.
    #[test]
    fn values_of_the_venue() {
        for (example, reserved) in [
            (examples::acknowledgment(), 46),
            (examples::execution(), 68),
            (examples::order_rejected(), 99),
            (examples::cancel_rejected(), 99),
            (examples::modify_rejected(), 99),
        ] {
            for byte in 0..=255 {
                let mut other = example.clone();
                other[reserved] = byte;
                let record = record_of(1, &other);
                assert_eq!(record.fixed[reserved - 10], byte);
            }
            for bad in [0, b' ', b'@', 127] {
                let mut other = example.clone();
                other[18] = bad;
                assert_eq!(refusal(1, &other), 10);
            }
            let mut blank = example.clone();
            blank[18..38].fill(0);
            assert_eq!(refusal(1, &blank), 10);
        }
        for example in [
            examples::order_rejected(),
            examples::cancel_rejected(),
            examples::modify_rejected(),
        ] {
            let mut blank = example.clone();
            blank[38..99].fill(0);
            assert_eq!(refusal(1, &blank), 0);
            for place in [38, 39, 98] {
                for bad in [31, 127] {
                    let mut other = example.clone();
                    other[place] = bad;
                    let place = if place == 38 { 38 } else { 39 };
                    assert_eq!(message(1, &other), Err(Refusal::Value(place)));
                }
            }
        }
        let mut execution = examples::execution();
        execution[62..68].fill(0);
        assert_eq!(refusal(1, &execution), 0);
        for place in 62..65 {
            let mut bad = execution.clone();
            bad[place] = b'!';
            assert_eq!(refusal(1, &bad), 10);
        }
    }
}
