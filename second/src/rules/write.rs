//! Writing a record (document 01, "Numbers of refusal", the writing order; README.md for what comes
//! before it).

use super::frame::{self, Header};
use super::kinds;
use super::layout::{Layout, Place};
use super::record::{Record, BODY_PLACE, SESSION_SIZE, SIZE};
use super::session::Session;
use super::{check, Refusal};

/// Writes the record that `record` begins with to the start of `buffer`. Only the bytes of the
/// message change, and none if it is refused. Without a type byte there is nothing to judge; the
/// type says how many bytes its record has.
pub fn record(direction: u8, record: &[u8], buffer: &mut [u8]) -> Result<(), Refusal> {
    let type_byte = *record.first().ok_or(Refusal::Room)?;
    let message = match Session::of(direction, type_byte) {
        Some(session) => {
            check(record.len() >= SESSION_SIZE, Refusal::Room)?;
            session.write(record)?
        }
        None => {
            let layout = Layout::of_record(direction, type_byte)?;
            check(record.len() >= SIZE, Refusal::Room)?;
            with_bitfields(layout, &Record::of_bytes(record))?
        }
    };
    check(buffer.len() >= message.len(), Refusal::Room)?;
    buffer[..message.len()].copy_from_slice(&message);
    Ok(())
}

/// Writes the session message of a type and a body in the same way. The body is no longer than a
/// record's.
pub fn session(
    direction: u8,
    type_byte: u8,
    body: &[u8],
    buffer: &mut [u8],
) -> Result<(), Refusal> {
    let mut bytes = vec![type_byte];
    bytes.resize(BODY_PLACE, 0);
    bytes.extend(body);
    bytes.resize(SESSION_SIZE, 0);
    record(direction, &bytes, buffer)
}

/// The message of a record with bitfields.
fn with_bitfields(layout: &Layout, record: &Record) -> Result<Vec<u8>, Refusal> {
    layout.check_header(record.unit, record.number)?;
    layout.check_count(record.count)?;
    let count = usize::from(record.count);
    // The places past the count are no bitfields: what stands there is judged with the unused, and so
    // is what follows the fixed part and the middle.
    let bitfields = &record.bitfields[..count];
    layout.check_bits(bitfields)?;
    layout.check_required(bitfields)?;

    let (fixed, rest) = record.fixed.split_at(layout.fixed_width());
    let width = layout.middle.width(rest);
    let mut fields = Vec::new();
    for place in layout.places(bitfields, width) {
        let value = &record.slots[place.slot..place.slot + place.field.width];
        fields.push((place, value));
    }
    layout.check_values(fixed, bitfields, rest, &fields)?;
    let (middle, unused) = rest.split_at(width);
    let zero = kinds::blank(unused)
        && kinds::blank(&record.bitfields[count..])
        && unselected_is_zero(record, &fields);
    check(zero, Refusal::Unused)?;

    let header = Header {
        type_byte: layout.type_byte,
        unit: record.unit,
        number: record.number,
    };
    let mut body = fixed.to_vec();
    body.push(record.count);
    body.extend(bitfields);
    body.extend(middle);
    for (_, value) in &fields {
        body.extend(*value);
    }
    Ok(frame::put_together(&header, &body))
}

/// Whether every slot is zero that is not selected or belongs to no field.
fn unselected_is_zero(record: &Record, fields: &[(Place, &[u8])]) -> bool {
    let mut slots = record.slots;
    for (place, value) in fields {
        slots[place.slot..place.slot + value.len()].fill(0);
    }
    kinds::blank(&slots)
}

#[cfg(test)]
mod tests {
    use super::*;
    use crate::examples;
    use crate::questions::parts::way_back;
    use crate::rules::{self, read};

    fn record_of(direction: u8, message: &[u8]) -> Vec<u8> {
        read::message(direction, message).unwrap()
    }

    fn refusal(direction: u8, bytes: &[u8], buffer: &mut [u8]) -> u8 {
        rules::refusal(record(direction, bytes, buffer))
    }

    #[test]
    fn examples_come_back() {
        for (direction, message) in [
            (0, examples::new_order()),
            (0, examples::cancel()),
            (0, examples::cancel_without_bitfields()),
            (1, examples::acknowledgment()),
            (1, examples::least_acknowledgment()),
            (1, examples::booked_acknowledgment()),
            (1, examples::execution()),
            (1, examples::order_rejected()),
            (1, examples::cancel_rejected()),
            (1, examples::modify_rejected()),
            (0, examples::login()),
            (0, examples::options_login()),
            (0, examples::client_heartbeat()),
            (1, examples::login_response_of_the_notes()),
            (1, examples::logout_with_its_length()),
            (1, examples::server_heartbeat()),
            (1, examples::replay_complete()),
            (2, examples::options_order()),
            (2, examples::new_order()),
            (2, examples::cancel()),
            (2, examples::modify()),
            (2, examples::purge_by_symbol_with_its_length()),
            (2, examples::options_login()),
            (2, examples::client_heartbeat()),
        ] {
            let bytes = record_of(direction, &message);
            let total = message.len();
            let mut buffer = vec![0xEE; total + 2];
            assert_eq!(refusal(direction, &bytes, &mut buffer[..total - 1]), 13);
            assert_eq!(buffer, vec![0xEE; total + 2]);
            assert_eq!(refusal(direction, &bytes, &mut buffer), 0);
            assert_eq!(buffer[..total], message);
            assert_eq!(buffer[total..], [0xEE; 2]);
            assert_eq!(refusal(direction, &bytes, &mut buffer[..total]), 0);
        }
    }

    /// One fault after another is taken away, and the next in the order is told.
    #[test]
    fn order_of_writing() {
        let good = record_of(0, &examples::new_order());
        let mut bad = good.clone();
        let mut buffer = [0xEE; 75];
        bad[1] = 1;
        bad[6] = b',';
        bad[96] = 11;
        bad[98] = 0xC4;
        bad[115] = 0x80;
        for direction in [1, 2, 3] {
            assert_eq!(refusal(direction, &[], &mut buffer), 13);
            assert_eq!(refusal(direction, &bad[..1], &mut buffer), 4);
            assert_eq!(refusal(direction, &bad, &mut buffer), 4);
        }
        assert_eq!(refusal(0, &bad[..1], &mut buffer), 13);
        assert_eq!(refusal(0, &bad[..290], &mut buffer), 13);
        assert_eq!(refusal(0, &bad, &mut buffer), 5);
        bad[1] = 0;
        assert_eq!(refusal(0, &bad, &mut buffer), 7);
        bad[96] = 3;
        assert_eq!(refusal(0, &bad, &mut buffer), 8);
        bad[98] = 0xC0;
        assert_eq!(refusal(0, &bad, &mut buffer), 9);
        bad[98] = 0xC1;
        assert_eq!(refusal(0, &bad, &mut buffer), 10);
        bad[6] = b'A';
        assert_eq!(refusal(0, &bad, &mut buffer), 12);
        bad[115] = 0;
        assert_eq!(bad, good);
        assert_eq!(refusal(0, &bad, &mut buffer), 13);
        assert_eq!(buffer, [0xEE; 75]);
        let mut buffer = [0xEE; 76];
        assert_eq!(refusal(0, &bad, &mut buffer), 0);
        assert_eq!(buffer[..], examples::new_order());
    }

    /// The places are those of the message that would be written: Symbol's slot is at 116 + 27 of
    /// the record, and with OrdType for Price it stands seven bytes earlier in the message.
    #[test]
    fn places_of_the_example() {
        let good = record_of(0, &examples::new_order());
        let changed = |changes: &[(usize, u8)]| {
            let mut bad = good.clone();
            for (place, byte) in changes {
                bad[*place] = *byte;
            }
            record(0, &bad, &mut []).unwrap_err()
        };
        assert_eq!(changed(&[(143, 0x2D)]), Refusal::Value(47));
        assert_eq!(changed(&[(97, 16), (143, 0x2D)]), Refusal::Value(40));
        assert_eq!(changed(&[(97, 16), (133, 7)]), Refusal::Value(39));
        assert_eq!(changed(&[(96, 4), (143, 0x2D)]), Refusal::Value(48));
        assert_eq!(changed(&[(26, 0), (143, 0x2D)]), Refusal::Value(30));
        assert_eq!(changed(&[(27, 0), (28, 0)]), Refusal::Value(31));
        assert_eq!(changed(&[(179, 7)]), Refusal::Value(60));
        assert_eq!(changed(&[(96, 11)]), Refusal::Count(35));
        assert_eq!(changed(&[(98, 0xC9)]), Refusal::Bit(37));
        assert_eq!(changed(&[(98, 0xC0)]), Refusal::Missing(38));
        assert_eq!(changed(&[(96, 0)]), Refusal::Missing(35));
        assert_eq!(changed(&[(290, 1)]), Refusal::Unused);
    }

    /// A record tells its own dictionary: it is written in its own market alone, and on the wire its type
    /// is that of a New Order.
    #[test]
    fn options_records() {
        let record_of_options = record_of(2, &examples::options_order());
        let other = record_of(0, &examples::new_order());
        for (bytes, own) in [(&record_of_options, 2), (&other, 0)] {
            for direction in 0..=255 {
                let mut buffer = [0xEE; 91];
                let expected = if direction == own { 0 } else { 4 };
                assert_eq!(refusal(direction, bytes, &mut buffer), expected);
                assert_eq!(buffer[4], if direction == own { 0x38 } else { 0xEE });
            }
        }
        // The other market's type over the same record: its bits, not its type, are then refused.
        let mut taken = record_of_options.clone();
        taken[0] = 0x38;
        assert_eq!(record(0, &taken, &mut []), Err(Refusal::Bit(39)));
        let changed = |changes: &[(usize, u8)]| {
            let mut bad = record_of_options.clone();
            for (place, byte) in changes {
                bad[*place] = *byte;
            }
            record(2, &bad, &mut [])
        };
        assert_eq!(changed(&[]), Err(Refusal::Room));
        assert_eq!(changed(&[(98, 0xC3)]), Err(Refusal::Bit(37)));
        assert_eq!(changed(&[(98, 0xC0)]), Err(Refusal::Missing(39)));
        assert_eq!(changed(&[(172, 0xE0)]), Err(Refusal::Room));
        assert_eq!(changed(&[(172, 0)]), Err(Refusal::Value(77)));
        assert_eq!(changed(&[(97, 20), (172, 0)]), Err(Refusal::Value(78)));
        assert_eq!(changed(&[(100, 0x16)]), Err(Refusal::Unused));
        assert_eq!(changed(&[(186, 1)]), Err(Refusal::Unused));
        assert_eq!(changed(&[(184, b'-')]), Err(Refusal::Value(89)));
    }

    /// Every place of a record that P5 does not use must be zero, and no other place gives 12.
    #[test]
    fn unused_places() {
        let good = record_of(0, &examples::new_order());
        let used = [
            0..31,
            96..100,
            116 + 8..116 + 16,
            116 + 27..116 + 35,
            116 + 43..116 + 64,
        ];
        for place in 0..SIZE {
            let mut bad = good.clone();
            bad[place] ^= 0x40;
            let unused = !used.iter().any(|range| range.contains(&place));
            let answer = refusal(0, &bad, &mut [0; 76]);
            assert_eq!(answer == 12, unused, "{} {}", place, answer);
        }
    }

    /// A record must have all bytes of its own type's; what follows them plays no part. The types
    /// that a direction does not have are told however short the record is.
    #[test]
    fn shorter_and_longer_records() {
        for (direction, message, own) in [
            (0, examples::new_order(), 291),
            (0, examples::cancel(), 291),
            (1, examples::acknowledgment(), 291),
            (1, examples::execution(), 291),
            (1, examples::order_rejected(), 291),
            (1, examples::cancel_rejected(), 291),
            (1, examples::modify_rejected(), 291),
            (0, examples::options_login(), 439),
            (0, examples::client_heartbeat(), 439),
            (1, examples::login_response_of_the_notes(), 439),
            (1, examples::logout_with_its_length(), 439),
            (1, examples::server_heartbeat(), 439),
            (1, examples::replay_complete(), 439),
            (2, examples::options_order(), 291),
        ] {
            let mut longer = record_of(direction, &message);
            longer.resize(500, 7);
            for size in 0..longer.len() {
                let mut buffer = vec![0xEE; message.len()];
                for other in [way_back(direction), 3, 255] {
                    let expected = if size == 0 { 13 } else { 4 };
                    assert_eq!(refusal(other, &longer[..size], &mut buffer), expected);
                }
                assert_eq!(buffer, vec![0xEE; message.len()]);
                let expected = if size < own { 13 } else { 0 };
                let answer = refusal(direction, &longer[..size], &mut buffer);
                assert_eq!(answer, expected, "{} bytes of {:02X}", size, message[4]);
                assert_eq!(buffer == message, size >= own);
            }
        }
    }
}
