//! Framing and the header (document 01, "Wire basics" and "Numbers of refusal").

use super::number;
use super::Refusal;

/// Both bytes that begin a message.
const START: u8 = 0xBA;
/// The least length that covers the header: 2 of length, 1 type, 1 unit, 4 number.
const LEAST_LENGTH: u64 = 8;
const GREATEST_LENGTH: u64 = 2046;
/// The length does not count the two start bytes.
const UNCOUNTED: u64 = 2;
/// The bytes of a header.
pub const HEADER: usize = 10;

pub struct Header {
    pub type_byte: u8,
    pub unit: u8,
    pub number: u32,
}

/// The first whole message of a buffer. The order is 1, 2, 3: a wrong start is told as soon as one
/// of its bytes is there, a wrong length as soon as its field is there.
pub fn message(buffer: &[u8]) -> Result<&[u8], Refusal> {
    for place in 0..2 {
        if place < buffer.len() && buffer[place] != START {
            return Err(Refusal::Start);
        }
    }
    if buffer.len() < 4 {
        return Err(Refusal::Partial);
    }
    let length = number::get(buffer, 2, 2);
    if !(LEAST_LENGTH..=GREATEST_LENGTH).contains(&length) {
        return Err(Refusal::Length);
    }
    let total = (length + UNCOUNTED) as usize;
    if buffer.len() < total {
        return Err(Refusal::Partial);
    }
    Ok(&buffer[..total])
}

/// The parts of the header of a whole message, which has at least ten bytes.
pub fn header(message: &[u8]) -> Header {
    Header {
        type_byte: message[4],
        unit: message[5],
        number: number::get(message, 6, 4) as u32,
    }
}

/// The message of a header and of what follows it, at most as much as a length can say.
pub fn put_together(header: &Header, rest: &[u8]) -> Vec<u8> {
    let length = (HEADER + rest.len()) as u16 - UNCOUNTED as u16;
    let mut message = vec![START, START];
    message.extend(length.to_le_bytes());
    message.extend([header.type_byte, header.unit]);
    message.extend(header.number.to_le_bytes());
    message.extend(rest);
    message
}

#[cfg(test)]
mod tests {
    use super::*;
    use crate::rules;

    fn refusal(buffer: &[u8]) -> u8 {
        rules::refusal(message(buffer))
    }

    #[test]
    fn p13() {
        assert_eq!(refusal(&[]), 3);
        assert_eq!(refusal(&[0xBA, 0x00]), 1);
    }

    #[test]
    fn starts() {
        assert_eq!(refusal(&[0xBA]), 3);
        assert_eq!(refusal(&[0xBB]), 1);
        assert_eq!(refusal(&[0xBA, 0xBA]), 3);
        assert_eq!(refusal(&[0xBA, 0xBA, 0x00]), 3);
        assert_eq!(refusal(&[0x00, 0xBA, 0x07, 0x00]), 1);
        assert_eq!(refusal(&[0xBA, 0xBA, 0x07, 0x00]), 2);
        assert_eq!(refusal(&[0xBA, 0xBA, 0x08, 0x00]), 3);
        assert_eq!(refusal(&[0xBA, 0xBA, 0xFE, 0x07]), 3);
        assert_eq!(refusal(&[0xBA, 0xBA, 0xFF, 0x07]), 2);
        assert_eq!(refusal(&[0xBA, 0xBA, 0x00, 0x08]), 2);
    }

    #[test]
    fn bytes_after_the_message_play_no_part() {
        let buffer = [0xBA, 0xBA, 8, 0, 0x25, 3, 1, 2, 3, 4, 99, 98];
        assert_eq!(refusal(&buffer[..9]), 3);
        for end in 10..=12 {
            let whole = message(&buffer[..end]).unwrap();
            assert_eq!(whole, &buffer[..10]);
            let parts = header(whole);
            assert_eq!(
                (parts.type_byte, parts.unit, parts.number),
                (0x25, 3, 0x04030201)
            );
            assert_eq!(put_together(&parts, &[]), whole);
        }
    }

    #[test]
    fn longest_message() {
        let mut buffer = vec![0; 2049];
        buffer[..4].copy_from_slice(&[0xBA, 0xBA, 0xFE, 0x07]);
        assert_eq!(refusal(&buffer[..2047]), 3);
        assert_eq!(message(&buffer[..2048]).unwrap().len(), 2048);
        assert_eq!(message(&buffer).unwrap().len(), 2048);
        buffer[2] = 0xFF;
        assert_eq!(refusal(&buffer), 2);
    }
}
