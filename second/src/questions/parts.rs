//! Messages in parts, whether they have bitfields or are of the session: what the questions about
//! reading and writing want of both.

use crate::random::Random;
use crate::rules::types::{MEMBER, VENUE};

/// A number that is no direction.
pub const NO_DIRECTION: u8 = 3;

/// Put together by the places of README.md and not by the reader or the writer.
pub trait Parts: Sized {
    /// Any values and any bits or lists that the rules allow.
    fn any(random: &mut Random, which: usize) -> Self;

    fn direction(&self) -> u8;

    /// Type, unit and number.
    fn header(&self) -> (u8, u8, u32);

    /// The type of the record, where it is not the message's.
    fn record_type(&self) -> u8 {
        self.header().0
    }

    /// What follows the header.
    fn body(&self) -> Vec<u8>;

    /// The record, its own bytes alone; what is past its places is left out.
    fn record(&self) -> Vec<u8>;

    /// A record like this message's in its own bytes or with some after it.
    fn lent(random: &mut Random, record: &[u8]) -> Vec<u8>;

    /// A direction and the bytes of the damaged message, which may still be valid.
    fn damaged(&self, random: &mut Random) -> (u8, Vec<u8>);

    /// A direction, the damaged record and a buffer for its message.
    fn damaged_record(&self, random: &mut Random) -> (u8, Vec<u8>, Vec<u8>);

    /// The message, its length that of its parts.
    fn bytes(&self) -> Vec<u8> {
        let (type_byte, unit, number) = self.header();
        let mut message = vec![0xBA, 0xBA, 0, 0, type_byte, unit];
        message.extend(number.to_le_bytes());
        message.extend(self.body());
        measure(&mut message);
        message
    }

    /// The first six bytes of the record.
    fn record_head(&self) -> Vec<u8> {
        let (_, unit, number) = self.header();
        let mut head = vec![self.record_type(), unit];
        head.extend(number.to_le_bytes());
        head
    }
}

/// The direction that goes the other way, and has none of the same types.
pub fn way_back(direction: u8) -> u8 {
    match direction {
        VENUE => MEMBER,
        _ => VENUE,
    }
}

/// The other directions, and numbers that are none.
pub fn other_directions(own: u8) -> impl Iterator<Item = u8> {
    let all = [0, 1, 2, NO_DIRECTION, 127, 128, 129, 254, 255];
    all.into_iter().filter(move |direction| *direction != own)
}

/// Writes the length field by the bytes there are.
pub fn measure(message: &mut [u8]) {
    if message.len() >= 4 {
        let length = (message.len() - 2) as u16;
        message[2..4].copy_from_slice(&length.to_le_bytes());
    }
}
