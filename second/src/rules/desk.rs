//! What the desk gets of a message from the venue (document 02, request 2).

use super::book::BOOKED;
use super::types::{CANCEL_REJECTED, MODIFY_REJECTED, ORDER_REJECTED};

/// The unsequenced application messages.
pub const HANDED: [u8; 3] = [ORDER_REJECTED, CANCEL_REJECTED, MODIFY_REJECTED];

#[derive(Clone, Copy, Debug, PartialEq, Eq)]
pub enum Told {
    /// Nothing is for the desk.
    Nothing = 0,
    /// The message is in the book.
    Booked = 1,
    /// The message is handed to the desk, and neither booked nor counted.
    Handed = 2,
}

impl Told {
    /// Of a message of a type that a running session accepts.
    pub fn of(type_byte: u8) -> Told {
        if BOOKED.contains(&type_byte) {
            Told::Booked
        } else if HANDED.contains(&type_byte) {
            Told::Handed
        } else {
            Told::Nothing
        }
    }
}

#[cfg(test)]
mod tests {
    use super::*;

    /// Table 76: of its application messages that are known here.
    #[test]
    fn every_type() {
        for type_byte in 0..=255 {
            let expected = match type_byte {
                0x25 | 0x2C => Told::Booked,
                0x26 | 0x29 | 0x2B => Told::Handed,
                _ => Told::Nothing,
            };
            assert_eq!(Told::of(type_byte), expected, "{:02X}", type_byte);
        }
    }
}
