//! Records (README.md, "Records"). This is the one of a message with bitfields: the same places for
//! all types.

use super::number;

/// The bytes of each part: as many as the message that has most of them takes.
pub const FIXED: usize = 90;
pub const BITFIELDS: usize = 19;
pub const SLOTS: usize = 175;

const NUMBER_PLACE: usize = 2;
pub const FIXED_PLACE: usize = 6;
pub const COUNT_PLACE: usize = FIXED_PLACE + FIXED;
pub const BITFIELDS_PLACE: usize = COUNT_PLACE + 1;
pub const SLOTS_PLACE: usize = BITFIELDS_PLACE + BITFIELDS;
/// The bytes of the whole record.
pub const SIZE: usize = SLOTS_PLACE + SLOTS;

/// The bytes of a session message's record.
pub const SESSION_SIZE: usize = 439;
/// Where the body of a session message stands in its record.
pub const BODY_PLACE: usize = 6;

#[derive(Clone, Debug, PartialEq, Eq)]
pub struct Record {
    pub type_byte: u8,
    pub unit: u8,
    pub number: u32,
    /// The fixed part, then the middle.
    pub fixed: [u8; FIXED],
    pub count: u8,
    pub bitfields: [u8; BITFIELDS],
    pub slots: [u8; SLOTS],
}

impl Record {
    /// The record that a buffer begins with; the buffer has at least its bytes.
    pub fn of_bytes(bytes: &[u8]) -> Record {
        let mut record = Record {
            type_byte: bytes[0],
            unit: bytes[1],
            number: number::get(bytes, NUMBER_PLACE as u64, 4) as u32,
            fixed: [0; FIXED],
            count: bytes[COUNT_PLACE],
            bitfields: [0; BITFIELDS],
            slots: [0; SLOTS],
        };
        record
            .fixed
            .copy_from_slice(&bytes[FIXED_PLACE..COUNT_PLACE]);
        record
            .bitfields
            .copy_from_slice(&bytes[BITFIELDS_PLACE..SLOTS_PLACE]);
        record.slots.copy_from_slice(&bytes[SLOTS_PLACE..SIZE]);
        record
    }

    pub fn bytes(&self) -> Vec<u8> {
        let mut bytes = vec![self.type_byte, self.unit];
        bytes.extend(self.number.to_le_bytes());
        bytes.extend(self.fixed);
        bytes.push(self.count);
        bytes.extend(self.bitfields);
        bytes.extend(self.slots);
        bytes
    }
}

#[cfg(test)]
mod tests {
    use super::*;

    #[test]
    fn places() {
        let bytes: Vec<u8> = (0..300_u16).map(|place| place as u8).collect();
        let record = Record::of_bytes(&bytes);
        assert_eq!((record.type_byte, record.unit), (0, 1));
        assert_eq!(record.number, 0x05040302);
        assert_eq!((record.fixed[0], record.fixed[89]), (6, 95));
        assert_eq!(record.count, 96);
        assert_eq!((record.bitfields[0], record.bitfields[18]), (97, 115));
        assert_eq!((record.slots[0], record.slots[174]), (116, 290_u16 as u8));
        assert_eq!(record.bytes(), bytes[..291]);
        assert_eq!(SIZE, 291);
    }
}
