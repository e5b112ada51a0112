//! Unit pairs and parameter groups (document 01, "The bit dictionary", at Login Request). All that
//! is against their rules is 11, also where a list or a group goes past the end of its bytes.

use super::number;
use super::table::UNITS;
use super::types;
use super::{check, Refusal};

/// A group of unit pairs, and one of the bitfields that a message type is to have.
pub const UNIT_SEQUENCES: u8 = 0x80;
pub const RETURN_BITFIELDS: u8 = 0x81;
/// The message types that bitfields may be asked for.
pub const RETURNED: [u8; 2] = [types::ACKNOWLEDGMENT, types::EXECUTION];
pub const MOST_BITFIELDS: u8 = 15;
/// A unit (1) and a number (4).
pub const PAIR: usize = 5;

/// The bytes that are still to be read.
pub struct Rest<'a> {
    bytes: &'a [u8],
}

impl<'a> Rest<'a> {
    pub fn new(bytes: &'a [u8]) -> Rest<'a> {
        Rest { bytes }
    }

    pub fn bytes(&self) -> &'a [u8] {
        self.bytes
    }

    fn take(&mut self, count: usize) -> Result<&'a [u8], Refusal> {
        check(count <= self.bytes.len(), Refusal::Group)?;
        let (taken, rest) = self.bytes.split_at(count);
        self.bytes = rest;
        Ok(taken)
    }

    fn byte(&mut self) -> Result<u8, Refusal> {
        Ok(self.take(1)?[0])
    }

    /// The number of units and as many pairs: units 1 to 32, none of them twice.
    pub fn pairs(&mut self) -> Result<(), Refusal> {
        let count = self.byte()?;
        check(count <= UNITS, Refusal::Group)?;
        let mut seen = Vec::new();
        for pair in self.take(PAIR * usize::from(count))?.chunks(PAIR) {
            let unit = pair[0];
            check((1..=UNITS).contains(&unit), Refusal::Group)?;
            check(!seen.contains(&unit), Refusal::Group)?;
            seen.push(unit);
        }
        Ok(())
    }

    /// The number of groups and as many groups, in any order, no two of them alike.
    pub fn groups(&mut self) -> Result<(), Refusal> {
        let count = self.byte()?;
        let mut seen = Vec::new();
        for _ in 0..count {
            let name = self.group()?;
            check(!seen.contains(&name), Refusal::Group)?;
            seen.push(name);
        }
        Ok(())
    }

    /// One group, whose length counts all its bytes. It is named by its type, and by the message
    /// type if it has one.
    fn group(&mut self) -> Result<(u8, Option<u8>), Refusal> {
        let before = self.bytes.len();
        let length = number::get(self.take(2)?, 0, 2) as usize;
        let name = match self.byte()? {
            UNIT_SEQUENCES => {
                check_flag(self.byte()?)?;
                self.pairs()?;
                (UNIT_SEQUENCES, None)
            }
            RETURN_BITFIELDS => {
                let returned = self.byte()?;
                check(RETURNED.contains(&returned), Refusal::Group)?;
                let count = self.byte()?;
                check(count <= MOST_BITFIELDS, Refusal::Group)?;
                self.take(usize::from(count))?;
                (RETURN_BITFIELDS, Some(returned))
            }
            _ => return Err(Refusal::Group),
        };
        check(length == before - self.bytes.len(), Refusal::Group)?;
        Ok(name)
    }
}

/// Whether unlisted units are left out of the replay.
pub fn check_flag(flag: u8) -> Result<(), Refusal> {
    check(flag <= 1, Refusal::Group)
}

#[cfg(test)]
mod tests {
    use super::*;

    /// The bytes left after the pairs, or the refusal.
    fn pairs(bytes: &[u8]) -> Result<usize, Refusal> {
        let mut rest = Rest::new(bytes);
        rest.pairs()?;
        Ok(rest.bytes().len())
    }

    fn groups(bytes: &[u8]) -> Result<usize, Refusal> {
        let mut rest = Rest::new(bytes);
        rest.groups()?;
        Ok(rest.bytes().len())
    }

    const BAD: Result<usize, Refusal> = Err(Refusal::Group);

    #[test]
    fn units() {
        assert_eq!(pairs(&[0]), Ok(0));
        assert_eq!(pairs(&[0, 9]), Ok(1));
        assert_eq!(pairs(&[]), BAD);
        for unit in 0..=255 {
            let good = (1..=32).contains(&unit);
            let answer = pairs(&[1, unit, 255, 255, 255, 255]);
            assert_eq!(answer, if good { Ok(0) } else { BAD });
        }
        let two = [2, 32, 0, 0, 0, 0, 1, 0, 0, 0, 0];
        assert_eq!(pairs(&two), Ok(0));
        for end in 0..two.len() {
            assert_eq!(pairs(&two[..end]), BAD);
        }
        assert_eq!(pairs(&[2, 32, 0, 0, 0, 0, 32, 1, 0, 0, 0]), BAD);
    }

    #[test]
    fn at_most_32_units() {
        let mut list = vec![32];
        for unit in 1..=32 {
            list.extend([unit, 1, 2, 3, 4]);
        }
        assert_eq!(pairs(&list), Ok(0));
        list.extend([7, 1, 2, 3, 4]);
        assert_eq!(pairs(&list), Ok(5));
        list[0] = 33;
        assert_eq!(pairs(&list), BAD);
    }

    #[test]
    fn empty_groups() {
        assert_eq!(groups(&[]), BAD);
        assert_eq!(groups(&[0, 1, 2]), Ok(2));
        assert_eq!(groups(&[1, 5, 0, 0x80, 1, 0]), Ok(0));
        assert_eq!(groups(&[1, 5, 0, 0x80, 0, 0]), Ok(0));
        assert_eq!(groups(&[1, 5, 0, 0x80, 2, 0]), BAD);
        assert_eq!(groups(&[2, 5, 0, 0x80, 1, 0]), BAD);
        assert_eq!(groups(&[1, 5, 0, 0x82, 0, 0]), BAD);
        for length in [0, 4, 6] {
            assert_eq!(groups(&[1, length, 0, 0x80, 1, 0, 0]), BAD);
        }
        assert_eq!(groups(&[1, 5, 1, 0x80, 1, 0]), BAD);
        for returned in 0..=255 {
            let good = returned == 0x25 || returned == 0x2C;
            let answer = groups(&[1, 5, 0, 0x81, returned, 0, 9]);
            assert_eq!(answer, if good { Ok(1) } else { BAD });
        }
    }

    #[test]
    fn at_most_15_bitfields() {
        for count in 0..=20_u8 {
            let mut bytes = vec![1, 5 + count, 0, 0x81, 0x2C, count];
            bytes.extend(vec![0xFF; usize::from(count)]);
            let answer = if count <= 15 { Ok(0) } else { BAD };
            assert_eq!(groups(&bytes), answer);
            assert_eq!(groups(&bytes[..bytes.len() - 1]), BAD);
        }
    }

    #[test]
    fn no_two_alike() {
        let units = [5, 0, 0x80, 1, 0];
        let first = [5, 0, 0x81, 0x25, 0];
        let second = [6, 0, 0x81, 0x2C, 1, 7];
        let all: [&[u8]; 3] = [&units, &first, &second];
        for one in 0..3 {
            for two in 0..3 {
                let bytes = [&[2], all[one], all[two]].concat();
                assert_eq!(groups(&bytes), if one == two { BAD } else { Ok(0) });
                for three in 0..3 {
                    let bytes = [&[3], all[one], all[two], all[three]].concat();
                    let good = one != two && two != three && three != one;
                    assert_eq!(groups(&bytes), if good { Ok(0) } else { BAD });
                    let more = [&[4], &bytes[1..], all[three]].concat();
                    assert_eq!(groups(&more), BAD);
                }
            }
        }
    }
}
