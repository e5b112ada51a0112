//! The Login Request of a session (document 01, "The bit dictionary", at Login Request): its unit
//! numbers are those of the table. What is listed given no choice is that of document 02, request 6.

use super::groups::{MOST_BITFIELDS, RETURNED, RETURN_BITFIELDS, UNIT_SEQUENCES};
use super::table::{entry, used, SIZE, UNITS};
use super::types::{self, MEMBER};
use super::write;
use super::Refusal;

const NAMES: usize = 18;
/// The bytes of a group before its list.
const GROUP_HEAD: u16 = 5;

/// The units that are listed with their numbers.
#[derive(Clone, Copy, Debug)]
pub enum Choice {
    /// Given no choice: those that have a number, and the replay of all others from the first message.
    Used,
    /// The first `count` of `units`.
    Listed {
        flag: u8,
        count: u8,
        units: [u8; UNITS as usize],
    },
    /// No group of units at all.
    Without,
}

/// The bitfields that a message type is to have: the first `count` of `bits`.
#[derive(Clone, Copy, Debug)]
pub struct Returned {
    pub count: u8,
    pub bits: [u8; MOST_BITFIELDS as usize],
}

#[derive(Clone, Debug)]
pub struct Login {
    pub choice: Choice,
    /// SessionSubID, Username and Password.
    pub names: [u8; NAMES],
    /// For Order Acknowledgment and for Order Execution.
    pub returned: [Option<Returned>; 2],
}

impl Login {
    /// Writes the Login Request to the start of `buffer`: 10, 11, 13.
    pub fn write(&self, table: &[u8; SIZE], buffer: &mut [u8]) -> Result<(), Refusal> {
        let groups = self.groups(table);
        let mut body = self.names.to_vec();
        body.push(groups.len() as u8);
        body.extend(groups.concat());
        write::session(MEMBER, types::LOGIN_REQUEST, &body, buffer)
    }

    /// The units first. A count past its list stands as it was given, and the writer refuses it.
    fn groups(&self, table: &[u8; SIZE]) -> Vec<Vec<u8>> {
        let mut groups = Vec::new();
        match &self.choice {
            Choice::Used => {
                let units = used(table);
                groups.push(of_units(0, units.len() as u8, &units, table));
            }
            Choice::Listed { flag, count, units } => {
                groups.push(of_units(*flag, *count, units, table));
            }
            Choice::Without => {}
        }
        for (message_type, returned) in RETURNED.into_iter().zip(&self.returned) {
            if let Some(Returned { count, bits }) = returned {
                let list: Vec<u8> = bits.iter().copied().take(usize::from(*count)).collect();
                groups.push(group(RETURN_BITFIELDS, message_type, *count, &list));
            }
        }
        groups
    }
}

fn of_units(flag: u8, count: u8, units: &[u8], table: &[u8; SIZE]) -> Vec<u8> {
    let mut list = Vec::new();
    for unit in units.iter().take(usize::from(count)) {
        list.push(*unit);
        list.extend(entry(table, *unit).to_le_bytes());
    }
    group(UNIT_SEQUENCES, flag, count, &list)
}

fn group(type_byte: u8, choice: u8, count: u8, list: &[u8]) -> Vec<u8> {
    let mut bytes = (GROUP_HEAD + list.len() as u16).to_le_bytes().to_vec();
    bytes.extend([type_byte, choice, count]);
    bytes.extend(list);
    bytes
}

#[cfg(test)]
mod tests {
    use super::*;
    use crate::examples;
    use crate::hex;
    use crate::rules::table::set_entry;
    use crate::rules::{self, read};

    fn login(choice: Choice) -> Login {
        Login {
            choice,
            names: *b"0001TESTTESTING\0\0\0",
            returned: [None, None],
        }
    }

    fn returned(bits: &[u8]) -> Option<Returned> {
        let mut all = [0xEE; 15];
        all[..bits.len()].copy_from_slice(bits);
        Some(Returned {
            count: bits.len() as u8,
            bits: all,
        })
    }

    fn listed(flag: u8, list: &[u8]) -> Choice {
        let mut units = [0xEE; 32];
        units[..list.len()].copy_from_slice(list);
        Choice::Listed {
            flag,
            count: list.len() as u8,
            units,
        }
    }

    fn refusal(login: &Login, table: &[u8; SIZE]) -> u8 {
        rules::refusal(login.write(table, &mut [0; 300]))
    }

    /// The logins of both documents come out, their units chosen and their numbers in the table.
    #[test]
    fn logins_of_the_documents() {
        let mut table = [0; SIZE];
        set_entry(&mut table, 1, 113_482);
        set_entry(&mut table, 4, 41_337);
        set_entry(&mut table, 3, 99);
        let mut first = login(listed(1, &[1, 2, 4]));
        first.returned = [
            returned(&[0, 0x41, 5]),
            returned(&[0, 0x41, 7, 0, 0x40, 0, 1]),
        ];
        let mut buffer = [0xAB; 70];
        assert_eq!(first.write(&table, &mut buffer[..68]), Err(Refusal::Room));
        assert_eq!(buffer, [0xAB; 70]);
        assert_eq!(first.write(&table, &mut buffer), Ok(()));
        assert_eq!(buffer[..69], examples::login());
        assert_eq!(buffer[69], 0xAB);
        let mut second = login(listed(1, &[1, 2]));
        second.returned = [returned(&[0, 0x41, 5]), returned(&[0, 0x41, 7, 0, 0x40, 0])];
        assert_eq!(second.write(&table, &mut buffer), Ok(()));
        assert_eq!(buffer[..63], examples::options_login());
    }

    fn all_units() -> Vec<u8> {
        (1..=UNITS).collect()
    }

    /// A login as it is written, of just its bytes. A buffer that is a byte shorter is 13, and is left; of a
    /// longer one the rest is left.
    fn written(login: &Login, table: &[u8; SIZE], size: usize) -> Vec<u8> {
        let mut buffer = vec![0xAB; size + 3];
        for short in [0, 1, 33, size - 1] {
            let lent = &mut buffer[..short.min(size - 1)];
            assert_eq!(login.write(table, lent), Err(Refusal::Room));
        }
        assert!(buffer.iter().all(|byte| *byte == 0xAB));
        assert_eq!(login.write(table, &mut buffer), Ok(()));
        assert_eq!(buffer.split_off(size), [0xAB; 3]);
        let mut exact = vec![0; size];
        assert_eq!(login.write(table, &mut exact), Ok(()));
        assert_eq!(exact, buffer);
        assert!(read::message(MEMBER, &buffer).is_ok());
        buffer
    }

    /// Given no choice: two units that have a number, and none.
    #[test]
    fn no_choice() {
        let mut table = [0; SIZE];
        let names = "303030315445535454455354494E47000000";
        let bytes = written(&login(Choice::Used), &table, 34);
        let expected = format!("BABA2000370000000000{}010500800000", names);
        assert_eq!(hex::write(&bytes), expected);
        set_entry(&mut table, 1, 113_482);
        set_entry(&mut table, 2, 5);
        let bytes = written(&login(Choice::Used), &table, 44);
        let pairs = "014ABB01000205000000";
        let expected = format!("BABA2A00370000000000{}010F00800002{}", names, pairs);
        assert_eq!(hex::write(&bytes), expected);
        let bytes = written(&login(Choice::Without), &table, 29);
        assert_eq!(bytes[28], 0);
    }

    /// Each unit alone is listed with the least number and with the greatest.
    #[test]
    fn each_unit_alone() {
        for unit in 1..=UNITS {
            for number in [1, u32::MAX] {
                let mut table = [0; SIZE];
                set_entry(&mut table, unit, number);
                let bytes = written(&login(Choice::Used), &table, 39);
                assert_eq!(bytes[..10], [0xBA, 0xBA, 37, 0, 0x37, 0, 0, 0, 0, 0]);
                assert_eq!(bytes[10..28], *b"0001TESTTESTING\0\0\0");
                assert_eq!(bytes[28..35], [1, 10, 0, 0x80, 0, 1, unit]);
                assert_eq!(bytes[35..], number.to_le_bytes());
            }
        }
    }

    /// All units have a number: the flag is 0 all the same. The bitfields of executions follow.
    #[test]
    fn all_units_have_a_number() {
        let mut table = [0; SIZE];
        for unit in 1..=UNITS {
            set_entry(&mut table, unit, u32::MAX - u32::from(unit % 2));
        }
        let mut short = login(Choice::Used);
        short.returned[1] = returned(&[]);
        let bytes = written(&short, &table, 199);
        assert_eq!(bytes[28..34], [2, 165, 0, 0x80, 0, 32]);
        for unit in 1..=UNITS {
            let pair = &bytes[34 + 5 * usize::from(unit - 1)..][..5];
            assert_eq!(pair[0], unit);
            assert_eq!(pair[1..], (u32::MAX - u32::from(unit % 2)).to_le_bytes());
        }
        assert_eq!(bytes[194..], [5, 0, 0x81, 0x2C, 0]);
    }

    /// A unit of entry 0 is not listed, wherever it stands among the others.
    #[test]
    fn entries_of_0() {
        for without in 1..=UNITS {
            let mut table = [1; SIZE];
            set_entry(&mut table, without, 0);
            let bytes = written(&login(Choice::Used), &table, 189);
            assert_eq!(bytes[28..34], [1, 160, 0, 0x80, 0, 31]);
            let units: Vec<u8> = bytes[34..].chunks(5).map(|pair| pair[0]).collect();
            let others: Vec<u8> = all_units()
                .into_iter()
                .filter(|unit| *unit != without)
                .collect();
            assert_eq!(units, others);
        }
        let mut table = [0; SIZE];
        for unit in [32, 3, 17, 4] {
            set_entry(&mut table, unit, 0x0100 << (unit % 24));
        }
        let bytes = written(&login(Choice::Used), &table, 54);
        let pairs = [
            [3, 0, 8, 0, 0],
            [4, 0, 16, 0, 0],
            [17, 0, 0, 0, 2],
            [32, 0, 0, 1, 0],
        ];
        assert_eq!(bytes[34..], pairs.concat());
    }

    /// The full list is asked for by its units: flag 1, and entries of 0 too.
    #[test]
    fn full_list_by_its_units() {
        let mut table = [0; SIZE];
        set_entry(&mut table, 1, 113_482);
        set_entry(&mut table, 2, 5);
        let full = login(listed(1, &all_units()));
        let bytes = written(&full, &table, 194);
        assert_eq!(bytes[..10], [0xBA, 0xBA, 192, 0, 0x37, 0, 0, 0, 0, 0]);
        assert_eq!(bytes[10..28], *b"0001TESTTESTING\0\0\0");
        assert_eq!(bytes[28..34], [1, 165, 0, 0x80, 1, 32]);
        assert_eq!(hex::write(&bytes[34..44]), "014ABB01000205000000");
        for unit in 3..=UNITS {
            let pair = &bytes[34 + 5 * usize::from(unit - 1)..][..5];
            assert_eq!(pair, [unit, 0, 0, 0, 0]);
        }
    }

    /// 10 and 11 come before 13 also given no choice.
    #[test]
    fn refusals_given_no_choice() {
        for table in [[0; SIZE], [1; SIZE]] {
            let mut bad = login(Choice::Used);
            bad.returned[0] = Some(Returned {
                count: 16,
                bits: [0; 15],
            });
            assert_eq!(refusal(&bad, &table), 11);
            assert_eq!(bad.write(&table, &mut []), Err(Refusal::Group));
            bad.names[0] = b'!';
            assert_eq!(refusal(&bad, &table), 10);
            assert_eq!(rules::refusal(bad.write(&table, &mut [])), 10);
        }
    }

    /// 10 before 11 before 13; what is not used plays no part.
    #[test]
    fn refusals() {
        let table = [0; SIZE];
        for (choice, number) in [
            (listed(0, &[]), 0),
            (listed(1, &[32, 1]), 0),
            (listed(2, &[1]), 11),
            (listed(1, &[0]), 11),
            (listed(1, &[33]), 11),
            (listed(1, &[7, 8, 7]), 11),
        ] {
            let mut login = login(choice);
            assert_eq!(refusal(&login, &table), number);
            login.names[4] = b'!';
            assert_eq!(refusal(&login, &table), 10);
        }
        let mut units = [0; 32];
        for (index, unit) in units.iter_mut().enumerate() {
            *unit = index as u8 + 1;
        }
        for count in 0..=255 {
            let flag = 0;
            let choice = Choice::Listed { flag, count, units };
            let number = if count <= 32 { 0 } else { 11 };
            assert_eq!(refusal(&login(choice), &table), number);
            for index in 0..2 {
                let mut login = login(Choice::Without);
                login.returned[index] = Some(Returned {
                    count,
                    bits: [0; 15],
                });
                let number = if count <= 15 { 0 } else { 11 };
                assert_eq!(refusal(&login, &table), number);
                assert!(login.write(&table, &mut []).is_err());
            }
        }
    }
}
