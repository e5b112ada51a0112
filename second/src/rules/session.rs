//! The session messages (document 01, "The bit dictionary" and "Numbers of refusal"). The fixed
//! parts of Login Response and Logout are those of document 000.

#[cfg(test)]
mod tests;

use super::frame::{self, Header, HEADER};
use super::groups::{self, Rest};
use super::kinds::{self, Kind};
use super::number;
use super::record::{BODY_PLACE, SESSION_SIZE};
use super::types::{self, MEMBERS, VENUE};
use super::{check, Refusal};

/// A field of the fixed part; it may be blank.
#[derive(Debug)]
pub struct Field {
    pub name: &'static str,
    pub width: usize,
    pub kind: Kind,
    /// A value that document 000 lists though it is not of the kind; empty if there is none.
    pub also: &'static [u8],
}

/// What follows the fields, each beginning with its count byte.
#[derive(Clone, Copy, Debug, PartialEq, Eq)]
pub enum List {
    Pairs,
    Groups,
}

#[derive(Debug)]
pub struct Session {
    /// At least one.
    pub directions: &'static [u8],
    pub type_byte: u8,
    /// In the order of their places, from the end of the header on.
    pub fields: &'static [Field],
    /// The field that has the rule of a group's flag, and so gives 11.
    pub flag: Option<&'static str>,
    /// A message without lists is its header alone.
    pub lists: &'static [List],
}

pub static ALL: [Session; 6] = [
    Session {
        directions: MEMBERS,
        type_byte: types::LOGIN_REQUEST,
        fields: &[
            field("SessionSubID", 4, N),
            field("Username", 4, N),
            field("Password", 10, N),
        ],
        flag: None,
        lists: &[List::Groups],
    },
    Session {
        directions: &[VENUE],
        type_byte: types::LOGIN_RESPONSE,
        fields: &[
            field("LoginResponseStatus", 1, N),
            field("LoginResponseText", 60, T),
            field("NoUnspecifiedUnitReplay", 1, B),
            field("LastReceivedSequenceNumber", 4, B),
        ],
        flag: Some("NoUnspecifiedUnitReplay"),
        lists: &[List::Pairs, List::Groups],
    },
    Session {
        directions: &[VENUE],
        type_byte: types::LOGOUT,
        fields: &[
            Field {
                name: "LogoutReason",
                width: 1,
                kind: N,
                also: b"!",
            },
            field("LogoutReasonText", 60, T),
            field("LastReceivedSequenceNumber", 4, B),
        ],
        flag: None,
        lists: &[List::Pairs],
    },
    header_alone(MEMBERS, types::CLIENT_HEARTBEAT),
    header_alone(&[VENUE], types::SERVER_HEARTBEAT),
    header_alone(&[VENUE], types::REPLAY_COMPLETE),
];

const N: Kind = Kind::LettersAndDigits;
const T: Kind = Kind::Text;
const B: Kind = Kind::Binary;

const fn field(name: &'static str, width: usize, kind: Kind) -> Field {
    Field {
        name,
        width,
        kind,
        also: b"",
    }
}

/// The heartbeats and Replay Complete.
const fn header_alone(directions: &'static [u8], type_byte: u8) -> Session {
    Session {
        directions,
        type_byte,
        fields: &[],
        flag: None,
        lists: &[],
    }
}

impl Field {
    pub fn takes(&self, value: &[u8]) -> bool {
        kinds::agrees(self.kind, value) || value == self.also
    }
}

impl Session {
    /// None if the direction has no session message of the type.
    pub fn of(direction: u8, type_byte: u8) -> Option<&'static Session> {
        ALL.iter().find(|session| {
            session.directions.contains(&direction) && session.type_byte == type_byte
        })
    }

    /// The direction in which the message is asked about.
    pub fn direction(&self) -> u8 {
        self.directions[0]
    }

    pub fn fields_width(&self) -> usize {
        self.fields.iter().map(|field| field.width).sum()
    }

    /// The record of a whole message of this type and direction.
    pub fn read(&self, message: &[u8]) -> Result<Vec<u8>, Refusal> {
        let header = frame::header(message);
        check_header(header.unit, header.number)?;
        let body = &message[HEADER..];
        if !self.lists.is_empty() {
            // The first count byte belongs to the fixed part.
            let good = body.len() > self.fields_width();
            check(good, Refusal::Total(message.len()))?;
        }
        let rest = self.check_body(body)?;
        check(rest.is_empty(), Refusal::Total(message.len()))?;

        let mut record = vec![header.type_byte, header.unit];
        record.extend(header.number.to_le_bytes());
        record.extend(body);
        record.resize(SESSION_SIZE, 0);
        Ok(record)
    }

    /// The message of a record of this type and direction; the record has all its bytes.
    pub fn write(&self, record: &[u8]) -> Result<Vec<u8>, Refusal> {
        let header = Header {
            type_byte: self.type_byte,
            unit: record[1],
            number: number::get(record, 2, 4) as u32,
        };
        check_header(header.unit, header.number)?;
        let body = &record[BODY_PLACE..SESSION_SIZE];
        let rest = self.check_body(body)?;
        let unused = if self.lists.is_empty() {
            Refusal::Unused
        } else {
            Refusal::Group
        };
        check(kinds::blank(rest), unused)?;

        let used = body.len() - rest.len();
        Ok(frame::put_together(&header, &body[..used]))
    }

    /// 10 in the fields, then 11 in the flag and the lists; what follows the last list is left.
    /// The fields are all there.
    fn check_body<'a>(&self, body: &'a [u8]) -> Result<&'a [u8], Refusal> {
        let mut place = HEADER;
        let mut after = body;
        let mut flag = None;
        for field in self.fields {
            let (value, rest) = after.split_at(field.width);
            check(field.takes(value), Refusal::Value(place))?;
            if self.flag == Some(field.name) {
                flag = Some(value[0]);
            }
            place += field.width;
            after = rest;
        }
        if let Some(flag) = flag {
            groups::check_flag(flag)?;
        }
        let mut rest = Rest::new(after);
        for list in self.lists {
            match list {
                List::Pairs => rest.pairs()?,
                List::Groups => rest.groups()?,
            }
        }
        Ok(rest.bytes())
    }
}

/// 5: session messages have no unit and no number.
fn check_header(unit: u8, number: u32) -> Result<(), Refusal> {
    check(unit == 0 && number == 0, Refusal::Unit)
}
