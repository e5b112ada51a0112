//! The rules of document 01, one module a subject.

pub mod book;
pub mod calendar;
pub mod desk;
pub mod frame;
pub mod groups;
pub mod kinds;
pub mod layout;
pub mod listing;
pub mod login;
pub mod market;
pub mod member;
pub mod number;
pub mod price;
pub mod pulse;
pub mod read;
pub mod record;
pub mod session;
pub mod table;
pub mod types;
pub mod venue;
pub mod write;

use std::fmt;

/// Document 01, "Numbers of refusal", and of document 02 those of request 1 (23) and request 9 (26). Those of
/// a part of the message tell its place (request 3), which counts from the message's first byte.
#[derive(Clone, Copy, Debug, PartialEq, Eq)]
pub enum Refusal {
    /// A byte that should be BA is another.
    Start,
    /// The length field is out of its range.
    Length,
    /// The message is not all there yet.
    Partial,
    /// The direction has no such type.
    Type,
    /// The unit or the number is not one that the message may carry.
    Unit,
    /// The message is not as long as its counts and fields make it: the place after its last byte.
    Total(usize),
    /// More bitfields than the message may have: the count byte.
    Count(usize),
    /// A bit is set that is not listed: the first bitfield that has one.
    Bit(usize),
    /// A field that must be selected is not: the last bitfield, or the count byte if there is none.
    Missing(usize),
    /// A value that its field does not take: the first byte of the first such field.
    Value(usize),
    /// A unit pair or a group of a login breaks a rule of its own.
    Group,
    /// A place of a record that its message does not use is not zero.
    Unused,
    /// The buffer is too short for the result.
    Room,
    /// The number is not above the table's.
    Behind,
    /// At least one number is missing between the table's and this one.
    Ahead,
    /// The session's phase does not take the call or the message.
    Phase,
    /// The book was opened for another date than the one asked for.
    OtherDate,
    /// A book that is neither whole nor torn.
    Broken,
    /// Not a day of the years 1970 to 2099.
    Day,
    /// The last of the outgoing numbers has been used.
    Spent,
    /// An order's number is not above the last one that the venue took.
    Old,
    /// A book that is shorter than its first mark.
    Small,
    /// Fields that do not go together.
    Conflict,
    /// A unit that has no message.
    Absent,
}

impl Refusal {
    pub fn number(self) -> u8 {
        match self {
            Refusal::Start => 1,
            Refusal::Length => 2,
            Refusal::Partial => 3,
            Refusal::Type => 4,
            Refusal::Unit => 5,
            Refusal::Total(_) => 6,
            Refusal::Count(_) => 7,
            Refusal::Bit(_) => 8,
            Refusal::Missing(_) => 9,
            Refusal::Value(_) => 10,
            Refusal::Group => 11,
            Refusal::Unused => 12,
            Refusal::Room => 13,
            Refusal::Behind => 14,
            Refusal::Ahead => 15,
            Refusal::Phase => 16,
            Refusal::OtherDate => 17,
            Refusal::Broken => 18,
            Refusal::Day => 19,
            Refusal::Spent => 20,
            Refusal::Old => 21,
            Refusal::Small => 22,
            Refusal::Conflict => 23,
            Refusal::Absent => 26,
        }
    }

    /// The byte place in the message, which 6 to 10 tell.
    pub fn place(self) -> Option<usize> {
        match self {
            Refusal::Total(place)
            | Refusal::Count(place)
            | Refusal::Bit(place)
            | Refusal::Missing(place)
            | Refusal::Value(place) => Some(place),
            _ => None,
        }
    }
}

/// `NUMBER`, or `NUMBER@PLACE`.
impl fmt::Display for Refusal {
    fn fmt(&self, text: &mut fmt::Formatter) -> fmt::Result {
        write!(text, "{}", self.number())?;
        match self.place() {
            Some(place) => write!(text, "@{}", place),
            None => Ok(()),
        }
    }
}

/// Refuses what is not good.
fn check(good: bool, refusal: Refusal) -> Result<(), Refusal> {
    if good {
        Ok(())
    } else {
        Err(refusal)
    }
}

/// What an answer tells of a result: its refusal, or 0.
pub fn told<T>(result: Result<T, Refusal>) -> String {
    result.map_or_else(|refusal| refusal.to_string(), |_| "0".to_string())
}

/// The number of a result: that of its refusal, or 0.
#[cfg(test)]
pub fn refusal<T>(result: Result<T, Refusal>) -> u8 {
    result.map_or_else(Refusal::number, |_| 0)
}
