//! The member's session (document 01, "Session and replay").

#[cfg(test)]
mod tests;

use super::book::{self, Book, BOOKED};
use super::desk::{Told, HANDED};
use super::frame;
use super::login::Login;
use super::market::Market;
use super::number;
use super::read;
use super::record::SIZE;
use super::table;
use super::types::{
    ACKNOWLEDGMENT, CANCEL_REJECTED, CLIENT_HEARTBEAT, EXECUTION, LOGIN_RESPONSE, LOGOUT, MEMBER,
    MODIFY_REJECTED, ORDER_REJECTED, REPLAY_COMPLETE, SERVER_HEARTBEAT, VENUE,
};
use super::write;
use super::{check, Refusal};

#[derive(Clone, Copy, Debug, PartialEq, Eq)]
pub enum Phase {
    Closed = 0,
    Asked = 1,
    Replaying = 2,
    Live = 3,
}

const FROM_VENUE: [u8; 9] = [
    LOGIN_RESPONSE,
    LOGOUT,
    SERVER_HEARTBEAT,
    REPLAY_COMPLETE,
    ACKNOWLEDGMENT,
    EXECUTION,
    ORDER_REJECTED,
    CANCEL_REJECTED,
    MODIFY_REJECTED,
];
/// In a Login Response.
const STATUS_PLACE: usize = 10;
const RECEIVED_PLACE: u64 = 72;
const ACCEPTED: u8 = b'A';

#[derive(Clone, Debug, PartialEq, Eq)]
pub struct Member {
    pub phase: Phase,
    /// The number of the last order that went out.
    pub outgoing: u32,
    /// Told at opening and at restart, and kept.
    pub market: Market,
    pub book: Book,
}

impl Member {
    /// Closed, of an equities market, and without a book.
    pub fn blank() -> Member {
        let book = Book {
            date: 0,
            length: 0,
            last: 0,
            count: 0,
            table: [0; table::SIZE],
            places: [0; table::SIZE],
        };
        Member::closed(book, Market::Equities)
    }

    fn closed(book: Book, market: Market) -> Member {
        Member {
            phase: Phase::Closed,
            outgoing: 0,
            market,
            book,
        }
    }

    /// A new book in a buffer: 19, 13.
    pub fn open(&mut self, date: u32, buffer: &mut [u8], market: Market) -> Result<(), Refusal> {
        book::open(date, buffer)?;
        *self = Member::closed(book::opened(date), market);
        Ok(())
    }

    /// After a restart on a book's bytes.
    pub fn restart(&mut self, date: u32, bytes: &[u8], market: Market) -> Result<(), Refusal> {
        *self = Member::closed(book::restart(date, bytes)?, market);
        Ok(())
    }

    pub fn login(&mut self, login: &Login, out: &mut [u8]) -> Result<(), Refusal> {
        check(self.phase == Phase::Closed, Refusal::Phase)?;
        login.write(&self.book.table, out)?;
        self.phase = Phase::Asked;
        Ok(())
    }

    /// The first whole message of what came from the venue, and what the desk gets of it.
    pub fn get(&mut self, bytes: &[u8], buffer: &mut [u8]) -> Result<Told, Refusal> {
        self.take(&FROM_VENUE, bytes, buffer)
    }

    /// The same for what must be a sequenced application message.
    pub fn message(&mut self, bytes: &[u8], buffer: &mut [u8]) -> Result<(), Refusal> {
        self.take(&BOOKED, bytes, buffer).map(|_| ())
    }

    /// The same for what must be a Login Response.
    pub fn response(&mut self, bytes: &[u8], buffer: &mut [u8]) -> Result<(), Refusal> {
        self.take(&[LOGIN_RESPONSE], bytes, buffer).map(|_| ())
    }

    /// 16 if closed, the reader's, to which types other than these are 4, 16 for a type that the
    /// phase does not take, 14, 15, 13. What is handed to the desk leaves all as it was.
    fn take(&mut self, types: &[u8], bytes: &[u8], buffer: &mut [u8]) -> Result<Told, Refusal> {
        check(self.phase != Phase::Closed, Refusal::Phase)?;
        let message = read::of_types(VENUE, bytes, types)?;
        let type_byte = frame::header(message).type_byte;
        check(self.takes(type_byte), Refusal::Phase)?;
        match type_byte {
            LOGIN_RESPONSE if message[STATUS_PLACE] == ACCEPTED => {
                self.phase = Phase::Replaying;
                self.outgoing = number::get(message, RECEIVED_PLACE, 4) as u32;
            }
            LOGIN_RESPONSE | LOGOUT => self.end(buffer),
            REPLAY_COMPLETE => self.phase = Phase::Live,
            ACKNOWLEDGMENT | EXECUTION => self.book.append(buffer, message)?,
            _ => {}
        }
        Ok(Told::of(type_byte))
    }

    /// Whether a message of a type is for the phase.
    fn takes(&self, type_byte: u8) -> bool {
        let open = type_byte == LOGOUT;
        let application = BOOKED.contains(&type_byte) || HANDED.contains(&type_byte);
        let running = application || type_byte == SERVER_HEARTBEAT || open;
        match self.phase {
            Phase::Closed => false,
            Phase::Asked => type_byte == LOGIN_RESPONSE || open,
            Phase::Replaying => type_byte == REPLAY_COMPLETE || running,
            Phase::Live => running,
        }
    }

    /// An order of the member's market goes out with the next number, whatever number its record has:
    /// 16, 20, then what the record is refused for.
    pub fn order(&mut self, record: &[u8], out: &mut [u8]) -> Result<(), Refusal> {
        check(self.phase == Phase::Live, Refusal::Phase)?;
        let next = self.outgoing.checked_add(1).ok_or(Refusal::Spent)?;
        check(record.len() >= SIZE, Refusal::Room)?;
        check(self.market.orders().contains(&record[0]), Refusal::Type)?;
        let mut numbered = record.to_vec();
        numbered[2..6].copy_from_slice(&next.to_le_bytes());
        write::record(self.market.direction(), &numbered, out)?;
        self.outgoing = next;
        Ok(())
    }

    /// A heartbeat goes out: 16, 13.
    pub fn beat(&self, out: &mut [u8]) -> Result<(), Refusal> {
        let running = self.phase == Phase::Replaying || self.phase == Phase::Live;
        check(running, Refusal::Phase)?;
        write::session(MEMBER, CLIENT_HEARTBEAT, &[], out)
    }

    /// The line broke. A session that was closed stays so.
    pub fn broken(&mut self, buffer: &mut [u8]) {
        if self.phase != Phase::Closed {
            self.end(buffer);
        }
    }

    /// The session's end: its mark if there is room for it.
    fn end(&mut self, buffer: &mut [u8]) {
        self.book.close(buffer);
        self.phase = Phase::Closed;
    }
}
