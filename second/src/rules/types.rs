//! The directions and the type bytes of the messages: those that document 01 gives, the others from
//! document 000.

/// DIRECTION: from a member of an equities market, from the venue, from a member of an options market.
pub const MEMBER: u8 = 0;
pub const VENUE: u8 = 1;
pub const OPTIONS_MEMBER: u8 = 2;
/// What both members send.
pub const MEMBERS: &[u8] = &[MEMBER, OPTIONS_MEMBER];

// From the member.
pub const LOGIN_REQUEST: u8 = 0x37;
pub const NEW_ORDER: u8 = 0x38;
pub const CANCEL_ORDER: u8 = 0x39;
pub const MODIFY_ORDER: u8 = 0x3A;
pub const PURGE_ORDERS: u8 = 0x47;
pub const CLIENT_HEARTBEAT: u8 = 0x03;
/// What comes in as an order.
pub const ORDERS: [u8; 4] = [NEW_ORDER, CANCEL_ORDER, MODIFY_ORDER, PURGE_ORDERS];
/// The type of the record of an options New Order. On the wire it is that of a New Order.
pub const OPTIONS_ORDER: u8 = 0xB8;

// From the venue.
pub const LOGIN_RESPONSE: u8 = 0x24;
pub const LOGOUT: u8 = 0x08;
pub const SERVER_HEARTBEAT: u8 = 0x09;
pub const REPLAY_COMPLETE: u8 = 0x13;
pub const ACKNOWLEDGMENT: u8 = 0x25;
pub const EXECUTION: u8 = 0x2C;
pub const ORDER_REJECTED: u8 = 0x26;
pub const CANCEL_REJECTED: u8 = 0x2B;
pub const MODIFY_REJECTED: u8 = 0x29;
