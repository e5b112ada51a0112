//! The markets (document 02, request 4). What their members send differs in the New Order alone.

use super::types::{
    CANCEL_ORDER, MEMBER, MODIFY_ORDER, NEW_ORDER, OPTIONS_MEMBER, OPTIONS_ORDER, PURGE_ORDERS,
};

#[derive(Clone, Copy, Debug, PartialEq, Eq)]
pub enum Market {
    Equities = 0,
    Options = 1,
}

pub const ALL: [Market; 2] = [Market::Equities, Market::Options];

impl Market {
    /// The other market.
    pub fn other(self) -> Market {
        match self {
            Market::Equities => Market::Options,
            Market::Options => Market::Equities,
        }
    }

    /// DIRECTION of what a member of the market sends.
    pub fn direction(self) -> u8 {
        match self {
            Market::Equities => MEMBER,
            Market::Options => OPTIONS_MEMBER,
        }
    }

    /// The types of the records that go out as orders.
    pub fn orders(self) -> [u8; 4] {
        let new_order = match self {
            Market::Equities => NEW_ORDER,
            Market::Options => OPTIONS_ORDER,
        };
        [new_order, CANCEL_ORDER, MODIFY_ORDER, PURGE_ORDERS]
    }
}

#[cfg(test)]
mod tests {
    use super::*;

    #[test]
    fn directions_and_orders() {
        assert_eq!(ALL.map(|market| market as u8), [0, 1]);
        assert_eq!(ALL.map(|market| market.other() as u8), [1, 0]);
        assert_eq!(ALL.map(Market::direction), [0, 2]);
        let orders = [[0x38, 0x39, 0x3A, 0x47], [0xB8, 0x39, 0x3A, 0x47]];
        assert_eq!(ALL.map(Market::orders), orders);
    }
}
