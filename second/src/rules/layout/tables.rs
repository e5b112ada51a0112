//! The table of each message with bitfields. The fixed part of Order Execution and the choice of
//! its bits are those of document 000, and so is all of the rejections, of Modify Order and of Purge
//! Orders. The options New Order is that of document 002, with byte 4 of document 02, request 4.

use super::{Fixed, Layout, Listed, Middle, Rule};
use crate::rules::kinds::Kind;
use crate::rules::types::{self, MEMBER, MEMBERS, OPTIONS_MEMBER, VENUE};

pub static ALL: [Layout; 10] = [
    new_order(&[MEMBER], types::NEW_ORDER, NEW_ORDER_LISTED),
    Layout {
        directions: MEMBERS,
        type_byte: types::CANCEL_ORDER,
        record_type: types::CANCEL_ORDER,
        least_unit: 0,
        greatest_unit: 0,
        greatest_number: ANY_NUMBER,
        fixed: CANCEL_ORDER_FIXED,
        most: 2,
        listed: CANCEL_ORDER_LISTED,
        required: &[],
        middle: Middle::Nothing,
    },
    Layout {
        directions: &[VENUE],
        type_byte: types::ACKNOWLEDGMENT,
        record_type: types::ACKNOWLEDGMENT,
        least_unit: 1,
        greatest_unit: 32,
        greatest_number: ANY_NUMBER,
        fixed: ACKNOWLEDGMENT_FIXED,
        most: 15,
        listed: ACKNOWLEDGMENT_LISTED,
        required: &[],
        middle: Middle::Nothing,
    },
    Layout {
        directions: &[VENUE],
        type_byte: types::EXECUTION,
        record_type: types::EXECUTION,
        least_unit: 1,
        greatest_unit: 32,
        greatest_number: ANY_NUMBER,
        fixed: EXECUTION_FIXED,
        most: 15,
        listed: EXECUTION_LISTED,
        required: &[],
        middle: Middle::Nothing,
    },
    rejected(types::ORDER_REJECTED, ORDER_REJECTED_LISTED),
    rejected(types::CANCEL_REJECTED, CANCEL_REJECTED_LISTED),
    rejected(types::MODIFY_REJECTED, &[]),
    // OrdType stands in for Price in the bitfields; its value is judged later.
    Layout {
        directions: MEMBERS,
        type_byte: types::MODIFY_ORDER,
        record_type: types::MODIFY_ORDER,
        least_unit: 0,
        greatest_unit: 0,
        greatest_number: ANY_NUMBER,
        fixed: MODIFY_ORDER_FIXED,
        most: 2,
        listed: MODIFY_ORDER_LISTED,
        required: &[&["OrderQty"], &["Price", "OrdType"]],
        middle: Middle::Nothing,
    },
    Layout {
        directions: MEMBERS,
        type_byte: types::PURGE_ORDERS,
        record_type: types::PURGE_ORDERS,
        least_unit: 0,
        greatest_unit: 0,
        greatest_number: ANY_NUMBER,
        fixed: PURGE_ORDERS_FIXED,
        most: 2,
        listed: PURGE_ORDERS_LISTED,
        required: &[&["MassCancelInst"]],
        middle: Middle::RiskGroups { most: 10 },
    },
    new_order(
        &[OPTIONS_MEMBER],
        types::OPTIONS_ORDER,
        OPTIONS_ORDER_LISTED,
    ),
];

const ANY_NUMBER: u32 = u32::MAX;

/// The New Orders of both markets, which have the same type on the wire, and are alike but for their bits.
const fn new_order(
    directions: &'static [u8],
    record_type: u8,
    listed: &'static [Listed],
) -> Layout {
    Layout {
        directions,
        type_byte: types::NEW_ORDER,
        record_type,
        least_unit: 0,
        greatest_unit: 0,
        greatest_number: ANY_NUMBER,
        fixed: NEW_ORDER_FIXED,
        most: 10,
        listed,
        required: &[&["Symbol"], &["Capacity"], &["Price", "OrdType"]],
        middle: Middle::Nothing,
    }
}

/// The three rejections of request 2: unsequenced, and alike but for their bits. Table 67 marks none
/// for User Modify Rejected.
const fn rejected(type_byte: u8, listed: &'static [Listed]) -> Layout {
    Layout {
        directions: &[VENUE],
        type_byte,
        record_type: type_byte,
        least_unit: 0,
        greatest_unit: 0,
        greatest_number: 0,
        fixed: REJECTED_FIXED,
        most: 19,
        listed,
        required: &[],
        middle: Middle::Nothing,
    }
}

// Short names for the columns of the tables.
const A: Kind = Kind::Letters;
const N: Kind = Kind::LettersAndDigits;
const T: Kind = Kind::Text;
const B: Kind = Kind::Binary;
const P: Kind = Kind::Price;
const F: Kind = Kind::FilledText;
const D: Kind = Kind::Day;
const IDENTIFIER: Rule = Rule::Filled(Kind::Identifier);

const fn fixed(name: &'static str, width: usize, rule: Rule) -> Fixed {
    Fixed { name, width, rule }
}

const fn bit(byte: usize, bit: u8, name: &'static str, width: usize, kind: Kind) -> Listed {
    Listed {
        byte,
        bit,
        name,
        width,
        kind,
    }
}

const NEW_ORDER_FIXED: &[Fixed] = &[
    fixed("ClOrdID", 20, IDENTIFIER),
    fixed("Side", 1, Rule::Filled(N)),
    fixed("OrderQty", 4, Rule::Quantity),
];

const NEW_ORDER_LISTED: &[Listed] = &[
    bit(1, 1, "ClearingFirm", 4, A),
    bit(1, 2, "ClearingAccount", 4, T),
    bit(1, 4, "Price", 8, P),
    bit(1, 8, "ExecInst", 1, T),
    bit(1, 16, "OrdType", 1, N),
    bit(1, 32, "TimeInForce", 1, N),
    bit(1, 64, "MinQty", 4, B),
    bit(1, 128, "MaxFloor", 4, B),
    bit(2, 1, "Symbol", 8, N),
    bit(2, 2, "SymbolSfx", 8, N),
    bit(2, 64, "Capacity", 1, A),
    bit(2, 128, "RoutingInst", 4, T),
    bit(3, 1, "Account", 16, T),
    bit(3, 64, "LocateReqd", 1, A),
    bit(3, 128, "ExpireTime", 8, B),
    bit(6, 1, "DisplayRange", 4, B),
    bit(6, 2, "StopPx", 8, P),
    bit(6, 16, "ExDestination", 1, T),
    bit(6, 32, "EchoText", 64, T),
    bit(10, 2, "LocateBroker", 4, A),
];

const CANCEL_ORDER_FIXED: &[Fixed] = &[fixed("OrigClOrdID", 20, IDENTIFIER)];

const CANCEL_ORDER_LISTED: &[Listed] = &[bit(1, 1, "ClearingFirm", 4, A)];

const ACKNOWLEDGMENT_FIXED: &[Fixed] = &[
    fixed("TransactionTime", 8, Rule::Any(B)),
    fixed("ClOrdID", 20, IDENTIFIER),
    fixed("OrderID", 8, Rule::Any(B)),
    fixed("Reserved", 1, Rule::Any(B)),
];

const ACKNOWLEDGMENT_LISTED: &[Listed] = &[
    bit(1, 1, "Side", 1, N),
    bit(1, 4, "Price", 8, P),
    bit(1, 8, "ExecInst", 1, T),
    bit(1, 16, "OrdType", 1, N),
    bit(1, 32, "TimeInForce", 1, N),
    bit(1, 64, "MinQty", 4, B),
    bit(2, 1, "Symbol", 8, N),
    bit(2, 2, "SymbolSfx", 8, N),
    bit(2, 64, "Capacity", 1, A),
    bit(3, 1, "Account", 16, T),
    bit(3, 2, "ClearingFirm", 4, A),
    bit(3, 4, "ClearingAccount", 4, T),
    bit(3, 16, "MaxFloor", 4, B),
    bit(3, 64, "OrderQty", 4, B),
    bit(5, 2, "LeavesQty", 4, B),
    bit(5, 4, "LastShares", 4, B),
    bit(5, 8, "LastPx", 8, P),
    bit(5, 128, "ExpireTime", 8, B),
];

const EXECUTION_FIXED: &[Fixed] = &[
    fixed("TransactionTime", 8, Rule::Any(B)),
    fixed("ClOrdID", 20, IDENTIFIER),
    fixed("ExecID", 8, Rule::Any(B)),
    fixed("LastShares", 4, Rule::Any(B)),
    fixed("LastPx", 8, Rule::Any(P)),
    fixed("LeavesQty", 4, Rule::Any(B)),
    fixed("BaseLiquidityIndicator", 1, Rule::Any(N)),
    fixed("SubLiquidityIndicator", 1, Rule::Any(N)),
    fixed("ContraBroker", 4, Rule::Any(N)),
    fixed("Reserved", 1, Rule::Any(B)),
];

/// The acknowledgment's bits without its last four: 000 leaves these blank or forbids them in an
/// execution.
const EXECUTION_LISTED: &[Listed] = match ACKNOWLEDGMENT_LISTED {
    [listed @ .., _leaves_qty, _last_shares, _last_px, _expire_time] => listed,
    _ => panic!("the acknowledgment has these four and others"),
};

/// Tables 36, 46 and 42, which name the reason after their message.
const REJECTED_FIXED: &[Fixed] = &[
    fixed("TransactionTime", 8, Rule::Any(B)),
    fixed("ClOrdID", 20, IDENTIFIER),
    fixed("RejectReason", 1, Rule::Any(T)),
    fixed("Text", 60, Rule::Any(T)),
    fixed("Reserved", 1, Rule::Any(B)),
];

/// Table 64. The third character of PreventMatch may be a digit.
const ORDER_REJECTED_LISTED: &[Listed] = &[
    bit(1, 1, "Side", 1, N),
    bit(1, 2, "PegDifference", 8, P),
    bit(1, 4, "Price", 8, P),
    bit(1, 8, "ExecInst", 1, T),
    bit(1, 16, "OrdType", 1, N),
    bit(1, 32, "TimeInForce", 1, N),
    bit(1, 64, "MinQty", 4, B),
    bit(2, 1, "Symbol", 8, N),
    bit(2, 2, "SymbolSfx", 8, N),
    bit(2, 64, "Capacity", 1, A),
    bit(3, 1, "Account", 16, T),
    bit(3, 2, "ClearingFirm", 4, A),
    bit(3, 4, "ClearingAccount", 4, T),
    bit(3, 8, "DisplayIndicator", 1, N),
    bit(3, 16, "MaxFloor", 4, B),
    bit(3, 32, "DiscretionAmount", 2, B),
    bit(3, 64, "OrderQty", 4, B),
    bit(3, 128, "PreventMatch", 3, N),
    bit(6, 1, "SecondaryOrderID", 8, B),
    bit(6, 8, "AttributedQuote", 1, N),
    bit(6, 16, "ExtExecInst", 1, T),
    bit(8, 2, "EchoText", 64, T),
    bit(8, 4, "StopPx", 8, P),
    bit(8, 8, "RoutingInst", 4, T),
    bit(8, 16, "RoutStrategy", 6, T),
    bit(8, 32, "RouteDeliveryMethod", 3, T),
    bit(8, 64, "ExDestination", 1, T),
];

/// Table 69. The marks of its byte 3 are lost: none of that byte is taken.
const CANCEL_REJECTED_LISTED: &[Listed] = &[
    bit(1, 1, "Side", 1, N),
    bit(1, 2, "PegDifference", 8, P),
    bit(1, 4, "Price", 8, P),
    bit(1, 8, "ExecInst", 1, T),
    bit(1, 16, "OrdType", 1, N),
    bit(1, 32, "TimeInForce", 1, N),
    bit(1, 64, "MinQty", 4, B),
    bit(2, 1, "Symbol", 8, N),
    bit(2, 2, "SymbolSfx", 8, N),
    bit(2, 64, "Capacity", 1, A),
    bit(8, 2, "EchoText", 64, T),
    bit(8, 4, "StopPx", 8, P),
];

/// Table 28.
const MODIFY_ORDER_FIXED: &[Fixed] = &[
    fixed("ClOrdID", 20, IDENTIFIER),
    fixed("OrigClOrdID", 20, IDENTIFIER),
];

/// Table 60.
const MODIFY_ORDER_LISTED: &[Listed] = &[
    bit(1, 1, "ClearingFirm", 4, A),
    bit(1, 4, "OrderQty", 4, B),
    bit(1, 8, "Price", 8, P),
    bit(1, 16, "OrdType", 1, N),
    bit(1, 32, "CancelOrigOnReject", 1, A),
    bit(1, 64, "ExecInst", 1, T),
    bit(1, 128, "Side", 1, N),
    bit(2, 1, "MaxFloor", 4, B),
    bit(2, 2, "StopPx", 8, P),
    bit(2, 128, "LocateBroker", 4, A),
];

/// Table 30, up to its count byte.
const PURGE_ORDERS_FIXED: &[Fixed] = &[fixed("Reserved", 1, Rule::Any(B))];

/// Table 61.
const PURGE_ORDERS_LISTED: &[Listed] = &[
    bit(1, 1, "ClearingFirm", 4, A),
    bit(1, 4, "MassCancelInst", 16, F),
    bit(1, 16, "MassCancelID", 20, T),
    bit(2, 1, "Symbol", 8, N),
    bit(2, 2, "SymbolSfx", 8, N),
    bit(2, 128, "MatchingUnit", 1, B),
];

/// Byte 1 and the marks of byte 2 are those of document 002.
const OPTIONS_ORDER_LISTED: &[Listed] = &[
    bit(1, 1, "ClearingFirm", 4, A),
    bit(1, 2, "ClearingAccount", 4, T),
    bit(1, 4, "Price", 8, P),
    bit(1, 8, "ExecInst", 1, T),
    bit(1, 16, "OrdType", 1, N),
    bit(1, 32, "TimeInForce", 1, N),
    bit(1, 64, "MinQty", 4, B),
    bit(1, 128, "MaxFloor", 4, B),
    bit(2, 1, "Symbol", 8, N),
    bit(2, 64, "Capacity", 1, A),
    bit(2, 128, "RoutingInst", 4, T),
    bit(3, 1, "Account", 16, T),
    bit(4, 1, "MaturityDate", 4, D),
    bit(4, 2, "StrikePrice", 8, P),
    bit(4, 4, "PutOrCall", 1, N),
    bit(4, 16, "OpenClose", 1, N),
];
