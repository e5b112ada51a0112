//! The rules of request 1 on literal bytes, read and written.

use crate::examples;
use crate::hex;
use crate::rules::record::{COUNT_PLACE, FIXED_PLACE, SLOTS_PLACE};
use crate::rules::types::MEMBER;
use crate::rules::{read, told, write, Refusal};

/// Hex with blanks between its parts.
fn bytes(digits: &str) -> Vec<u8> {
    hex::read(&digits.replace(' ', "")).unwrap()
}

fn zeros(count: usize) -> String {
    "00".repeat(count)
}

/// What reading answers; what is taken is written again byte for byte.
fn answer(message: &[u8]) -> String {
    let result = read::message(MEMBER, message);
    if let Ok(record) = &result {
        let total = usize::from(message[2]) + 2;
        let mut buffer = vec![0xEE; total];
        assert_eq!(write::record(MEMBER, record, &mut buffer), Ok(()));
        assert_eq!(buffer, message[..total]);
    }
    told(result)
}

/// The record of a message that is taken.
fn record(message: &[u8]) -> Vec<u8> {
    read::message(MEMBER, message).unwrap()
}

/// What writing answers of a record with bytes changed; the buffer stays.
fn written(record: &[u8], changes: &[(usize, u8)]) -> Result<(), Refusal> {
    let mut record = record.to_vec();
    for (place, byte) in changes {
        record[*place] = *byte;
    }
    let mut buffer = [0xEE; 100];
    let result = write::record(MEMBER, &record, &mut buffer);
    assert!(result.is_ok() || buffer == [0xEE; 100]);
    result
}

/// Table 29's front with a length and a tail.
fn modify(length: &str, tail: &str) -> Vec<u8> {
    let identifiers = format!("414243313234{}414243313233{}", zeros(14), zeros(14));
    bytes(&format!(
        "BABA{}003A0064000000{}{}",
        length, identifiers, tail
    ))
}

#[test]
fn modify_orders() {
    let example = modify("3E", "010CE02E000008E2010000000000");
    assert_eq!((example.len(), &example), (64, &examples::modify()));
    assert_eq!(answer(&example), "0");
    for (ord_type, expected) in [("31", "0"), ("32", "9@51"), ("00", "9@51"), ("2D", "10@56")] {
        let tail = format!("0114E02E0000{}", ord_type);
        assert_eq!(answer(&modify("37", &tail)), expected);
        assert_eq!(answer(&modify("38", &(tail.clone() + "31"))), "6@58");
        let tail = format!("021400E02E0000{}", ord_type);
        let expected = expected.replace("51", "52").replace("56", "57");
        assert_eq!(answer(&modify("38", &tail)), expected);
    }
    assert_eq!(answer(&modify("36", "0104E02E0000")), "9@51");
    assert_eq!(answer(&modify("39", "0104E02E0000000000")), "9@51");
    assert_eq!(answer(&modify("31", "00")), "9@50");
    // OrdType alone, and Price alone.
    assert_eq!(answer(&modify("33", "011031")), "9@51");
    assert_eq!(answer(&modify("3A", "010808E2010000000000")), "9@51");
    // Price and a market OrdType together; OrderQty and Price of zero.
    assert_eq!(answer(&modify("3F", "011CE02E000008E201000000000031")), "0");
    assert_eq!(answer(&modify("3E", &format!("010C{}", zeros(12)))), "0");
    // Side may be blank, and CancelOrigOnReject is any letter.
    assert_eq!(
        answer(&modify("40", "01AC E02E0000 08E2010000000000 7A00")),
        "0"
    );
    assert_eq!(
        answer(&modify("40", "01AC E02E0000 08E2010000000000 3000")),
        "10@64"
    );
    // Unlisted bits and counts.
    assert_eq!(
        answer(&modify("3E", "010EE02E000008E2010000000000")),
        "8@51"
    );
    assert_eq!(
        answer(&modify("3F", "020C44E02E000008E2010000000000")),
        "8@52"
    );
    assert_eq!(
        answer(&modify("40", "030C0000E02E000008E2010000000000")),
        "7@50"
    );
}

/// A bad identifier is told before the late 9, and the total before both.
#[test]
fn order_of_modify_orders() {
    let mut message = modify("37", "0114E02E000032");
    message[30] = b',';
    assert_eq!(answer(&message), "10@30");
    message[10] = 0;
    assert_eq!(answer(&message), "10@10");
    message[2] = 0x36;
    assert_eq!(answer(&message), "6@56");
    message[51] = 0x04;
    assert_eq!(answer(&message), "9@51");
}

/// Slots of a Modify Order are at 116 and on: OrderQty 4, Price 8, OrdType 16.
#[test]
fn records_of_modify_orders() {
    let market = record(&modify("37", "0114E02E000031"));
    let (price, ord_type) = (SLOTS_PLACE + 8, SLOTS_PLACE + 16);
    assert_eq!(written(&market, &[]), Ok(()));
    assert_eq!(written(&market, &[(price, 1)]), Err(Refusal::Unused));
    let late = Err(Refusal::Missing(51));
    for other in [b'2', 0] {
        assert_eq!(written(&market, &[(ord_type, other)]), late);
        assert_eq!(written(&market, &[(ord_type, other), (price, 1)]), late);
    }
    assert_eq!(
        written(&market, &[(ord_type, b'-')]),
        Err(Refusal::Value(56))
    );
    // An OrdType that is not selected does not stand in for Price, whatever its slot holds.
    assert_eq!(written(&market, &[(COUNT_PLACE + 1, 4)]), late);
    assert_eq!(
        written(&market, &[(COUNT_PLACE + 1, 0x0C)]),
        Err(Refusal::Unused)
    );
}

/// A Purge Orders of a length, its part after the header in hex.
fn purge(length: &str, rest: &str) -> Vec<u8> {
    bytes(&format!("BABA{}00470064000000{}", length, rest))
}

/// MassCancelInst of these first characters.
fn instruction(digits: &str) -> String {
    format!("{}{}", digits, zeros(16 - digits.len() / 2))
}

#[test]
fn ids() {
    let fields = format!("54455354{}414243313233{}", instruction("46534C"), zeros(14));
    let two = purge("38", &format!("00 01 15 02 BFBEC0BE {}", fields));
    assert_eq!(
        (two.len(), &two),
        (58, &examples::purge_by_ids_with_its_length())
    );
    assert_eq!(answer(&two), "0");
    assert_eq!(
        record(&two)[FIXED_PLACE..FIXED_PLACE + 8],
        [0, 2, 0xBF, 0xBE, 0xC0, 0xBE, 0, 0]
    );
    assert_eq!(answer(&examples::purge_by_ids()), "6@43");
    let ids = |count: usize| "BFBE".repeat(count);
    for (length, count, there, expected) in [
        ("34", "00", 0, "0"),
        ("48", "0A", 10, "0"),
        ("4A", "0B", 11, "10@13"),
        ("48", "0B", 10, "6@74"),
        ("48", "09", 10, "6@74"),
        ("38", "FF", 2, "6@58"),
    ] {
        let rest = format!("00 01 15 {} {} {}", count, ids(there), fields);
        assert_eq!(answer(&purge(length, &rest)), expected, "{}", count);
    }
    // A message that ends before the count, and inside the ids.
    assert_eq!(answer(&purge("0B", "00 01 04")), "6@13");
    assert_eq!(answer(&purge("0C", "00 01 04 01")), "6@14");
    assert_eq!(answer(&purge("0E", "00 01 04 02 BFBE")), "6@16");
    assert_eq!(answer(&purge("0A", "00 00")), "9@11");
    assert_eq!(answer(&purge("0B", "00 01 01")), "9@12");
    assert_eq!(answer(&purge("0B", "00 01 02")), "8@12");
    // The reserved byte is kept; ids may be alike, and stand beside a Symbol.
    let rest = format!(
        "FF 02 04 01 02 07070707 {} 4142430000000000",
        instruction("41")
    );
    assert_eq!(answer(&purge("29", &rest)), "0");
    assert_eq!(record(&purge("29", &rest))[FIXED_PLACE], 0xFF);
}

/// RiskGroupIDCnt is told before a bad field and before the late 9 and 23.
#[test]
fn order_of_ids() {
    for text in ["41", "46", "414D4C", "00"] {
        let rest = format!("00 01 04 0B {} {}", zeros(22), instruction(text));
        assert_eq!(answer(&purge("32", &rest)), "10@13");
    }
    let rest = format!(
        "00 02 05 00 0C {} 31000000 {}",
        zeros(24),
        instruction("00")
    );
    assert_eq!(answer(&purge("39", &rest)), "10@14");
}

#[test]
fn instructions() {
    for (text, expected) in [
        ("41", "0"),
        ("", "10@14"),
        ("0041", "10@14"),
        ("41004C", "10@14"),
        ("7F", "10@14"),
        ("46", "9@12"),
        ("4153", "9@12"),
        ("4142", "9@12"),
        ("414D4C", "23"),
        ("41534C", "9@12"),
        ("58", "0"),
        ("66", "0"),
        ("664D4C", "23"),
        ("584E6C", "0"),
        ("414D4E4C", "0"),
        ("414D4E465342", "0"),
    ] {
        let message = purge("1C", &format!("00 01 04 00 {}", instruction(text)));
        assert_eq!(answer(&message), expected, "{}", text);
        let longer = purge("1D", &format!("00 01 04 00 {}", instruction(text) + "41"));
        assert_eq!(answer(&longer), "6@31");
    }
    // Selected is enough; the fields may be blank.
    let firm = |text: &str| purge("20", &format!("00 01 05 00 00000000 {}", instruction(text)));
    for (text, expected) in [
        ("46", "0"),
        ("464D4C", "0"),
        ("4653", "9@12"),
        ("414D4C", "23"),
    ] {
        assert_eq!(answer(&firm(text)), expected);
    }
    let id = |text: &str| {
        purge(
            "30",
            &format!("00 01 14 00 {}{}", instruction(text), zeros(20)),
        )
    };
    for (text, expected) in [
        ("4153", "0"),
        ("4142", "0"),
        ("41534C", "23"),
        ("4653", "9@12"),
    ] {
        assert_eq!(answer(&id(text)), expected);
    }
}

#[test]
fn symbols_and_units() {
    let symbol = "4142430000000000";
    let with = |symbol: &str, text: &str, unit: &str| {
        let rest = format!("00 02 04 81 00 {} {} {}", instruction(text), symbol, unit);
        answer(&purge("26", &rest))
    };
    assert_eq!(with(symbol, "41", "00"), "0");
    assert_eq!(with(symbol, "41", "03"), "23");
    assert_eq!(with(symbol, "41", "FF"), "23");
    assert_eq!(with(&zeros(8), "41", "01"), "23");
    assert_eq!(with(symbol, "46", "03"), "9@13");
    assert_eq!(with("2D42430000000000", "46", "03"), "10@31");
    for unit in ["00", "03", "21", "FF"] {
        let alone = format!("00 02 04 80 00 {} {}", instruction("41"), unit);
        assert_eq!(answer(&purge("1E", &alone)), "0");
        let suffix = format!("00 02 04 82 00 {} {} {}", instruction("41"), symbol, unit);
        assert_eq!(answer(&purge("26", &suffix)), "0");
    }
}

/// Tables 31 and 32: their lengths are off, and with the length of their bytes they are sound.
#[test]
fn examples_of_purges() {
    assert_eq!(answer(&examples::purge_by_ids()), "6@43");
    assert_eq!(answer(&examples::purge_by_ids_with_its_length()), "0");
    let printed = examples::purge_by_symbol();
    assert_eq!(answer(&printed), "3");
    assert_eq!(answer(&[printed, vec![0; 2]].concat()), "6@65");
    assert_eq!(answer(&examples::purge_by_symbol_with_its_length()), "0");
}

/// Slots of a Purge Orders are at 116 and on: ClearingFirm 0, MassCancelInst 4, MassCancelID 20, Symbol
/// 40, SymbolSfx 48, MatchingUnit 56.
#[test]
fn records_of_purges() {
    let least = record(&purge("1C", &format!("00 01 04 00 {}", instruction("41"))));
    let bits = COUNT_PLACE + 1;
    let slot = |place: usize| SLOTS_PLACE + place;
    assert_eq!(written(&least, &[]), Ok(()));
    // A MatchingUnit that is not selected does not speak, alone and beside a Symbol.
    assert_eq!(written(&least, &[(slot(56), 3)]), Err(Refusal::Unused));
    let both = [
        (COUNT_PLACE, 2),
        (bits + 1, 1),
        (slot(40), b'A'),
        (slot(56), 3),
    ];
    assert_eq!(written(&least, &both), Err(Refusal::Unused));
    assert_eq!(written(&least, &both[..3]), Ok(()));
    let selected = [&both[..], &[(bits + 1, 0x81)]].concat();
    assert_eq!(written(&least, &selected), Err(Refusal::Conflict));
    // Late 9, then 23, then 12.
    let late = [&selected[..], &[(slot(4), b'F')]].concat();
    assert_eq!(written(&least, &late), Err(Refusal::Missing(13)));
    let late = [&late[..], &[(slot(0), b'T')]].concat();
    assert_eq!(written(&least, &late), Err(Refusal::Missing(13)));
    let conflict = [&selected[..], &[(slot(0), b'T')]].concat();
    assert_eq!(written(&least, &conflict), Err(Refusal::Conflict));
    assert_eq!(written(&least, &[(slot(6), b'L')]), Err(Refusal::Value(14)));
    let lockout = [(slot(5), b'M'), (slot(6), b'L')];
    assert_eq!(written(&least, &lockout), Err(Refusal::Conflict));
    assert_eq!(written(&least, &[(slot(4), 0)]), Err(Refusal::Value(14)));
    // Without room the conflict still comes first.
    let mut bad = least.clone();
    bad[slot(5)..slot(7)].copy_from_slice(b"ML");
    assert_eq!(write::record(MEMBER, &bad, &mut []), Err(Refusal::Conflict));
    assert_eq!(
        write::record(MEMBER, &least, &mut [0; 29]),
        Err(Refusal::Room)
    );
}

/// The fixed part of a record: the reserved byte at 6, RiskGroupIDCnt at 7, the ids from 8 on. Their
/// places are those of the message that would be written.
#[test]
fn ids_of_records() {
    let least = record(&purge("1C", &format!("00 01 04 00 {}", instruction("41"))));
    for count in 0..=10 {
        let mut more = least.clone();
        more[7] = count;
        more[8..8 + 2 * usize::from(count)].fill(0xAB);
        let mut buffer = [0xEE; 100];
        assert_eq!(write::record(MEMBER, &more, &mut buffer), Ok(()));
        assert_eq!(read::message(MEMBER, &buffer), Ok(more.clone()));
        let inst = 14 + 2 * usize::from(count);
        assert_eq!(buffer[inst], b'A');
        let bad = [(SLOTS_PLACE + 4, 7)];
        assert_eq!(written(&more, &bad), Err(Refusal::Value(inst)));
        // What follows the last id is zero.
        for place in 8 + 2 * usize::from(count)..COUNT_PLACE {
            assert_eq!(written(&more, &[(place, 1)]), Err(Refusal::Unused));
        }
    }
    for count in [11, 12, 44, 45, 255] {
        let changes = [(7, count), (95, 1), (SLOTS_PLACE + 4, 7)];
        assert_eq!(written(&least, &changes), Err(Refusal::Value(13)));
        let changes = [&changes[..], &[(COUNT_PLACE, 2)]].concat();
        assert_eq!(written(&least, &changes), Err(Refusal::Value(14)));
        let changes = [&changes[..], &[(COUNT_PLACE + 1, 0)]].concat();
        assert_eq!(written(&least, &changes), Err(Refusal::Missing(13)));
    }
}
