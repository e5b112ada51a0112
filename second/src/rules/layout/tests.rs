use super::*;
use crate::rules::record;
use crate::rules::types::{MEMBER, OPTIONS_MEMBER};

/// By the type of its record.
fn layout(record_type: u8) -> &'static Layout {
    ALL.iter()
        .find(|layout| layout.record_type == record_type)
        .unwrap()
}

/// The places that document 01 gives, and 000 for the execution and the rejections.
#[test]
fn places_of_the_fixed_parts() {
    let places = |type_byte: u8| {
        let mut at = HEADER;
        let mut text = String::new();
        for field in layout(type_byte).fixed {
            text.push_str(&format!("{} {} ", field.name, at));
            at += field.width;
        }
        text.push_str(&format!("count {}", at));
        assert_eq!(at, layout(type_byte).count_place());
        text
    };
    for record_type in [0x38, 0xB8] {
        assert_eq!(
            places(record_type),
            "ClOrdID 10 Side 30 OrderQty 31 count 35"
        );
    }
    assert_eq!(places(0x39), "OrigClOrdID 10 count 30");
    assert_eq!(
        places(0x25),
        "TransactionTime 10 ClOrdID 18 OrderID 38 Reserved 46 count 47"
    );
    assert_eq!(
        places(0x2C),
        "TransactionTime 10 ClOrdID 18 ExecID 38 LastShares 46 LastPx 50 LeavesQty 58 \
         BaseLiquidityIndicator 62 SubLiquidityIndicator 63 ContraBroker 64 Reserved 68 count 69"
    );
    assert_eq!(places(0x3A), "ClOrdID 10 OrigClOrdID 30 count 50");
    assert_eq!(places(0x47), "Reserved 10 count 11");
    for type_byte in [0x26, 0x2B, 0x29] {
        assert_eq!(
            places(type_byte),
            "TransactionTime 10 ClOrdID 18 RejectReason 38 Text 39 Reserved 99 count 100"
        );
    }
}

/// Widths and kinds, once more as the documents have them; `!` is never blank.
#[test]
fn forms_of_the_fields() {
    let forms = |type_byte: u8| {
        let layout = layout(type_byte);
        let mut text = String::new();
        for field in layout.fixed {
            let rule = match field.rule {
                Rule::Any(kind) => kind.letter().to_string(),
                Rule::Filled(kind) => format!("{}!", kind.letter()),
                Rule::Quantity => "quantity".to_string(),
            };
            text.push_str(&format!("{}{} ", field.width, rule));
        }
        text.push_str(&format!("most {}", layout.most));
        let mut byte = 0;
        for field in layout.listed {
            if field.byte != byte {
                byte = field.byte;
                text.push_str(&format!(" byte {}:", byte));
            }
            let letter = field.kind.letter();
            text.push_str(&format!(" {} {}{}", field.bit, field.width, letter));
        }
        text
    };
    assert_eq!(
        forms(0x38),
        "20I! 1N! 4quantity most 10 \
         byte 1: 1 4A 2 4T 4 8P 8 1T 16 1N 32 1N 64 4B 128 4B \
         byte 2: 1 8N 2 8N 64 1A 128 4T \
         byte 3: 1 16T 64 1A 128 8B \
         byte 6: 1 4B 2 8P 16 1T 32 64T \
         byte 10: 2 4A"
    );
    assert_eq!(forms(0x39), "20I! most 2 byte 1: 1 4A");
    assert_eq!(
        forms(0x25),
        "8B 20I! 8B 1B most 15 \
         byte 1: 1 1N 4 8P 8 1T 16 1N 32 1N 64 4B \
         byte 2: 1 8N 2 8N 64 1A \
         byte 3: 1 16T 2 4A 4 4T 16 4B 64 4B \
         byte 5: 2 4B 4 4B 8 8P 128 8B"
    );
    assert_eq!(
        forms(0x2C),
        "8B 20I! 8B 4B 8P 4B 1N 1N 4N 1B most 15 \
         byte 1: 1 1N 4 8P 8 1T 16 1N 32 1N 64 4B \
         byte 2: 1 8N 2 8N 64 1A \
         byte 3: 1 16T 2 4A 4 4T 16 4B 64 4B"
    );
    assert_eq!(
        forms(0x26),
        "8B 20I! 1T 60T 1B most 19 \
         byte 1: 1 1N 2 8P 4 8P 8 1T 16 1N 32 1N 64 4B \
         byte 2: 1 8N 2 8N 64 1A \
         byte 3: 1 16T 2 4A 4 4T 8 1N 16 4B 32 2B 64 4B 128 3N \
         byte 6: 1 8B 8 1N 16 1T \
         byte 8: 2 64T 4 8P 8 4T 16 6T 32 3T 64 1T"
    );
    assert_eq!(
        forms(0x2B),
        "8B 20I! 1T 60T 1B most 19 \
         byte 1: 1 1N 2 8P 4 8P 8 1T 16 1N 32 1N 64 4B \
         byte 2: 1 8N 2 8N 64 1A \
         byte 8: 2 64T 4 8P"
    );
    assert_eq!(forms(0x29), "8B 20I! 1T 60T 1B most 19");
    assert_eq!(
        forms(0x3A),
        "20I! 20I! most 2 \
         byte 1: 1 4A 4 4B 8 8P 16 1N 32 1A 64 1T 128 1N \
         byte 2: 1 4B 2 8P 128 4A"
    );
    assert_eq!(
        forms(0x47),
        "1B most 2 \
         byte 1: 1 4A 4 16F 16 20T \
         byte 2: 1 8N 2 8N 128 1B"
    );
    assert_eq!(
        forms(0xB8),
        "20I! 1N! 4quantity most 10 \
         byte 1: 1 4A 2 4T 4 8P 8 1T 16 1N 32 1N 64 4B 128 4B \
         byte 2: 1 8N 64 1A 128 4T \
         byte 3: 1 16T \
         byte 4: 1 4D 2 8P 4 1N 16 1N"
    );
}

/// First byte first and lowest bit first, each of them a single bit within the bitfields.
#[test]
fn order_of_the_bits() {
    for layout in &ALL {
        let orders: Vec<(usize, u8)> = layout
            .listed
            .iter()
            .map(|field| (field.byte, field.bit))
            .collect();
        assert!(orders.windows(2).all(|pair| pair[0] < pair[1]));
        for field in layout.listed {
            assert!((1..=layout.most).contains(&field.byte));
            assert_eq!(field.bit.count_ones(), 1);
        }
    }
}

#[test]
fn counts_and_sums_of_the_bits() {
    let sums: Vec<(usize, usize)> = ALL
        .iter()
        .map(|layout| {
            let widths = layout.listed.iter().map(|field| field.width).sum();
            (layout.listed.len(), widths)
        })
        .collect();
    assert_eq!(
        sums,
        [
            (20, 154),
            (1, 4),
            (18, 89),
            (14, 65),
            (27, 175),
            (12, 113),
            (0, 0),
            (10, 36),
            (6, 57),
            (16, 70)
        ]
    );
    let bitfields = |type_byte: u8| {
        let mut bitfields = [0; 19];
        for field in layout(type_byte).listed {
            bitfields[field.byte - 1] |= field.bit;
        }
        bitfields
    };
    assert_eq!(
        bitfields(0x38),
        [255, 195, 193, 0, 0, 51, 0, 0, 0, 2, 0, 0, 0, 0, 0, 0, 0, 0, 0]
    );
    assert_eq!(bitfields(0x39)[..3], [1, 0, 0]);
    assert_eq!(bitfields(0x25)[..6], [125, 67, 87, 0, 142, 0]);
    assert_eq!(bitfields(0x2C)[..6], [125, 67, 87, 0, 0, 0]);
    assert_eq!(bitfields(0x26)[..9], [127, 67, 255, 0, 0, 25, 0, 126, 0]);
    assert_eq!(bitfields(0x2B)[..9], [127, 67, 0, 0, 0, 0, 0, 6, 0]);
    assert_eq!(bitfields(0x29), [0; 19]);
    assert_eq!(bitfields(0x3A)[..3], [253, 131, 0]);
    assert_eq!(bitfields(0x47)[..3], [21, 131, 0]);
    assert_eq!(bitfields(0xB8)[..6], [255, 193, 1, 23, 0, 0]);
}

/// A field has one width and one kind wherever it is listed.
#[test]
fn same_field_same_form() {
    let listed: Vec<&Listed> = ALL.iter().flat_map(|layout| layout.listed).collect();
    for one in &listed {
        for other in &listed {
            if one.name == other.name {
                assert_eq!((one.width, one.kind), (other.width, other.kind));
            }
        }
    }
}

#[test]
fn all_fit_a_record() {
    for layout in &ALL {
        let slots: usize = layout.listed.iter().map(|field| field.width).sum();
        let most = match layout.middle {
            Middle::Nothing => 0,
            Middle::RiskGroups { most } => layout.middle.width(&[most]),
        };
        assert!(layout.fixed_width() + most <= record::FIXED);
        assert!(layout.most <= record::BITFIELDS);
        assert!(slots <= record::SLOTS);
    }
}

/// On the wire both markets have the same types; the records of their New Orders have two.
#[test]
fn only_nine_types() {
    for direction in 0..=255 {
        for type_byte in 0..=255 {
            let pair = (direction, type_byte);
            let venue = matches!(pair, (1, 0x25 | 0x2C | 0x26 | 0x2B | 0x29));
            let both = matches!(pair, (0 | 2, 0x39 | 0x3A | 0x47));
            let expected = venue || both || matches!(pair, (0 | 2, 0x38));
            let known = Layout::of(direction, type_byte).is_ok();
            assert_eq!(known, expected, "{} {}", direction, type_byte);
            let expected = venue || both || matches!(pair, (0, 0x38) | (2, 0xB8));
            let known = Layout::of_record(direction, type_byte).is_ok();
            assert_eq!(known, expected, "{} {}", direction, type_byte);
        }
    }
    for (direction, record_type) in [(0, 0x38), (2, 0xB8)] {
        let layout = Layout::of(direction, 0x38).unwrap();
        assert_eq!((layout.type_byte, layout.record_type), (0x38, record_type));
    }
}

#[test]
fn units_and_numbers() {
    for layout in &ALL {
        let unsequenced = [0x26, 0x2B, 0x29].contains(&layout.type_byte);
        for unit in 0..=255 {
            for number in [0, 1, 256, u32::MAX] {
                let good = match layout.direction() {
                    MEMBER | OPTIONS_MEMBER => unit == 0,
                    _ if unsequenced => unit == 0 && number == 0,
                    _ => unit > 0 && unit < 33,
                };
                assert_eq!(layout.check_header(unit, number).is_ok(), good);
            }
        }
    }
}

#[test]
fn quantities() {
    let takes = |quantity: u32| Rule::Quantity.takes(&quantity.to_le_bytes());
    for quantity in [1, 2, 65_536, 999_998, 999_999] {
        assert!(takes(quantity));
    }
    for quantity in [0, 1_000_000, 1_000_001, 16_777_216, u32::MAX] {
        assert!(!takes(quantity));
    }
}

/// All 16 choices of the four fields that the rule names.
#[test]
fn required_fields() {
    for new_order in [layout(0x38), layout(0xB8)] {
        for choice in 0..16_u8 {
            let (price, ord_type) = (choice & 1 != 0, choice & 2 != 0);
            let (symbol, capacity) = (choice & 4 != 0, choice & 8 != 0);
            let first = u8::from(price) * 4 + u8::from(ord_type) * 16;
            let second = u8::from(symbol) + u8::from(capacity) * 64;
            let good = symbol && capacity && (price || ord_type);
            for bitfields in [vec![first, second], vec![first | 0x20, second | 0x80, 1]] {
                let result = new_order.check_required(&bitfields);
                assert_eq!(result.is_ok(), good, "{:?}", bitfields);
            }
        }
        assert_eq!(new_order.check_required(&[]), Err(Refusal::Missing(35)));
        assert_eq!(new_order.check_required(&[0x14]), Err(Refusal::Missing(36)));
    }
    for type_byte in [0x39, 0x25, 0x2C, 0x26, 0x2B, 0x29] {
        assert_eq!(layout(type_byte).check_required(&[]), Ok(()));
    }
}

/// OrderQty, and Price or OrdType; MassCancelInst.
#[test]
fn required_fields_of_request_1() {
    let (modify, purge) = (layout(0x3A), layout(0x47));
    for bits in 0..=255 {
        for bitfields in [vec![bits], vec![bits, 0x83]] {
            let (quantity, price_or_type) = (bits & 4 != 0, bits & 0x18 != 0);
            let good = modify.check_required(&bitfields).is_ok();
            assert_eq!(good, quantity && price_or_type);
            assert_eq!(purge.check_required(&bitfields).is_ok(), bits & 4 != 0);
        }
    }
    assert_eq!(modify.check_required(&[]), Err(Refusal::Missing(50)));
    assert_eq!(modify.check_required(&[8, 0]), Err(Refusal::Missing(52)));
    assert_eq!(purge.check_required(&[]), Err(Refusal::Missing(11)));
    assert_eq!(purge.check_required(&[0x11]), Err(Refusal::Missing(12)));
}

/// The selected fields with their places in the message and in the full layout.
fn names(record_type: u8, bitfields: &[u8], middle: usize) -> String {
    let places = layout(record_type).places(bitfields, middle);
    let names = places.iter();
    let names = names.map(|place| format!("{} {}/{}", place.field.name, place.wire, place.slot));
    names.collect::<Vec<String>>().join(" ")
}

/// Document 002's example, and the longest options order.
#[test]
fn places_of_the_fields_of_request_4() {
    assert_eq!(
        names(0xB8, &[0x04, 0xC1, 0x01, 0x17], 0),
        "Price 40/8 Symbol 48/27 Capacity 56/35 RoutingInst 57/36 Account 61/40 \
         MaturityDate 77/56 StrikePrice 81/60 PutOrCall 89/68 OpenClose 90/69"
    );
    assert_eq!(layout(0xB8).total(&[0x04, 0xC1, 0x01, 0x17], 0), 91);
    assert_eq!(
        names(0xB8, &[0xFF, 0xC1, 0x01, 0x17], 0),
        "ClearingFirm 40/0 ClearingAccount 44/4 Price 48/8 ExecInst 56/16 OrdType 57/17 \
         TimeInForce 58/18 MinQty 59/19 MaxFloor 63/23 Symbol 67/27 Capacity 75/35 \
         RoutingInst 76/36 Account 80/40 MaturityDate 96/56 StrikePrice 100/60 \
         PutOrCall 108/68 OpenClose 109/69"
    );
    assert_eq!(layout(0xB8).total(&[0xFF, 0xC1, 0x01, 0x17], 0), 110);
}

/// Document 000's examples, and the longest messages.
#[test]
fn places_of_the_fields_of_request_1() {
    assert_eq!(names(0x3A, &[0x0C], 0), "OrderQty 52/4 Price 56/8");
    assert_eq!(
        names(0x47, &[0x15], 5),
        "ClearingFirm 18/0 MassCancelInst 22/4 MassCancelID 38/20"
    );
    assert_eq!(
        names(0x47, &[0x15, 0x01], 1),
        "ClearingFirm 15/0 MassCancelInst 19/4 MassCancelID 35/20 Symbol 55/40"
    );
    assert_eq!(
        names(0x3A, &[0xFD, 0x83], 0),
        "ClearingFirm 53/0 OrderQty 57/4 Price 61/8 OrdType 69/16 CancelOrigOnReject 70/17 \
         ExecInst 71/18 Side 72/19 MaxFloor 73/20 StopPx 77/24 LocateBroker 85/32"
    );
    assert_eq!(
        names(0x47, &[0x15, 0x83], 21),
        "ClearingFirm 35/0 MassCancelInst 39/4 MassCancelID 55/20 Symbol 75/40 SymbolSfx 83/48 \
         MatchingUnit 91/56"
    );
    assert_eq!(layout(0x3A).total(&[0xFD, 0x83], 0), 89);
    assert_eq!(layout(0x47).total(&[0x15, 0x83], 21), 92);
    assert_eq!(layout(0x47).total(&[0x04], 1), 30);
}
