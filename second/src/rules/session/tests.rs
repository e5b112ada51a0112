use super::*;
use crate::examples;
use crate::questions::parts::measure;
use crate::rules::{self, read, write};

fn reads(direction: u8, message: &[u8]) -> u8 {
    rules::refusal(read::message(direction, message))
}

fn writes(direction: u8, record: &[u8], buffer: &mut [u8]) -> u8 {
    rules::refusal(write::record(direction, record, buffer))
}

/// The answer to a message with a length that fits it.
fn reads_measured(direction: u8, message: &[u8]) -> u8 {
    let mut message = message.to_vec();
    measure(&mut message);
    reads(direction, &message)
}

/// The places that document 01 gives, and 000 for the venue's messages.
#[test]
fn places_of_the_fixed_parts() {
    let places = |session: &Session| {
        let mut at = HEADER;
        let mut text = format!("{:02X} {}:", session.type_byte, session.direction());
        for field in session.fields {
            let letter = field.kind.letter();
            text.push_str(&format!(" {} {} {}{}", field.name, at, field.width, letter));
            at += field.width;
        }
        for list in session.lists {
            text.push_str(&format!(" {:?}", list));
        }
        text
    };
    let all: Vec<String> = ALL.iter().map(places).collect();
    assert_eq!(
        all,
        [
            "37 0: SessionSubID 10 4N Username 14 4N Password 18 10N Groups",
            "24 1: LoginResponseStatus 10 1N LoginResponseText 11 60T \
             NoUnspecifiedUnitReplay 71 1B LastReceivedSequenceNumber 72 4B Pairs Groups",
            "08 1: LogoutReason 10 1N LogoutReasonText 11 60T \
             LastReceivedSequenceNumber 71 4B Pairs",
            "03 0:",
            "09 1:",
            "13 1:",
        ]
    );
}

#[test]
fn p14() {
    let login = examples::options_login();
    assert_eq!(login.len(), 63);
    let record = read::message(0, &login).unwrap();
    assert_eq!(record.len(), 439);
    assert_eq!(record[..6], [0x37, 0, 0, 0, 0, 0]);
    assert_eq!(record[6..24], *b"0001TESTTESTING\0\0\0");
    // The first group: 15 bytes, flag 1, two units, and unit 1 at 113,482.
    assert_eq!(record[24..31], [3, 15, 0, 0x80, 1, 2, 1]);
    assert_eq!(number::get(&record, 31, 4), 113_482);
    assert_eq!(record[6..59], login[10..]);
    assert_eq!(record[59..], [0; 380]);
}

/// Of document 000's examples the bytes count: a unit three times, and a length too short.
#[test]
fn examples_of_the_documents() {
    assert_eq!(reads(0, &examples::login()), 0);
    assert_eq!(reads(0, &examples::client_heartbeat()), 0);
    assert_eq!(reads(1, &examples::login_response()), 11);
    assert_eq!(reads(1, &examples::login_response_of_the_notes()), 0);
    assert_eq!(reads(1, &examples::logout()), 11);
    assert_eq!(reads(1, &examples::logout()[..87]), 11);
    assert_eq!(reads(1, &examples::logout()[..86]), 3);
    let logout = read::message(1, &examples::logout_with_its_length()).unwrap();
    assert_eq!(number::get(&logout, 67, 4), 154_196);
    assert_eq!(reads(1, &examples::server_heartbeat()), 0);
    assert_eq!(reads(1, &examples::replay_complete()), 0);
    for direction in [0, 1, 2] {
        assert_eq!(reads(direction, &examples::logout_request()), 4);
    }
}

#[test]
fn directions() {
    for session in &ALL {
        let message = [0xBA, 0xBA, 8, 0, session.type_byte, 0, 0, 0, 0, 0];
        for direction in 0..=255 {
            // Both members send the same.
            let known = match session.direction() {
                0 => direction == 0 || direction == 2,
                _ => direction == 1,
            };
            assert_eq!(reads(direction, &message) == 4, !known);
        }
    }
}

/// Letters, digits, blank, and the byte of a protocol violation.
#[test]
fn reasons() {
    let mut logout = examples::logout_with_its_length();
    let mut response = examples::login_response_of_the_notes();
    for byte in 0..=255_u8 {
        let taken = byte == 0 || byte.is_ascii_alphanumeric();
        logout[10] = byte;
        assert_eq!(reads(1, &logout) == 0, taken || byte == b'!');
        response[10] = byte;
        assert_eq!(reads(1, &response), if taken { 0 } else { 10 });
    }
}

/// One fault after another is taken away, and the next in the order is told.
#[test]
fn order_of_reading() {
    let good = examples::login_response_of_the_notes();
    let mut bad = good.clone();
    bad[5] = 1;
    bad[10] = b'!';
    bad[71] = 2;
    bad.push(0);
    assert_eq!(reads_measured(0, &bad), 4);
    assert_eq!(reads_measured(1, &bad), 5);
    bad[5] = 0;
    bad[9] = 1;
    assert_eq!(reads_measured(1, &bad), 5);
    bad[9] = 0;
    assert_eq!(reads_measured(1, &bad[..76]), 6);
    assert_eq!(reads_measured(1, &bad[..77]), 10);
    assert_eq!(reads_measured(1, &bad), 10);
    bad[10] = b'A';
    assert_eq!(reads_measured(1, &bad[..76]), 6);
    assert_eq!(reads_measured(1, &bad), 11);
    bad[71] = 1;
    assert_eq!(reads_measured(1, &bad), 6);
    for end in 77..good.len() {
        assert_eq!(reads_measured(1, &good[..end]), 11);
    }
    bad.pop();
    assert_eq!(bad, good);
    assert_eq!(reads_measured(1, &bad), 0);
}

/// Where the fixed part ends, and what is missing or left after it.
#[test]
fn ends_of_the_fixed_parts() {
    for (direction, whole, fixed) in [
        (0, examples::login(), 29),
        (1, examples::login_response_of_the_notes(), 77),
        (1, examples::logout_with_its_length(), 76),
    ] {
        for end in HEADER..whole.len() {
            let expected = if end < fixed { 6 } else { 11 };
            assert_eq!(reads_measured(direction, &whole[..end]), expected);
        }
        let mut longer = whole.clone();
        longer.push(0);
        assert_eq!(reads_measured(direction, &longer), 6);
    }
    // No units, and the count of groups is not there.
    let mut response = examples::login_response()[..77].to_vec();
    response[76] = 0;
    assert_eq!(reads_measured(1, &response), 11);
    response.push(0);
    assert_eq!(reads_measured(1, &response), 0);
    let mut logout = examples::logout()[..76].to_vec();
    logout[75] = 0;
    assert_eq!(reads_measured(1, &logout), 0);
    let mut login = examples::login()[..29].to_vec();
    login[28] = 0;
    assert_eq!(reads_measured(0, &login), 0);
    for mut bare in [examples::server_heartbeat(), examples::replay_complete()] {
        bare.push(0);
        assert_eq!(reads_measured(1, &bare), 6);
    }
}

/// The first byte of the first bad field, read and written, and the message's end.
#[test]
fn places() {
    let told = |direction: u8, message: &[u8]| read::message(direction, message).unwrap_err();
    let mut login = examples::options_login();
    let mut record = read::message(0, &login).unwrap();
    login.push(0);
    measure(&mut login);
    assert_eq!(login[2], 0x3E);
    assert_eq!(told(0, &login), Refusal::Total(64));
    for (place, first) in [(27, 18), (18, 18), (17, 14), (14, 14), (10, 10)] {
        login[place] = 0x2D;
        assert_eq!(told(0, &login), Refusal::Value(first));
        record[place - 4] = 0x2D;
        let written = write::record(0, &record, &mut []);
        assert_eq!(written, Err(Refusal::Value(first)));
    }
    let mut logout = examples::logout_with_its_length();
    logout[30] = 7;
    assert_eq!(told(1, &logout), Refusal::Value(11));
    logout[10] = b'"';
    assert_eq!(told(1, &logout), Refusal::Value(10));
    logout[2..4].copy_from_slice(&[73, 0]);
    assert_eq!(told(1, &logout), Refusal::Total(75));
    let mut heartbeat = examples::client_heartbeat();
    heartbeat.push(0);
    measure(&mut heartbeat);
    assert_eq!(told(0, &heartbeat), Refusal::Total(11));
}

#[test]
fn order_of_writing() {
    let message = examples::logout_with_its_length();
    let good = read::message(1, &message).unwrap();
    let mut bad = good.clone();
    let mut buffer = [0xEE; 90];
    bad[5] = 1;
    bad[6] = b'"';
    bad[438] = 1;
    assert_eq!(writes(0, &[], &mut buffer), 13);
    assert_eq!(writes(0, &bad[..1], &mut buffer), 4);
    assert_eq!(writes(0, &bad, &mut buffer), 4);
    assert_eq!(writes(1, &bad[..438], &mut buffer), 13);
    assert_eq!(writes(1, &bad, &mut buffer), 5);
    bad[5] = 0;
    assert_eq!(writes(1, &bad, &mut buffer), 10);
    bad[6] = b'U';
    assert_eq!(writes(1, &bad, &mut buffer), 11);
    bad[438] = 0;
    assert_eq!(bad, good);
    assert_eq!(writes(1, &bad, &mut buffer), 13);
    assert_eq!(buffer, [0xEE; 90]);
    let mut buffer = [0xEE; 92];
    assert_eq!(writes(1, &bad, &mut buffer), 0);
    assert_eq!(buffer[..91], message);
    assert_eq!(buffer[91], 0xEE);
}

/// Every place that a message does not use must be zero.
#[test]
fn unused_places() {
    for (direction, message, number) in [
        (0, examples::options_login(), 11),
        (1, examples::login_response_of_the_notes(), 11),
        (1, examples::logout_with_its_length(), 11),
        (0, examples::client_heartbeat(), 12),
        (1, examples::server_heartbeat(), 12),
        (1, examples::replay_complete(), 12),
    ] {
        let good = read::message(direction, &message).unwrap();
        for place in message.len() - 4..439 {
            let mut bad = good.clone();
            bad[place] = 0x80;
            assert_eq!(writes(direction, &bad, &mut []), number);
        }
        assert_eq!(writes(direction, &good, &mut []), 13);
    }
}
