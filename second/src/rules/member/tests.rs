use super::*;
use crate::examples;
use crate::rules::login::Choice;
use crate::rules::refusal;
use crate::rules::table::entry;

type Call = fn(&mut Member, &[u8], &mut [u8]) -> Result<(), Refusal>;

const DATE: u32 = 20_250_819;
const PHASES: [Phase; 4] = [Phase::Closed, Phase::Asked, Phase::Replaying, Phase::Live];

/// A member in a phase with document 01's book, and its buffer.
fn member(phase: Phase) -> (Member, Vec<u8>) {
    let mut buffer = vec![0xFF; 300];
    let mut member = Member::blank();
    assert_eq!(member.open(DATE, &mut buffer, Market::Equities), Ok(()));
    let message = examples::booked_acknowledgment();
    assert_eq!(member.book.append(&mut buffer, &message), Ok(()));
    member.phase = phase;
    member.outgoing = 7;
    (member, buffer)
}

fn second_message() -> Vec<u8> {
    let mut message = examples::booked_acknowledgment();
    message[6] = 2;
    message
}

fn response(status: u8) -> Vec<u8> {
    let mut message = examples::login_response_of_the_notes();
    message[10] = status;
    message
}

/// Each type in each phase, by the phases that follow; the refused leave all as it was.
#[test]
fn phases() {
    for (message, expected) in [
        (response(b'A'), [16, 2, 16, 16]),
        (response(b'a'), [16, 0, 16, 16]),
        (response(0), [16, 0, 16, 16]),
        (examples::logout_with_its_length(), [16, 0, 0, 0]),
        (second_message(), [16, 16, 2, 3]),
        (examples::server_heartbeat(), [16, 16, 2, 3]),
        (examples::replay_complete(), [16, 16, 3, 16]),
        (examples::order_rejected(), [16, 16, 2, 3]),
        (examples::cancel_rejected(), [16, 16, 2, 3]),
        (examples::modify_rejected(), [16, 16, 2, 3]),
        (examples::client_heartbeat(), [16, 4, 4, 4]),
        (examples::cancel(), [16, 4, 4, 4]),
    ] {
        for (phase, expected) in PHASES.into_iter().zip(expected) {
            let (mut member, mut buffer) = self::member(phase);
            let before = (member.clone(), buffer.clone());
            let answer = refusal(member.get(&message, &mut buffer));
            if expected > 3 {
                assert_eq!(answer, expected);
                assert_eq!((member, buffer), before);
                continue;
            }
            assert_eq!(answer, 0);
            assert_eq!(member.phase, PHASES[usize::from(expected)]);
            let closed = expected == 0;
            assert_eq!(member.book.last, if closed { 73 } else { 0 });
            let taken = if message[4] == 0x25 { 2 } else { 1 };
            assert_eq!(entry(&member.book.table, 1), taken);
            let accepted = message == response(b'A');
            assert_eq!(member.outgoing, if accepted { 0x0002_4A54 } else { 7 });
        }
    }
}

/// The calls that take one kind alone: to them another type is 4, where they are not closed, and
/// the phases are those of `get`, which answers alike for their own kind.
#[test]
fn calls_for_one_kind() {
    let mut lame = second_message();
    lame[18] = b' ';
    let mut rejected = response(b'a');
    rejected[5] = 1;
    for (message, by_message, by_response) in [
        (second_message(), [16, 16, 0, 0], [16, 4, 4, 4]),
        (lame, [16, 10, 10, 10], [16, 4, 4, 4]),
        (response(b'A'), [16, 4, 4, 4], [16, 0, 16, 16]),
        (response(b'a'), [16, 4, 4, 4], [16, 0, 16, 16]),
        (rejected, [16, 4, 4, 4], [16, 5, 5, 5]),
        (
            examples::logout_with_its_length(),
            [16, 4, 4, 4],
            [16, 4, 4, 4],
        ),
        (examples::server_heartbeat(), [16, 4, 4, 4], [16, 4, 4, 4]),
        (examples::replay_complete(), [16, 4, 4, 4], [16, 4, 4, 4]),
        (examples::order_rejected(), [16, 4, 4, 4], [16, 4, 4, 4]),
        (examples::cancel_rejected(), [16, 4, 4, 4], [16, 4, 4, 4]),
        (examples::modify_rejected(), [16, 4, 4, 4], [16, 4, 4, 4]),
        (examples::cancel(), [16, 4, 4, 4], [16, 4, 4, 4]),
        (vec![0xBA], [16, 3, 3, 3], [16, 3, 3, 3]),
        (vec![0xBA, 0xBA, 7, 0], [16, 2, 2, 2], [16, 2, 2, 2]),
        (vec![0], [16, 1, 1, 1], [16, 1, 1, 1]),
    ] {
        for (index, phase) in PHASES.into_iter().enumerate() {
            let (before, start) = self::member(phase);
            let (mut any, mut any_buffer) = (before.clone(), start.clone());
            let any_answer = refusal(any.get(&message, &mut any_buffer));
            for (expected, call) in [
                (by_message[index], Member::message as Call),
                (by_response[index], Member::response),
            ] {
                let (mut member, mut buffer) = (before.clone(), start.clone());
                let answer = refusal(call(&mut member, &message, &mut buffer));
                assert_eq!(answer, expected);
                if answer == 4 {
                    assert_eq!((member, &buffer), (before.clone(), &start));
                } else {
                    assert_eq!(answer, any_answer);
                    assert_eq!((member, &buffer), (any.clone(), &any_buffer));
                }
            }
        }
    }
}

/// What is handed to the desk leaves session, book and buffer as they were, whatever the room.
#[test]
fn rejections() {
    for message in [
        examples::order_rejected(),
        examples::cancel_rejected(),
        examples::modify_rejected(),
    ] {
        for phase in [Phase::Replaying, Phase::Live] {
            let (mut member, mut buffer) = self::member(phase);
            let before = (member.clone(), buffer.clone());
            for room in [0, 73, 300] {
                let answer = member.get(&message, &mut buffer[..room]);
                assert_eq!(answer, Ok(Told::Handed));
                assert_eq!((member.clone(), buffer.clone()), before);
            }
            assert_eq!(member.get(&second_message(), &mut buffer), Ok(Told::Booked));
            let beat = member.get(&examples::server_heartbeat(), &mut buffer);
            assert_eq!(beat, Ok(Told::Nothing));
        }
        // The reader's come before 16 for the phase, and after it if closed.
        for (place, expected) in [(5, 5), (6, 5), (9, 5), (100, 7), (18, 10)] {
            let mut bad = message.clone();
            bad[place] = if place == 100 { 20 } else { b',' };
            for (phase, expected) in PHASES.into_iter().zip([16, expected, expected, expected]) {
                let (mut member, mut buffer) = self::member(phase);
                assert_eq!(refusal(member.get(&bad, &mut buffer)), expected);
            }
        }
    }
}

/// What follows the first message plays no part; there is room for it or not.
#[test]
fn first_of_two() {
    let two = [second_message(), response(b'A')].concat();
    let (mut member, mut buffer) = self::member(Phase::Live);
    assert_eq!(refusal(member.message(&two, &mut buffer[..129])), 13);
    assert_eq!(refusal(member.response(&two, &mut buffer)), 4);
    assert_eq!(member.message(&two, &mut buffer[..130]), Ok(()));
    assert_eq!((member.book.length, buffer[130]), (130, 0xFF));
    let two = [response(b'N'), second_message()].concat();
    for room in [88, 89] {
        let (mut member, mut buffer) = self::member(Phase::Asked);
        assert_eq!(member.response(&two, &mut buffer[..room]), Ok(()));
        assert_eq!((member.phase, member.outgoing), (Phase::Closed, 7));
        assert_eq!(member.book.length, if room == 88 { 73 } else { 89 });
    }
}

/// A message is appended and counted; 14 and 15 come before 13, and 16 before all of them.
#[test]
fn numbers_and_room() {
    let next = second_message();
    let (mut member, mut buffer) = self::member(Phase::Live);
    let before = (member.clone(), buffer.clone());
    for (number, room, expected) in [(1, 0, 14), (3, 0, 15), (2, 0, 13), (2, 129, 13)] {
        let mut message = next.clone();
        message[6] = number;
        assert_eq!(refusal(member.get(&message, &mut buffer[..room])), expected);
        assert_eq!((member.clone(), buffer.clone()), before);
    }
    assert_eq!(member.get(&next, &mut buffer[..130]), Ok(Told::Booked));
    assert_eq!((member.book.length, member.book.count), (130, 2));
    assert_eq!(buffer[73..130], next);
    assert_eq!(entry(&member.book.table, 1), 2);
    let (mut asked, mut buffer) = self::member(Phase::Asked);
    assert_eq!(refusal(asked.get(&next, &mut buffer[..0])), 16);
    let mut damaged = next;
    damaged[18] = b' ';
    assert_eq!(refusal(asked.get(&damaged, &mut buffer)), 10);
    asked.phase = Phase::Closed;
    assert_eq!(refusal(asked.get(&damaged, &mut buffer)), 16);
    assert_eq!(refusal(asked.get(&[], &mut buffer)), 16);
}

/// The mark at a session's end, or none where it has no room.
#[test]
fn ends() {
    for room in [73, 88, 89] {
        let (mut member, mut buffer) = self::member(Phase::Replaying);
        member.broken(&mut buffer[..room]);
        assert_eq!(member.phase, Phase::Closed);
        let length = if room < 89 { 73 } else { 89 };
        assert_eq!(member.book.length, length);
        assert_eq!(buffer[length..], vec![0xFF; 300 - length]);
        let after = (member.clone(), buffer.clone());
        member.broken(&mut buffer);
        assert_eq!((member, buffer), after);
    }
}

#[test]
fn orders() {
    let record = read::message(MEMBER, &examples::new_order()).unwrap();
    for phase in PHASES {
        let (mut member, _) = self::member(phase);
        let mut out = [0xEE; 77];
        let answer = refusal(member.order(&record, &mut out));
        assert_eq!(answer, if phase == Phase::Live { 0 } else { 16 });
        if answer == 0 {
            assert_eq!(out[6], 8);
            assert_eq!(out[10..76], examples::new_order()[10..]);
            assert_eq!(out[76], 0xEE);
            assert_eq!(member.outgoing, 8);
        }
    }
    let (mut member, _) = self::member(Phase::Live);
    let mut session = record.clone();
    session[0] = 3;
    let mut unit = record.clone();
    unit[1] = 1;
    for (record, room, expected) in [
        (&record[..290], 76, 13),
        (&session[..], 76, 4),
        (&unit, 76, 5),
        (&record, 75, 13),
    ] {
        let answer = member.order(record, &mut vec![0; room]);
        assert_eq!(refusal(answer), expected);
        assert_eq!(member.outgoing, 7);
    }
    member.outgoing = u32::MAX;
    assert_eq!(refusal(member.order(&[], &mut [])), 20);
    member.outgoing = u32::MAX - 1;
    assert_eq!(member.order(&record, &mut [0; 76]), Ok(()));
    assert_eq!(refusal(member.order(&record, &mut [0; 76])), 20);
}

/// A Modify Order and a Purge Orders go out like the others. What is refused for a late 9 or for 23 uses
/// no number.
#[test]
fn orders_of_request_1() {
    for example in [
        examples::modify(),
        examples::purge_by_ids_with_its_length(),
        examples::purge_by_symbol_with_its_length(),
    ] {
        let record = read::message(MEMBER, &example).unwrap();
        let size = example.len();
        for phase in PHASES {
            let (mut member, _) = self::member(phase);
            let mut out = vec![0xEE; size];
            let live = phase == Phase::Live;
            let answer = refusal(member.order(&record, &mut out));
            assert_eq!(answer, if live { 0 } else { 16 });
            assert_eq!(member.outgoing, if live { 8 } else { 7 });
            if live {
                assert_eq!((out[6], &out[10..]), (8, &example[10..]));
            }
        }
        let (mut member, _) = self::member(Phase::Live);
        let slots = 116;
        for (changes, expected) in match example[4] {
            0x3A => vec![
                (vec![(97, 0x14)], 9),
                (vec![(97, 4)], 9),
                (vec![(6, 0)], 10),
            ],
            _ => vec![
                (vec![(97, 0x14), (slots, 0)], 9),
                (vec![(97, 0x05)], 9),
                (vec![(slots + 4, b'A')], 23),
                (vec![(slots + 4, 0)], 10),
                (vec![(7, 11)], 10),
                (vec![(95, 1)], 12),
            ],
        } {
            let mut bad = record.clone();
            for (place, byte) in changes {
                bad[place] = byte;
            }
            assert_eq!(refusal(member.order(&bad, &mut vec![0; size])), expected);
            assert_eq!(member.outgoing, 7);
        }
        assert_eq!(member.order(&record, &mut vec![0; size]), Ok(()));
        assert_eq!(member.outgoing, 8);
    }
}

#[test]
fn heartbeats_and_logins() {
    for phase in PHASES {
        let (mut member, _) = self::member(phase);
        let mut out = [0xEE; 10];
        let beats = matches!(phase, Phase::Replaying | Phase::Live);
        assert_eq!(
            refusal(member.beat(&mut out[..9])),
            if beats { 13 } else { 16 }
        );
        assert_eq!(refusal(member.beat(&mut out)), if beats { 0 } else { 16 });
        assert_eq!(out == *examples::client_heartbeat(), beats);
        let login = Login {
            choice: Choice::Listed {
                flag: 0,
                count: 1,
                units: [1; 32],
            },
            names: [0; 18],
            returned: [None, None],
        };
        let mut out = [0; 39];
        let answer = refusal(member.login(&login, &mut out[..38]));
        assert_eq!(answer, if phase == Phase::Closed { 13 } else { 16 });
        assert_eq!(member.phase, phase);
        let answer = refusal(member.login(&login, &mut out));
        assert_eq!(answer, if phase == Phase::Closed { 0 } else { 16 });
        if answer == 0 {
            assert_eq!(member.phase, Phase::Asked);
            assert_eq!(out[34..], [1, 1, 0, 0, 0]);
        }
    }
}

/// Both set the outgoing number to 0; a refused one changes nothing.
#[test]
fn openings_and_restarts() {
    let (mut member, mut buffer) = self::member(Phase::Live);
    let before = member.clone();
    let other = Market::Options;
    let refused = member.open(20_250_832, &mut buffer[..0], other);
    assert_eq!(refusal(refused), 19);
    assert_eq!(refusal(member.open(DATE, &mut buffer[..15], other)), 13);
    assert_eq!(refusal(member.restart(DATE, &buffer[..15], other)), 22);
    assert_eq!(member, before);
    for market in [Market::Options, Market::Equities] {
        assert_eq!(member.restart(DATE, &buffer[..73], market), Ok(()));
        assert_eq!(member, Member::closed(before.book.clone(), market));
    }
    for market in [Market::Options, Market::Equities] {
        assert_eq!(member.open(DATE, &mut buffer[..16], market), Ok(()));
        assert_eq!(member, Member::closed(book::opened(DATE), market));
        assert_eq!(member.book, book::restart(DATE, &buffer[..16]).unwrap());
    }
}

/// Each market's session takes its own New Order and what both have; nothing but an opening or a restart
/// changes the market.
#[test]
fn markets() {
    for (market, own, other) in [
        (Market::Equities, 0x38, 0xB8),
        (Market::Options, 0xB8, 0x38),
    ] {
        let (mut member, mut buffer) = self::member(Phase::Live);
        member.market = market;
        for example in [
            examples::new_order(),
            examples::cancel(),
            examples::modify(),
            examples::purge_by_ids_with_its_length(),
        ] {
            let mut record = read::message(market.direction(), &example).unwrap();
            let mut out = vec![0xEE; example.len()];
            assert_eq!(member.order(&record, &mut out), Ok(()));
            assert_eq!((out[4], &out[10..]), (example[4], &example[10..]));
            let sent = member.outgoing;
            if record[0] == own {
                record[0] = other;
                assert_eq!(refusal(member.order(&record, &mut out)), 4);
                assert_eq!(refusal(member.order(&record[..290], &mut out)), 13);
            }
            record[0] = 3;
            assert_eq!(refusal(member.order(&record, &mut out)), 4);
            assert_eq!(member.outgoing, sent);
        }
        assert_eq!(refusal(member.get(&second_message(), &mut buffer)), 0);
        member.broken(&mut buffer);
        assert_eq!((member.phase, member.market), (Phase::Closed, market));
        member.phase = Phase::Asked;
        assert_eq!(refusal(member.get(&response(b'A'), &mut buffer)), 0);
        let logout = examples::logout_with_its_length();
        assert_eq!(refusal(member.get(&logout, &mut buffer)), 0);
        assert_eq!((member.phase, member.market), (Phase::Closed, market));
    }
}
