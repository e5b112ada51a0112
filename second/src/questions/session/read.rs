//! Questions about reading session messages.

mod lists;
mod order;
mod values;

use super::sample::{Sample, BARE, LISTED, LOGIN, LOGOUT, RESPONSE};
use crate::examples;
use crate::questions::parts::{other_directions, Parts};
use crate::questions::reading::{self, add, measured, Asked};
use crate::random::Random;
use crate::rules::frame::HEADER;
use crate::rules::session;
use crate::rules::types::{MEMBER, VENUE};

pub fn ask(lines: &mut Vec<String>) {
    reading::ask(lines, messages());
}

/// What is asked; the questions about writing take their records from the valid ones.
pub fn messages() -> Asked {
    let mut asked = Vec::new();
    let mut random = Random::new(8);
    from_the_documents(&mut asked);
    for which in 0..session::ALL.len() {
        directions(&mut asked, &mut random, which);
        headers(&mut asked, &mut random, which);
        lengths(&mut asked, &mut random, which);
        after(&mut asked, &mut random, which);
        order::ask(&mut asked, &mut random, which);
    }
    for which in LISTED {
        lists::faulty(&mut asked, &mut random, which);
        lists::counts(&mut asked, &mut random, which);
        cuts(&mut asked, &mut random, which);
        values::bad_texts(&mut asked, &mut random, which);
        values::good_texts(&mut asked, &mut random, which);
    }
    for which in [LOGIN, RESPONSE] {
        lists::group_orders(&mut asked, &mut random, which);
        lists::group_counts(&mut asked, &mut random, which);
    }
    values::single_bytes(&mut asked, &mut random);
    random_messages(&mut asked, &mut random);
    asked
}

fn from_the_documents(asked: &mut Asked) {
    asked.push((MEMBER, examples::login()));
    asked.push((MEMBER, examples::options_login()));
    asked.push((MEMBER, examples::client_heartbeat()));
    asked.push((VENUE, examples::login_response()));
    asked.push((VENUE, examples::login_response_of_the_notes()));
    asked.push((VENUE, examples::logout()));
    asked.push((VENUE, examples::logout()[..87].to_vec()));
    asked.push((VENUE, examples::logout_with_its_length()));
    asked.push((VENUE, examples::server_heartbeat()));
    asked.push((VENUE, examples::replay_complete()));
    asked.push((MEMBER, examples::logout_request()));
    asked.push((VENUE, examples::logout_request()));
}

/// Other directions, also with a fault of framing and of the unit.
fn directions(asked: &mut Asked, random: &mut Random, which: usize) {
    let mut sample = Sample::any(random, which);
    let message = sample.bytes();
    let own = sample.session.direction();
    for direction in other_directions(own) {
        asked.push((direction, message.clone()));
    }
    sample.unit = 1;
    for direction in other_directions(own).take(3) {
        asked.push((direction, sample.bytes()));
        asked.push((direction, message[..message.len() - 1].to_vec()));
        let mut start = message.clone();
        start[1] = 0;
        asked.push((direction, start));
    }
}

/// Units and numbers, which are all 0.
fn headers(asked: &mut Asked, random: &mut Random, which: usize) {
    let least = Sample::least(random, which);
    for unit in [0, 1, 2, 3, 32, 33, 64, 128, 255] {
        let mut sample = least.clone();
        sample.unit = unit;
        add(asked, &sample);
    }
    for number in [
        1,
        255,
        256,
        65_536,
        16_777_216,
        0x0102_0304,
        0x8000_0000,
        0xFFFF_FFFF,
    ] {
        let mut sample = least.clone();
        sample.number = number;
        add(asked, &sample);
        sample.unit = 1;
        add(asked, &sample);
    }
}

/// Length fields that are off, with the same bytes; and more bytes, with a length that fits.
fn lengths(asked: &mut Asked, random: &mut Random, which: usize) {
    let sample = Sample::whole(random, which);
    let direction = sample.session.direction();
    let message = sample.bytes();
    let length = message.len() as u16 - 2;
    let others = [
        0,
        7,
        8,
        9,
        length - 1,
        length + 1,
        length + 256,
        length.swap_bytes(),
        2046,
        2047,
        65535,
    ];
    reading::lengths(asked, direction, &message, &others);
    for more in [1, 2, 3, 5, 12, 433, 434] {
        for zero in [false, true] {
            let mut longer = message.clone();
            longer.extend(match zero {
                true => vec![0; more],
                false => random.bytes(more),
            });
            measured(asked, direction, longer);
        }
    }
    reading::longest(asked, direction, message);
}

/// Bytes after a message.
fn after(asked: &mut Asked, random: &mut Random, which: usize) {
    let sample = Sample::any(random, which);
    let message = sample.bytes();
    let more = [
        vec![0],
        vec![0xBA, 0xBA],
        vec![255; 30],
        vec![0; 500],
        message.clone(),
    ];
    reading::followed(asked, sample.session.direction(), &message, &more);
}

/// Messages cut at every byte, with a length that fits; two of them also as they are. Then again
/// with faults that other rules look at.
fn cuts(asked: &mut Asked, random: &mut Random, which: usize) {
    let direction = session::ALL[which].direction();
    let wholes = match which {
        LOGIN => vec![examples::login(), examples::options_login()],
        RESPONSE => vec![examples::login_response_of_the_notes()],
        _ => vec![examples::logout_with_its_length()],
    };
    for whole in &wholes {
        reading::cut(asked, direction, whole, 4..whole.len());
    }
    let fixed = HEADER + session::ALL[which].fields_width() + 1;
    let mut sample = Sample::whole(random, which);
    match which {
        RESPONSE => sample.value("NoUnspecifiedUnitReplay")[0] = 2,
        LOGOUT => sample.pairs[0].0 = 0,
        _ => sample.groups[0].choice = 2,
    }
    let about = fixed - 3..fixed + 9;
    reading::cut(asked, direction, &sample.bytes(), about.clone());
    sample.fields[0][0] = b'@';
    reading::cut(asked, direction, &sample.bytes(), about);
    sample.number = 1;
    reading::cut(asked, direction, &sample.bytes(), HEADER..HEADER + 4);
    if which != RESPONSE {
        reading::cut_anywhere(asked, direction, &wholes[wholes.len() - 1]);
    }
}

fn random_messages(asked: &mut Asked, random: &mut Random) {
    let counts = [(LOGIN, 90), (RESPONSE, 90), (LOGOUT, 40)];
    reading::any::<Sample>(asked, random, &counts);
    let mut counts = vec![(LOGIN, 170), (RESPONSE, 170), (LOGOUT, 90)];
    counts.extend(BARE.map(|which| (which, 20)));
    reading::damaged::<Sample>(asked, random, &counts);
}

#[cfg(test)]
mod tests {
    use super::*;
    use crate::questions::judged;

    #[test]
    fn each_type_gets_each_answer() {
        let seen = judged::reads(&messages());
        for session in &session::ALL {
            let numbers: &[u8] = match session.lists.is_empty() {
                true => &[0, 1, 2, 3, 4, 5, 6],
                false => &[0, 1, 2, 3, 4, 5, 6, 10, 11],
            };
            judged::gets_each(&seen, session.type_byte, numbers);
        }
    }
}
