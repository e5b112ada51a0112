//! Session messages that are refused with a place. Each field is the first that is bad, alone and
//! before others; the place that is told comes from the parts.

use super::faults;
use super::sample::{Sample, LISTED};
use crate::questions::parts::{measure, Parts};
use crate::questions::values::{spoil, textual};
use crate::random::Random;
use crate::rules::frame::HEADER;
use crate::rules::session;

/// 10: samples, each with the place that is told. After the field come a bad one, a broken rule of
/// the lists, or bytes that are left.
pub fn values(random: &mut Random, which: usize) -> Vec<(Sample, usize)> {
    let fields = session::ALL[which].fields;
    let texts: Vec<usize> = (0..fields.len())
        .filter(|index| textual(fields[*index].kind))
        .collect();
    let mut all = Vec::new();
    for (index, first) in texts.iter().enumerate() {
        let place = HEADER
            + fields[..*first]
                .iter()
                .map(|field| field.width)
                .sum::<usize>();
        let later = &texts[index + 1..];
        for also in [&later[..0], later] {
            for numbers in [&[][..], &[11]] {
                let mut sample = faults::whole_or_broken(random, which, numbers);
                for bad in [first].into_iter().chain(also) {
                    spoil(random, fields[*bad].kind, &mut sample.fields[*bad]);
                }
                if random.below(2) == 0 {
                    sample.after = random.bytes(3);
                }
                all.push((sample, place));
            }
        }
    }
    all
}

/// 6, which reading alone tells: the bytes and the message's end. The fixed part does not fit, with
/// a bad value in it or not, or bytes are left after the last list; some follow the message.
pub fn totals(random: &mut Random, which: usize) -> Vec<(Vec<u8>, usize)> {
    let mut good = Sample::whole(random, which);
    let mut all = Vec::new();
    let whole = good.bytes().len();
    let fixed = HEADER + good.session.fields_width();
    let mut ends = vec![whole + 1, whole + 2, whole + 5, whole + 50];
    if LISTED.contains(&which) {
        ends.extend([HEADER, HEADER + 1, HEADER + 4, HEADER + 9, fixed - 1, fixed]);
    }
    for end in ends {
        let mut message = good.bytes();
        message.resize(end, 0);
        measure(&mut message);
        all.push((message.clone(), end));
        message.extend(good.bytes());
        all.push((message, end));
    }
    if LISTED.contains(&which) {
        good.fields[0][0] = b'@';
        for end in [HEADER + 4, fixed] {
            let mut message = good.bytes()[..end].to_vec();
            measure(&mut message);
            all.push((message, end));
        }
    }
    all
}

#[cfg(test)]
mod tests {
    use super::*;
    use crate::rules::{read, write, Refusal};
    use std::collections::BTreeSet;

    #[test]
    fn places() {
        let mut random = Random::new(192);
        for which in 0..6 {
            let direction = session::ALL[which].direction();
            let mut places = BTreeSet::new();
            for (sample, place) in values(&mut random, which) {
                let refusal = Refusal::Value(place);
                let read = read::message(direction, &sample.bytes());
                assert_eq!(read, Err(refusal));
                let written = write::record(direction, &sample.record(), &mut []);
                assert_eq!(written, Err(refusal));
                places.insert(place);
            }
            let expected: &[usize] = match which {
                0 => &[10, 14, 18],
                1 | 2 => &[10, 11],
                _ => &[],
            };
            assert_eq!(places, expected.iter().copied().collect());
            for (bytes, end) in totals(&mut random, which) {
                let read = read::message(direction, &bytes);
                assert_eq!(read, Err(Refusal::Total(end)));
            }
        }
    }
}
