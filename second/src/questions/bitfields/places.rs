//! Messages with bitfields that are refused with a place. Each count, bitfield and field is the
//! first that is bad, alone and before others; the place that is told comes from the parts.

use super::late::instruct;
use super::sample::{never_blank, Sample, MODIFY, NEW_ORDER, OPTIONS, PURGE};
use crate::questions::parts::{measure, Parts};
use crate::questions::values::{self, spoil};
use crate::random::Random;
use crate::rules::frame::HEADER;
use crate::rules::kinds::Kind;
use crate::rules::layout::{self, Layout, Middle, Rule};
use std::collections::BTreeSet;

/// The count of a Purge Orders' ids.
const ID_COUNT: &str = "RiskGroupIDCnt";

/// Samples, each with the place that is told.
pub type Placed = Vec<(Sample, usize)>;

/// 7 to 10, which reading and writing tell alike.
pub fn faulty(random: &mut Random, which: usize) -> Placed {
    let mut all = counts(random, which);
    all.extend(bits(random, which));
    all.extend(missing(random, which));
    all.extend(values(random, which));
    all.extend(late(random, which));
    all
}

/// Where the count byte stands.
fn count_place(sample: &Sample) -> usize {
    HEADER + sample.fixed.concat().len()
}

/// Where the bitfields end.
fn middle_place(sample: &Sample) -> usize {
    count_place(sample) + 1 + sample.bitfields.len()
}

/// Where a field stands; it is selected if it is optional.
fn place_of(sample: &Sample, name: &str) -> usize {
    let layout = sample.layout;
    if name == ID_COUNT {
        return middle_place(sample);
    }
    if let Some(index) = layout.fixed.iter().position(|field| field.name == name) {
        return HEADER + sample.fixed[..index].concat().len();
    }
    let before: usize = layout
        .listed
        .iter()
        .zip(&sample.optional)
        .take_while(|(field, _)| field.name != name)
        .filter(|(field, _)| field.selected(&sample.bitfields))
        .map(|(_, value)| value.len())
        .sum();
    middle_place(sample) + sample.middle.len() + before
}

/// Half of the time the message's first field that can be bad is, which is told after 7, 8 and 9.
fn maybe_bad(random: &mut Random, which: usize, sample: &mut Sample) {
    if random.below(2) == 0 {
        spoil_field(random, sample, never_blank(which));
    }
}

/// None of those that come after the first bad one, the next of them, and all.
fn alone_and_before<T>(later: &[T]) -> Vec<&[T]> {
    match later.len() {
        0 => vec![later],
        1 => vec![&later[..0], later],
        _ => vec![&later[..0], &later[..1], later],
    }
}

/// 7: as many bitfields as the count says, or not.
pub fn counts(random: &mut Random, which: usize) -> Placed {
    let most = layout::ALL[which].most;
    let mut all = Vec::new();
    for count in [most + 1, 255] {
        for there in [0, most + 1] {
            let mut sample = Sample::any(random, which);
            maybe_bad(random, which, &mut sample);
            sample.bitfields = random.bytes(there);
            sample.count = count as u8;
            let place = count_place(&sample);
            all.push((sample, place));
        }
    }
    all
}

/// 8: each bitfield that can be bad. All bits of a New Order's first are listed, and of an Order
/// Rejected's third.
pub fn bits(random: &mut Random, which: usize) -> Placed {
    let layout = &layout::ALL[which];
    let unlisted: Vec<(usize, u8)> = (1..=layout.most)
        .map(|byte| (byte, !layout.listed_bits(byte)))
        .filter(|(_, bits)| *bits != 0)
        .collect();
    let mut all = Vec::new();
    for (index, first) in unlisted.iter().enumerate() {
        for later in alone_and_before(&unlisted[index + 1..]) {
            let mut sample = Sample::any(random, which);
            maybe_bad(random, which, &mut sample);
            for (byte, bits) in [first].into_iter().chain(later) {
                sample.set_bit(*byte, some_bits(random, *bits));
            }
            let place = count_place(&sample) + first.0;
            all.push((sample, place));
        }
    }
    all
}

/// One of the bits or all of them.
fn some_bits(random: &mut Random, bits: u8) -> u8 {
    let single: Vec<u8> = (0..8)
        .map(|shift| bits & 1 << shift)
        .filter(|bit| *bit != 0)
        .chain([bits])
        .collect();
    random.pick(&single)
}

/// Choices of fields that lack what is required whatever the values: none, and all but one.
fn too_few(which: usize) -> &'static [&'static [&'static str]] {
    match which {
        NEW_ORDER | OPTIONS => &[
            &[],
            &["Price", "OrdType"],
            &["Capacity", "Price", "OrdType"],
            &["Symbol", "Price", "OrdType"],
            &["Symbol", "Capacity"],
        ],
        MODIFY => &[
            &[],
            &["Price"],
            &["OrdType"],
            &["Price", "OrdType"],
            &["OrderQty"],
            &["OrderQty", "Side", "StopPx"],
        ],
        PURGE => &[
            &[],
            &["ClearingFirm", "MassCancelID"],
            &["Symbol", "MatchingUnit"],
        ],
        _ => &[],
    }
}

/// 9: each number of bitfields, with too few fields that have their bits in them.
pub fn missing(random: &mut Random, which: usize) -> Placed {
    let layout = &layout::ALL[which];
    let mut all = Vec::new();
    for count in 0..=layout.most {
        for names in too_few(which) {
            let mut sample = Sample::least(random, which);
            sample.clear();
            names.iter().for_each(|name| sample.select(name));
            if sample.bitfields.len() > count {
                continue;
            }
            maybe_bad(random, which, &mut sample);
            sample.lengthen(count);
            let place = count_place(&sample) + count;
            all.push((sample, place));
        }
    }
    all
}

/// The 9 that hangs on a value: each number of bitfields, with each value that asks for a field and
/// without that field.
pub fn late(random: &mut Random, which: usize) -> Placed {
    let mut all = Placed::new();
    for count in 1..=2 {
        let mut samples = Vec::new();
        match which {
            MODIFY => {
                for ord_type in [0, b'0', b'2', b'a'] {
                    let mut sample = Sample::least(random, which);
                    sample.unselect("Price");
                    sample.select("OrdType");
                    *sample.value("OrdType") = vec![ord_type];
                    samples.push(sample);
                }
            }
            PURGE => {
                for (characters, name) in [
                    (b"FMN", "MassCancelID"),
                    (b"ASN", "ClearingFirm"),
                    (b"ABL", "ClearingFirm"),
                    (b"FSL", "ClearingFirm"),
                    (b"FBN", "MassCancelID"),
                ] {
                    let mut sample = Sample::least(random, which);
                    sample.select(name);
                    instruct(&mut sample, characters);
                    samples.push(sample);
                }
            }
            _ => {}
        }
        for mut sample in samples {
            sample.lengthen(count);
            let place = count_place(&sample) + count;
            all.push((sample, place));
        }
    }
    all
}

/// 10: each field that can be bad, among all fields, among some, and with the required ones alone.
pub fn values(random: &mut Random, which: usize) -> Placed {
    let names = can_be_bad(&layout::ALL[which]);
    let mut all = Vec::new();
    for (index, name) in names.iter().enumerate() {
        let least = Sample::least(random, which);
        all.push(spoiled(random, least, &[name]));
        for later in alone_and_before(&names[index + 1..]) {
            let mut sample = Sample::least(random, which);
            sample.select_all();
            if random.below(2) == 0 {
                sample.lengthen(sample.layout.most);
            }
            all.push(spoiled(random, sample, &[&[*name], later].concat()));
        }
        if let [_, .., last] = names[index..] {
            let any = Sample::any(random, which);
            all.push(spoiled(random, any, &[name, last]));
        }
    }
    all
}

/// The fields that a value can be bad in, in the order of the message.
fn can_be_bad(layout: &Layout) -> Vec<&'static str> {
    let fixed = layout.fixed.iter().filter(|field| match field.rule {
        Rule::Any(kind) | Rule::Filled(kind) => values::can_be_bad(kind),
        Rule::Quantity => true,
    });
    let listed = layout.listed.iter();
    let listed = listed.filter(|field| values::can_be_bad(field.kind));
    let middle = match layout.middle {
        Middle::Nothing => None,
        Middle::RiskGroups { .. } => Some(ID_COUNT),
    };
    fixed
        .map(|field| field.name)
        .chain(middle)
        .chain(listed.map(|field| field.name))
        .collect()
}

/// The sample with these fields bad, selected where they are optional, and the place of the first.
fn spoiled(random: &mut Random, mut sample: Sample, names: &[&str]) -> (Sample, usize) {
    let listed = sample.layout.listed;
    for name in names {
        if listed.iter().any(|field| field.name == *name) {
            sample.select(name);
        }
        spoil_field(random, &mut sample, name);
    }
    let place = place_of(&sample, names[0]);
    (sample, place)
}

fn spoil_field(random: &mut Random, sample: &mut Sample, name: &str) {
    if name == ID_COUNT {
        let count = random.pick(&[11, 12, 40, 255]);
        sample.put_ids(random, usize::from(count));
        return;
    }
    let fixed = sample.layout.fixed.iter().find(|field| field.name == name);
    let kind = match fixed.map(|field| field.rule) {
        Some(Rule::Quantity) => {
            let quantity = [0, 1_000_000, u32::MAX][random.between(0, 2)];
            *sample.value(name) = quantity.to_le_bytes().to_vec();
            return;
        }
        Some(Rule::Filled(_)) if random.below(4) == 0 => {
            sample.value(name).fill(0);
            return;
        }
        Some(Rule::Any(kind) | Rule::Filled(kind)) => kind,
        None => sample.field(name).kind,
    };
    if kind == Kind::FilledText && random.below(4) == 0 {
        sample.value(name).fill(0);
        return;
    }
    spoil(random, kind, sample.value(name));
}

/// 6 in each of its three ways, which reading alone tells: the bytes and the message's end. Of each
/// end some have a bad value and bytes after the message.
pub fn totals(random: &mut Random, which: usize) -> Vec<(Vec<u8>, usize)> {
    let mut longest = Sample::with_first_field(random, which);
    longest.lengthen(longest.layout.most);
    let mut all = Vec::new();
    for sample in [Sample::least(random, which), longest] {
        let count = count_place(&sample);
        let fields = count + 1 + sample.bitfields.len();
        let whole = sample.bytes().len();
        let mut ends = BTreeSet::from([HEADER, HEADER + 1, count - 1, count, count + 1]);
        ends.extend([count + 2, fields - 1, fields, fields + 1]);
        ends.extend([whole - 1, whole + 1, whole + 5, 150]);
        ends.remove(&whole);
        for end in ends {
            let mut message = sample.bytes();
            message.resize(end, b'A');
            measure(&mut message);
            all.push((message, end));
            let mut bad = sample.clone();
            spoil_field(random, &mut bad, never_blank(which));
            let mut message = bad.bytes();
            message.resize(end, 0);
            measure(&mut message);
            message.extend(bad.bytes());
            all.push((message, end));
        }
    }
    all
}

#[cfg(test)]
mod tests {
    use super::*;
    use crate::questions::bitfields::sample::{ORDER_REJECTED, TYPES};
    use crate::rules::{read, write, Refusal};

    /// What can be bad: all but the kinds B and P and the reserved bytes.
    #[test]
    fn fields_that_can_be_bad() {
        let names = |which: usize| can_be_bad(&layout::ALL[which]).join(" ");
        assert_eq!(
            names(0),
            "ClOrdID Side OrderQty ClearingFirm ClearingAccount ExecInst OrdType TimeInForce \
             Symbol SymbolSfx Capacity RoutingInst Account LocateReqd ExDestination EchoText \
             LocateBroker"
        );
        assert_eq!(names(1), "OrigClOrdID ClearingFirm");
        assert_eq!(
            names(2),
            "ClOrdID Side ExecInst OrdType TimeInForce Symbol SymbolSfx Capacity Account \
             ClearingFirm ClearingAccount"
        );
        assert_eq!(
            names(3),
            "ClOrdID BaseLiquidityIndicator SubLiquidityIndicator ContraBroker Side ExecInst \
             OrdType TimeInForce Symbol SymbolSfx Capacity Account ClearingFirm ClearingAccount"
        );
        assert_eq!(
            names(4),
            "ClOrdID RejectReason Text Side ExecInst OrdType TimeInForce Symbol SymbolSfx Capacity \
             Account ClearingFirm ClearingAccount DisplayIndicator PreventMatch AttributedQuote \
             ExtExecInst EchoText RoutingInst RoutStrategy RouteDeliveryMethod ExDestination"
        );
        assert_eq!(
            names(5),
            "ClOrdID RejectReason Text Side ExecInst OrdType TimeInForce Symbol SymbolSfx Capacity \
             EchoText"
        );
        assert_eq!(names(6), "ClOrdID RejectReason Text");
        assert_eq!(
            names(7),
            "ClOrdID OrigClOrdID ClearingFirm OrdType CancelOrigOnReject ExecInst Side LocateBroker"
        );
        assert_eq!(
            names(8),
            "RiskGroupIDCnt ClearingFirm MassCancelInst MassCancelID Symbol SymbolSfx"
        );
        assert_eq!(
            names(9),
            "ClOrdID Side OrderQty ClearingFirm ClearingAccount ExecInst OrdType TimeInForce \
             Symbol Capacity RoutingInst Account MaturityDate PutOrCall OpenClose"
        );
    }

    /// Read and written, each is refused at its place.
    fn check(placed: Placed, refusal: fn(usize) -> Refusal) {
        for (sample, place) in placed {
            let expected = refusal(place);
            let direction = sample.direction();
            let read = read::message(direction, &sample.bytes());
            assert_eq!(read, Err(expected));
            let written = write::record(direction, &sample.record(), &mut []);
            assert_eq!(written, Err(expected));
        }
    }

    #[test]
    fn places() {
        let mut random = Random::new(190);
        for _ in 0..20 {
            for which in 0..TYPES {
                check(counts(&mut random, which), Refusal::Count);
                check(bits(&mut random, which), Refusal::Bit);
                check(missing(&mut random, which), Refusal::Missing);
                check(late(&mut random, which), Refusal::Missing);
                check(values(&mut random, which), Refusal::Value);
                let direction = layout::ALL[which].direction();
                for (bytes, end) in totals(&mut random, which) {
                    let read = read::message(direction, &bytes);
                    assert_eq!(read, Err(Refusal::Total(end)));
                }
            }
        }
    }

    /// Every bitfield that has an unlisted bit, and every number of bitfields.
    #[test]
    fn every_bitfield() {
        let mut random = Random::new(191);
        for (which, first, last) in [
            (0, 37, 45),
            (1, 31, 32),
            (2, 48, 62),
            (3, 70, 84),
            (4, 101, 119),
            (5, 101, 119),
            (6, 101, 119),
            (7, 51, 52),
            (8, 12, 13),
            (9, 37, 45),
        ] {
            let places = bits(&mut random, which).into_iter();
            let places: BTreeSet<usize> = places.map(|(_, place)| place).collect();
            let mut expected: BTreeSet<usize> = (first..=last).collect();
            if which == ORDER_REJECTED {
                // All bits of its third are listed.
                expected.remove(&103);
            }
            assert_eq!(places, expected);
        }
        for which in [0, 9] {
            let places = missing(&mut random, which).into_iter();
            let places: BTreeSet<usize> = places.map(|(_, place)| place).collect();
            assert_eq!(places, (35..=45).collect());
        }
        for (which, first) in [(7, 50), (8, 11)] {
            let places = missing(&mut random, which).into_iter();
            let places: BTreeSet<usize> = places.map(|(_, place)| place).collect();
            assert_eq!(places, (first..=first + 2).collect());
            let places = late(&mut random, which).into_iter();
            let places: BTreeSet<usize> = places.map(|(_, place)| place).collect();
            assert_eq!(places, (first + 1..=first + 2).collect());
        }
    }
}
