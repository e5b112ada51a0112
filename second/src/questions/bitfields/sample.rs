//! Messages with bitfields in parts, from which the questions about reading and writing are made.

use super::damage;
use super::late;
use crate::questions::parts::Parts;
use crate::questions::values::{full_value, some_number, some_value};
use crate::random::Random;
use crate::rules::desk::HANDED;
use crate::rules::layout::{self, Layout, Listed, Middle, Rule};
use crate::rules::market::Market;
use crate::rules::record::{COUNT_PLACE, SESSION_SIZE, SIZE, SLOTS_PLACE};
use crate::rules::types::{CANCEL_ORDER, MODIFY_ORDER, OPTIONS_ORDER, PURGE_ORDERS};

pub const NEW_ORDER: usize = 0;
pub const CANCEL: usize = 1;
pub const ACKNOWLEDGMENT: usize = 2;
pub const EXECUTION: usize = 3;
pub const ORDER_REJECTED: usize = 4;
pub const CANCEL_REJECTED: usize = 5;
pub const MODIFY_REJECTED: usize = 6;
pub const MODIFY: usize = 7;
pub const PURGE: usize = 8;
pub const OPTIONS: usize = 9;
/// How many there are.
#[cfg(test)]
pub const TYPES: usize = 10;
/// The New Orders of both markets, in the order of MARKET.
pub const NEW_ORDERS: [usize; 2] = [NEW_ORDER, OPTIONS];
/// Those that have an OrderQty.
pub const WITH_QUANTITY: [usize; 6] = [
    NEW_ORDER,
    ACKNOWLEDGMENT,
    EXECUTION,
    ORDER_REJECTED,
    MODIFY,
    OPTIONS,
];
/// Those that are handed to the desk.
pub const REJECTED: [usize; 3] = [ORDER_REJECTED, CANCEL_REJECTED, MODIFY_REJECTED];

/// The fields that a New Order's requirement names.
pub const REQUIRED: [&str; 4] = ["Symbol", "Capacity", "Price", "OrdType"];

/// Valid as it is made; a question may then make its parts disagree.
#[derive(Clone)]
pub struct Sample {
    pub layout: &'static Layout,
    pub unit: u8,
    pub number: u32,
    /// One value for each field of the fixed part.
    pub fixed: Vec<Vec<u8>>,
    pub count: u8,
    pub bitfields: Vec<u8>,
    /// RiskGroupIDCnt and the RiskGroupIDs; nothing where the message has none.
    pub middle: Vec<u8>,
    /// One value for each listed bit, whether it is set or not.
    pub optional: Vec<Vec<u8>>,
}

impl Sample {
    /// No more than the required bits, and texts as long as their fields.
    pub fn least(random: &mut Random, which: usize) -> Sample {
        let layout = &layout::ALL[which];
        let mut sample = Sample {
            layout,
            unit: layout.least_unit,
            number: random.number().min(layout.greatest_number),
            fixed: Vec::new(),
            count: 0,
            bitfields: Vec::new(),
            middle: Vec::new(),
            optional: Vec::new(),
        };
        for field in layout.fixed {
            let value = match field.rule {
                Rule::Any(kind) | Rule::Filled(kind) => full_value(random, kind, field.width),
                Rule::Quantity => quantity(random),
            };
            sample.fixed.push(value);
        }
        for field in layout.listed {
            let value = full_value(random, field.kind, field.width);
            sample.optional.push(value);
        }
        if layout.middle != Middle::Nothing {
            let count = random.between(0, 2);
            sample.put_ids(random, count);
        }
        sample.require();
        late::ask_nothing(&mut sample);
        sample
    }

    /// The same with the first listed field besides, if there is one.
    pub fn with_first_field(random: &mut Random, which: usize) -> Sample {
        let mut sample = Sample::least(random, which);
        if let Some(field) = sample.layout.listed.first() {
            sample.set_bit(field.byte, field.bit);
        }
        sample
    }

    /// A unit or a number that the message may not carry; of what is unsequenced each of them, or
    /// both.
    pub fn spoil_header(&mut self, random: &mut Random) {
        let sort = match self.layout.greatest_number {
            0 => random.below(3),
            _ => 0,
        };
        if sort != 1 {
            self.unit = self.layout.greatest_unit + 1;
        }
        if sort != 0 {
            self.number = 1 << (8 * random.below(4));
        }
    }

    /// Sets the first bit of each required group that has none.
    pub fn require(&mut self) {
        for group in self.layout.required {
            if !group.iter().any(|name| self.selects(name)) {
                self.select(group[0]);
            }
        }
    }

    pub fn field(&self, name: &str) -> &'static Listed {
        self.layout
            .listed
            .iter()
            .find(|field| field.name == name)
            .expect("a listed field")
    }

    pub fn select(&mut self, name: &str) {
        let field = self.field(name);
        self.set_bit(field.byte, field.bit);
    }

    /// Sets a bit or several of a bitfield, listed or not; the bitfields become as many as that
    /// takes.
    pub fn set_bit(&mut self, byte: usize, bit: u8) {
        set(&mut self.bitfields, byte, bit);
        self.count = self.bitfields.len() as u8;
    }

    /// Selects those of the fields of the requirement that have their bit in `choice`.
    pub fn select_required(&mut self, choice: u8) {
        for (shift, name) in REQUIRED.into_iter().enumerate() {
            if choice >> shift & 1 != 0 {
                self.select(name);
            }
        }
    }

    /// All listed fields, with values that go together.
    pub fn select_all(&mut self) {
        for field in self.layout.listed {
            self.set_bit(field.byte, field.bit);
        }
        late::agree(self);
    }

    pub fn unselect(&mut self, name: &str) {
        let field = self.field(name);
        if let Some(bitfield) = self.bitfields.get_mut(field.byte - 1) {
            *bitfield &= !field.bit;
        }
    }

    pub fn selects(&self, name: &str) -> bool {
        self.field(name).selected(&self.bitfields)
    }

    /// RiskGroupIDCnt and so many RiskGroupIDs of any values.
    pub fn put_ids(&mut self, random: &mut Random, count: usize) {
        self.middle = vec![count as u8];
        self.middle.extend(random.bytes(2 * count));
    }

    /// Makes the field that is never blank bad by its byte at a place, with a byte that identifiers
    /// do not take. MassCancelInst takes such bytes, and so gets another.
    pub fn spoil_never_blank(&mut self, place: usize, byte: u8) {
        let byte = match self.layout.type_byte {
            PURGE_ORDERS => 0x7F,
            _ => byte,
        };
        let name = never_blank_of(self.layout);
        let value = self.value(name);
        let last = value.len() - 1;
        value[place.min(last)] = byte;
    }

    pub fn clear(&mut self) {
        self.bitfields.clear();
        self.count = 0;
    }

    /// Zero bitfields after the last, up to `count` in all.
    pub fn lengthen(&mut self, count: usize) {
        assert!(count >= self.bitfields.len());
        self.bitfields.resize(count, 0);
        self.count = count as u8;
    }

    /// The value of a field, fixed or optional; a message has no name twice.
    pub fn value(&mut self, name: &str) -> &mut Vec<u8> {
        let fixed = self.layout.fixed.iter().map(|field| field.name);
        let optional = self.layout.listed.iter().map(|field| field.name);
        let index = fixed
            .chain(optional)
            .position(|other| other == name)
            .expect("a field of the message");
        self.fixed
            .iter_mut()
            .chain(&mut self.optional)
            .nth(index)
            .expect("a value for each field")
    }
}

impl Parts for Sample {
    fn any(random: &mut Random, which: usize) -> Sample {
        let mut sample = Sample::least(random, which);
        let layout = sample.layout;
        let units = [layout.least_unit, layout.greatest_unit];
        sample.unit = match random.below(4) {
            0 => random.pick(&units),
            _ => random.between(usize::from(units[0]), usize::from(units[1])) as u8,
        };
        sample.number = some_number(random).min(layout.greatest_number);
        for (field, value) in layout.fixed.iter().zip(&mut sample.fixed) {
            *value = match field.rule {
                Rule::Any(kind) => some_value(random, kind, field.width, 0),
                Rule::Filled(kind) => some_value(random, kind, field.width, 1),
                Rule::Quantity => quantity(random),
            };
        }
        sample.bitfields.clear();
        // Few bits more often than many.
        let chance = [1, 1, 1, 2, 4][random.between(0, 4)];
        for (field, value) in layout.listed.iter().zip(&mut sample.optional) {
            *value = some_value(random, field.kind, field.width, 0);
            if random.below(6) < chance {
                set(&mut sample.bitfields, field.byte, field.bit);
            }
        }
        sample.count = sample.bitfields.len() as u8;
        if random.below(2) == 0 && layout.required.len() > 1 {
            sample.select("OrdType");
        }
        sample.require();
        if layout.middle != Middle::Nothing {
            let most = [0, 1, 3, 10][random.between(0, 3)];
            let count = random.between(0, most);
            sample.put_ids(random, count);
        }
        late::choose(random, &mut sample);
        late::agree(&mut sample);
        if random.below(3) == 0 {
            let count = random.between(sample.bitfields.len(), layout.most);
            sample.lengthen(count);
        }
        sample
    }

    fn direction(&self) -> u8 {
        self.layout.direction()
    }

    fn header(&self) -> (u8, u8, u32) {
        (self.layout.type_byte, self.unit, self.number)
    }

    fn record_type(&self) -> u8 {
        self.layout.record_type
    }

    fn body(&self) -> Vec<u8> {
        let mut body = self.fixed.concat();
        body.push(self.count);
        body.extend(&self.bitfields);
        body.extend(&self.middle);
        for (field, value) in self.layout.listed.iter().zip(&self.optional) {
            if field.selected(&self.bitfields) {
                body.extend(value);
            }
        }
        body
    }

    fn record(&self) -> Vec<u8> {
        let mut record = self.record_head();
        record.extend(self.fixed.concat());
        record.extend(&self.middle);
        record.resize(COUNT_PLACE, 0);
        record.push(self.count);
        record.extend(&self.bitfields);
        record.resize(SLOTS_PLACE, 0);
        for (field, value) in self.layout.listed.iter().zip(&self.optional) {
            if field.selected(&self.bitfields) {
                record.extend(value);
            } else {
                record.resize(record.len() + field.width, 0);
            }
        }
        record.resize(SIZE, 0);
        record
    }

    /// Most have the bytes of the longest record, some their own alone or a few after them; of the
    /// rejections, of Modify Order, of Purge Orders and of the options New Order most have their own
    /// alone. What follows the record plays no part: it is zero in most, but not in all.
    fn lent(random: &mut Random, record: &[u8]) -> Vec<u8> {
        let short = [MODIFY_ORDER, PURGE_ORDERS, OPTIONS_ORDER];
        let alone = HANDED.contains(&record[0]) || short.contains(&record[0]);
        let (some, most) = match alone {
            true => (SESSION_SIZE, SIZE),
            false => (SIZE, SESSION_SIZE),
        };
        let size = match random.below(6) {
            0 => some,
            1 => random.between(SIZE + 1, SESSION_SIZE - 1),
            _ => most,
        };
        let mut bytes = record.to_vec();
        bytes.resize(size, 0);
        let after = &mut bytes[record.len()..];
        if after.is_empty() {
            return bytes;
        }
        match random.below(12) {
            0 => {
                let place = random.between(0, after.len() - 1);
                after[place] = 1 + random.below(255) as u8;
            }
            1 => after[0] = 1 + random.below(255) as u8,
            2 => after.fill(1 + random.below(255) as u8),
            _ => {}
        }
        bytes
    }

    fn damaged(&self, random: &mut Random) -> (u8, Vec<u8>) {
        damage::message(random, self)
    }

    fn damaged_record(&self, random: &mut Random) -> (u8, Vec<u8>, Vec<u8>) {
        damage::record(random, self)
    }
}

/// Those that go out as orders in a market, its New Order first.
pub fn orders_of(market: Market) -> [usize; 4] {
    [NEW_ORDERS[market as usize], CANCEL, MODIFY, PURGE]
}

fn set(bitfields: &mut Vec<u8>, byte: usize, bit: u8) {
    if bitfields.len() < byte {
        bitfields.resize(byte, 0);
    }
    bitfields[byte - 1] |= bit;
}

/// The field that every message of a type has and that is never blank.
pub fn never_blank(which: usize) -> &'static str {
    never_blank_of(&layout::ALL[which])
}

fn never_blank_of(layout: &Layout) -> &'static str {
    match layout.type_byte {
        CANCEL_ORDER => "OrigClOrdID",
        PURGE_ORDERS => "MassCancelInst",
        _ => "ClOrdID",
    }
}

/// A field without which a message of a type is refused.
pub fn required_field(which: usize) -> Option<&'static str> {
    match which {
        NEW_ORDER | OPTIONS => Some("Capacity"),
        MODIFY => Some("OrderQty"),
        PURGE => Some("MassCancelInst"),
        _ => None,
    }
}

/// A bit that is not listed, though others of its bitfield are if any are.
pub fn unlisted_bit(which: usize) -> (usize, u8) {
    match which {
        CANCEL | ACKNOWLEDGMENT | EXECUTION => (1, 2),
        _ => (2, 4),
    }
}

fn quantity(random: &mut Random) -> Vec<u8> {
    let quantity = match random.below(8) {
        0 => 1,
        1 => 999_999,
        _ => 1 + random.below(999_999) as u32,
    };
    quantity.to_le_bytes().to_vec()
}

#[cfg(test)]
mod tests {
    use super::*;
    use crate::questions::judged;
    use crate::rules::read;
    use std::collections::BTreeSet;

    #[test]
    fn no_name_twice() {
        for layout in &layout::ALL {
            let fixed = layout.fixed.iter().map(|field| field.name);
            let optional = layout.listed.iter().map(|field| field.name);
            let names: BTreeSet<&str> = fixed.chain(optional).collect();
            assert_eq!(names.len(), layout.fixed.len() + layout.listed.len());
        }
    }

    #[test]
    fn unlisted_bits() {
        for which in 0..TYPES {
            let (byte, bit) = unlisted_bit(which);
            let listed = layout::ALL[which].listed_bits(byte);
            assert!(listed != 0 || which == MODIFY_REJECTED);
            assert_eq!(listed & bit, 0);
        }
    }

    #[test]
    fn least_samples() {
        let mut random = Random::new(100);
        for which in 0..TYPES {
            let sample = Sample::least(&mut random, which);
            let record = read::message(sample.layout.direction(), &sample.bytes()).unwrap();
            assert_eq!(record, sample.record());
        }
        for which in NEW_ORDERS {
            let order = Sample::least(&mut random, which);
            assert_eq!(order.bitfields, [0x04, 0x41]);
            assert_eq!(order.bytes().len(), 36 + 2 + 17);
        }
        let modify = Sample::least(&mut random, MODIFY);
        assert_eq!(modify.bitfields, [0x0C]);
        assert_eq!(modify.bytes().len(), 51 + 1 + 12);
        let purge = Sample::least(&mut random, PURGE);
        assert_eq!(purge.bitfields, [0x04]);
        let ids = 2 * usize::from(purge.middle[0]);
        assert_eq!(purge.bytes().len(), 12 + 1 + 1 + ids + 16);
    }

    #[test]
    fn reader_and_writer_agree_with_the_parts() {
        let mut random = Random::new(101);
        for round in 0..9_000 {
            judged::agree(&Sample::any(&mut random, round % TYPES));
        }
    }

    /// What follows a record, if anything does, is not always zero, and the record itself stays.
    #[test]
    fn lent_records() {
        let mut random = Random::new(111);
        let record = Sample::any(&mut random, CANCEL).record();
        let (mut own, mut longest, mut zero) = (0, 0, 0);
        for _ in 0..400 {
            let bytes = Sample::lent(&mut random, &record);
            assert!((291..=439).contains(&bytes.len()));
            assert_eq!(bytes[..291], record);
            own += usize::from(bytes.len() == 291);
            longest += usize::from(bytes.len() == 439);
            let after = &bytes[291..];
            zero += usize::from(!after.is_empty() && after.iter().all(|byte| *byte == 0));
        }
        assert!((40..100).contains(&own));
        assert!((200..360).contains(&longest));
        assert!((200..320).contains(&zero));
        let record = Sample::any(&mut random, CANCEL_REJECTED).record();
        let sizes = (0..400).map(|_| Sample::lent(&mut random, &record).len());
        let sizes: Vec<usize> = sizes.collect();
        let count = |size: usize| sizes.iter().filter(|other| **other == size).count();
        assert!((200..360).contains(&count(291)));
        assert!((40..100).contains(&count(439)));
    }

    /// Each listed bit is both set and not set, each count is used, and both ends of the units.
    #[test]
    fn any_sample_is_any() {
        let mut random = Random::new(102);
        for which in 0..TYPES {
            let layout = &layout::ALL[which];
            let samples: Vec<Sample> = (0..2_000)
                .map(|_| Sample::any(&mut random, which))
                .collect();
            for field in layout.listed {
                let set = samples
                    .iter()
                    .filter(|sample| field.selected(&sample.bitfields))
                    .count();
                let always = layout.required.contains(&&[field.name][..]);
                assert!(set > 100, "{}", field.name);
                assert!(set < 1_900 || always, "{}", field.name);
            }
            let least = match which {
                NEW_ORDER | OPTIONS => 2,
                MODIFY | PURGE => 1,
                _ => 0,
            };
            for count in least..=layout.most {
                assert!(samples.iter().any(|sample| sample.count as usize == count));
            }
            for unit in [layout.least_unit, layout.greatest_unit] {
                assert!(samples.iter().any(|sample| sample.unit == unit));
            }
        }
    }
}
