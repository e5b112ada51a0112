//! The messages with bitfields (document 01, "The bit dictionary").

mod late;
mod middle;
mod tables;
#[cfg(test)]
mod tests;

pub use middle::Middle;
pub use tables::ALL;

use super::frame::HEADER;
use super::kinds::{self, Kind};
use super::number;
use super::{check, Refusal};
use late::Selected;

const LEAST_QUANTITY: u64 = 1;
const GREATEST_QUANTITY: u64 = 999_999;

#[derive(Clone, Copy, Debug, PartialEq, Eq)]
pub enum Rule {
    /// What agrees with the kind; it may be blank.
    Any(Kind),
    /// The same, never blank.
    Filled(Kind),
    /// OrderQty of a New Order.
    Quantity,
}

/// A field of the fixed part.
#[derive(Debug)]
pub struct Fixed {
    pub name: &'static str,
    pub width: usize,
    pub rule: Rule,
}

/// A bit that may be set, and the field that it selects. The bitfields count from 1.
#[derive(Debug, PartialEq, Eq)]
pub struct Listed {
    pub byte: usize,
    pub bit: u8,
    pub name: &'static str,
    pub width: usize,
    pub kind: Kind,
}

#[derive(Debug)]
pub struct Layout {
    /// At least one.
    pub directions: &'static [u8],
    /// On the wire, and in a record, which tells its own dictionary.
    pub type_byte: u8,
    pub record_type: u8,
    pub least_unit: u8,
    pub greatest_unit: u8,
    /// 0 for what is unsequenced; else the number may be any.
    pub greatest_number: u32,
    /// In the order of their places, from the end of the header to the count byte.
    pub fixed: &'static [Fixed],
    /// The most bitfields.
    pub most: usize,
    /// First byte first, lowest bit first.
    pub listed: &'static [Listed],
    /// Of each group at least one field is selected.
    pub required: &'static [&'static [&'static str]],
    /// Between the bitfields and the optional fields.
    pub middle: Middle,
}

/// Where a selected field stands.
#[derive(Debug)]
pub struct Place {
    pub field: &'static Listed,
    /// Its first byte in the message.
    pub wire: usize,
    /// Its first byte in the full layout, which has a slot for every listed bit.
    pub slot: usize,
}

impl Listed {
    /// Whether the bit is set; a bitfield that is not there has none.
    pub fn selected(&self, bitfields: &[u8]) -> bool {
        match bitfields.get(self.byte - 1) {
            Some(bitfield) => bitfield & self.bit != 0,
            None => false,
        }
    }
}

impl Place {
    /// 10 in an optional field.
    fn check(&self, value: &[u8]) -> Result<(), Refusal> {
        let good = kinds::agrees(self.field.kind, value);
        check(good, Refusal::Value(self.wire))
    }
}

impl Rule {
    pub fn takes(self, value: &[u8]) -> bool {
        match self {
            Rule::Any(kind) => kinds::agrees(kind, value),
            Rule::Filled(kind) => kinds::filled(kind, value),
            Rule::Quantity => {
                let quantity = number::get(value, 0, value.len() as u64);
                (LEAST_QUANTITY..=GREATEST_QUANTITY).contains(&quantity)
            }
        }
    }
}

impl Layout {
    /// The message of a type byte; 4 if there is no such direction, or it has no such type.
    pub fn of(direction: u8, type_byte: u8) -> Result<&'static Layout, Refusal> {
        Layout::find(direction, |layout| layout.type_byte == type_byte)
    }

    /// The same of a record's type byte.
    pub fn of_record(direction: u8, record_type: u8) -> Result<&'static Layout, Refusal> {
        Layout::find(direction, |layout| layout.record_type == record_type)
    }

    fn find(direction: u8, sort: impl Fn(&Layout) -> bool) -> Result<&'static Layout, Refusal> {
        ALL.iter()
            .find(|layout| layout.directions.contains(&direction) && sort(layout))
            .ok_or(Refusal::Type)
    }

    /// The direction in which the message is asked about.
    pub fn direction(&self) -> u8 {
        self.directions[0]
    }

    pub fn fixed_width(&self) -> usize {
        self.fixed.iter().map(|field| field.width).sum()
    }

    pub fn count_place(&self) -> usize {
        HEADER + self.fixed_width()
    }

    pub fn bitfields_place(&self) -> usize {
        self.count_place() + 1
    }

    /// All listed bits of a bitfield; the bitfields count from 1.
    pub fn listed_bits(&self, byte: usize) -> u8 {
        self.listed
            .iter()
            .filter(|field| field.byte == byte)
            .map(|field| field.bit)
            .sum()
    }

    /// Where the middle stands, or the first field if there is none.
    pub fn middle_place(&self, bitfields: &[u8]) -> usize {
        self.bitfields_place() + bitfields.len()
    }

    /// The selected fields, in the order of their bits, after a middle of so many bytes.
    pub fn places(&self, bitfields: &[u8], middle: usize) -> Vec<Place> {
        let mut wire = self.middle_place(bitfields) + middle;
        let mut slot = 0;
        let mut places = Vec::new();
        for field in self.listed {
            if field.selected(bitfields) {
                places.push(Place { field, wire, slot });
                wire += field.width;
            }
            slot += field.width;
        }
        places
    }

    /// The bytes of a message with these bitfields and such a middle.
    pub fn total(&self, bitfields: &[u8], middle: usize) -> usize {
        let fields: usize = self
            .places(bitfields, middle)
            .iter()
            .map(|place| place.field.width)
            .sum();
        self.middle_place(bitfields) + middle + fields
    }

    // What reading and writing both check, each giving one number and its place in the message.

    /// 5
    pub fn check_header(&self, unit: u8, number: u32) -> Result<(), Refusal> {
        let units = self.least_unit..=self.greatest_unit;
        let good = units.contains(&unit) && number <= self.greatest_number;
        check(good, Refusal::Unit)
    }

    /// 7
    pub fn check_count(&self, count: u8) -> Result<(), Refusal> {
        let good = usize::from(count) <= self.most;
        check(good, Refusal::Count(self.count_place()))
    }

    /// 8
    pub fn check_bits(&self, bitfields: &[u8]) -> Result<(), Refusal> {
        for (index, bitfield) in bitfields.iter().enumerate() {
            let listed = self.listed_bits(index + 1);
            let place = self.bitfields_place() + index;
            check(bitfield & !listed == 0, Refusal::Bit(place))?;
        }
        Ok(())
    }

    /// 9 for what is required whatever the values.
    pub fn check_required(&self, bitfields: &[u8]) -> Result<(), Refusal> {
        for group in self.required {
            let found = self
                .listed
                .iter()
                .any(|field| group.contains(&field.name) && field.selected(bitfields));
            check(found, self.missing(bitfields))?;
        }
        Ok(())
    }

    /// 9: the last bitfield, or the count byte if there is none.
    fn missing(&self, bitfields: &[u8]) -> Refusal {
        Refusal::Missing(self.count_place() + bitfields.len())
    }

    /// What the values are refused for: 10 in the order of the message, the 9 that hangs on a value,
    /// 23. The middle may be followed by other bytes.
    pub fn check_values(
        &self,
        fixed: &[u8],
        bitfields: &[u8],
        middle: &[u8],
        fields: &[(Place, &[u8])],
    ) -> Result<(), Refusal> {
        self.check_fixed(fixed)?;
        let count = Refusal::Value(self.middle_place(bitfields));
        check(self.middle.takes(middle), count)?;
        for (place, value) in fields {
            place.check(value)?;
        }
        let selected = Selected(fields);
        let lacks = late::lacks(self.type_byte, &selected);
        check(!lacks, self.missing(bitfields))?;
        let conflicts = late::conflicts(self.type_byte, &selected);
        check(!conflicts, Refusal::Conflict)
    }

    /// 10 in the fixed part, which has its full width here.
    fn check_fixed(&self, part: &[u8]) -> Result<(), Refusal> {
        let mut place = HEADER;
        let mut rest = part;
        for field in self.fixed {
            let (value, after) = rest.split_at(field.width);
            check(field.rule.takes(value), Refusal::Value(place))?;
            place += field.width;
            rest = after;
        }
        Ok(())
    }
}
