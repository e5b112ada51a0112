//! What the value of a selected field asks of the other fields (document 02, request 1): a 9 that is
//! told after 10, and then 23. Reading and writing judge it here, after every field's kind.

#[cfg(test)]
mod tests;

use super::Place;
use crate::rules::types::{MODIFY_ORDER, PURGE_ORDERS};

/// OrdType of a market order.
const MARKET: u8 = b'1';

/// The selected fields with their values. A field that is not selected does not speak, whatever a
/// record holds in its slot.
pub struct Selected<'a>(pub &'a [(Place, &'a [u8])]);

impl Selected<'_> {
    fn value(&self, name: &str) -> Option<&[u8]> {
        self.0
            .iter()
            .find(|(place, _)| place.field.name == name)
            .map(|(_, value)| *value)
    }

    fn has(&self, name: &str) -> bool {
        self.value(name).is_some()
    }
}

/// Whether a field that another one's value needs is not selected.
pub fn lacks(type_byte: u8, selected: &Selected) -> bool {
    match type_byte {
        MODIFY_ORDER => !selected.has("Price") && selected.value("OrdType") != Some(&[MARKET]),
        PURGE_ORDERS => {
            let instruction = Instruction::of(selected);
            (instruction.by_firm && !selected.has("ClearingFirm"))
                || (instruction.with_id && !selected.has("MassCancelID"))
        }
        _ => false,
    }
}

/// Whether two fields or values do not go together.
pub fn conflicts(type_byte: u8, selected: &Selected) -> bool {
    match type_byte {
        PURGE_ORDERS => {
            let instruction = Instruction::of(selected);
            let one_unit = matches!(selected.value("MatchingUnit"), Some([unit]) if *unit != 0);
            (instruction.lockout && !instruction.by_firm) || (selected.has("Symbol") && one_unit)
        }
        _ => false,
    }
}

/// What MassCancelInst says; its other characters and those after the third mean nothing here.
struct Instruction {
    /// First character: of the orders of a firm alone.
    by_firm: bool,
    /// Second character: acknowledged by MassCancelID, with each cancel besides or not.
    with_id: bool,
    /// Third character.
    lockout: bool,
}

impl Instruction {
    fn of(selected: &Selected) -> Instruction {
        let text = selected.value("MassCancelInst").unwrap_or_default();
        let character = |index: usize| text.get(index).copied().unwrap_or(0);
        Instruction {
            by_firm: character(0) == b'F',
            with_id: [b'S', b'B'].contains(&character(1)),
            lockout: character(2) == b'L',
        }
    }
}
