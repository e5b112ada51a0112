//! The text fields of messages with bitfields.

use super::sample::Sample;
use crate::questions::values::textual;
use crate::random::Random;
use crate::rules::kinds::Kind;
use crate::rules::layout::{self, Rule};

/// A sample that has a text field, selected if it is optional.
pub struct Text {
    pub sample: Sample,
    pub name: &'static str,
    pub kind: Kind,
    pub never_blank: bool,
}

/// One for each text field of a message.
pub fn texts(random: &mut Random, which: usize) -> Vec<Text> {
    let layout = &layout::ALL[which];
    let mut texts = Vec::new();
    for field in layout.fixed {
        let (kind, never_blank) = match field.rule {
            Rule::Any(kind) => (kind, false),
            Rule::Filled(kind) => (kind, true),
            Rule::Quantity => (Kind::Binary, true),
        };
        if textual(kind) {
            texts.push(Text {
                sample: Sample::least(random, which),
                name: field.name,
                kind,
                never_blank,
            });
        }
    }
    for field in layout.listed {
        if textual(field.kind) {
            let mut sample = Sample::least(random, which);
            sample.set_bit(field.byte, field.bit);
            texts.push(Text {
                sample,
                name: field.name,
                kind: field.kind,
                never_blank: field.kind == Kind::FilledText,
            });
        }
    }
    texts
}

#[cfg(test)]
mod tests {
    use super::*;
    use crate::questions::bitfields::sample::TYPES;
    use crate::questions::parts::Parts;
    use crate::rules::kinds;

    #[test]
    fn text_fields() {
        let mut random = Random::new(99);
        let counts: Vec<usize> = (0..TYPES)
            .map(|which| texts(&mut random, which).len())
            .collect();
        assert_eq!(counts, [16, 2, 11, 14, 22, 11, 3, 8, 5, 13]);
        for which in 0..TYPES {
            for mut text in texts(&mut random, which) {
                let full = text.sample.value(text.name).clone();
                assert!(kinds::filled(text.kind, &full), "{}", text.name);
                let message = text.sample.bytes();
                let found = message.windows(full.len()).any(|part| part == full);
                assert!(found, "{}", text.name);
            }
        }
    }
}
