//! The kinds of fields and the characters of identifiers (document 01, "Wire basics").

use super::calendar;
use super::number;

#[derive(Clone, Copy, Debug, PartialEq, Eq)]
pub enum Kind {
    /// A
    Letters,
    /// N
    LettersAndDigits,
    /// T
    Text,
    /// B
    Binary,
    /// P
    Price,
    /// ClOrdID and OrigClOrdID
    Identifier,
    /// Text that is never blank: MassCancelInst
    FilledText,
    /// A calendar day as a number YYYYMMDD: MaturityDate
    Day,
}

pub const ALL: [Kind; 8] = [
    Kind::Letters,
    Kind::LettersAndDigits,
    Kind::Text,
    Kind::Binary,
    Kind::Price,
    Kind::Identifier,
    Kind::FilledText,
    Kind::Day,
];

/// The bytes of a day.
const DAY: usize = 4;

impl Kind {
    /// The letter that stands for the kind in questions.
    pub fn letter(self) -> char {
        match self {
            Kind::Letters => 'A',
            Kind::LettersAndDigits => 'N',
            Kind::Text => 'T',
            Kind::Binary => 'B',
            Kind::Price => 'P',
            Kind::Identifier => 'I',
            Kind::FilledText => 'F',
            Kind::Day => 'D',
        }
    }

    pub fn of_letter(word: &str) -> Option<Kind> {
        ALL.into_iter()
            .find(|kind| word == kind.letter().to_string())
    }

    /// Whether a byte may stand in a field of the kind, the filling NULs aside.
    pub fn takes(self, byte: u8) -> bool {
        match self {
            Kind::Letters => byte.is_ascii_alphabetic(),
            Kind::LettersAndDigits => byte.is_ascii_alphanumeric(),
            Kind::Text | Kind::FilledText => (32..=126).contains(&byte),
            Kind::Identifier => (33..=126).contains(&byte) && !excepted(byte),
            Kind::Binary | Kind::Price | Kind::Day => true,
        }
    }
}

/// The five exceptions from the bytes of identifiers, in the order of document 01.
fn excepted(byte: u8) -> bool {
    let comma = byte == b',';
    let semicolon = byte == b';';
    let pipe = byte == b'|';
    let at = byte == b'@';
    let double_quote = byte == b'"';
    comma || semicolon || pipe || at || double_quote
}

/// A field is blank when it holds no byte but NUL.
pub fn blank(field: &[u8]) -> bool {
    field.iter().all(|byte| *byte == 0)
}

/// Whether a field agrees with its kind; blank is allowed but in a filled text and a day. In a text
/// only NULs follow the first NUL.
pub fn agrees(kind: Kind, field: &[u8]) -> bool {
    if kind == Kind::Binary || kind == Kind::Price {
        return true;
    }
    if kind == Kind::FilledText {
        return filled(Kind::Text, field);
    }
    if kind == Kind::Day {
        return day(field);
    }
    let end = field
        .iter()
        .position(|byte| *byte == 0)
        .unwrap_or(field.len());
    let text = &field[..end];
    let filling = &field[end..];
    text.iter().all(|byte| kind.takes(*byte)) && blank(filling)
}

/// Whether a field is a calendar day by refusal 19.
fn day(field: &[u8]) -> bool {
    field.len() == DAY && calendar::check(number::get(field, 0, DAY as u64) as u32).is_ok()
}

/// The same as `agrees` for a field that is never blank.
pub fn filled(kind: Kind, field: &[u8]) -> bool {
    agrees(kind, field) && !blank(field)
}

#[cfg(test)]
mod tests {
    use super::*;

    fn taken(kind: Kind) -> usize {
        (0..=255).filter(|byte| kind.takes(*byte)).count()
    }

    #[test]
    fn counts_of_characters() {
        assert_eq!(taken(Kind::Letters), 52);
        assert_eq!(taken(Kind::LettersAndDigits), 62);
        assert_eq!(taken(Kind::Text), 95);
        assert_eq!(taken(Kind::FilledText), 95);
        assert_eq!(taken(Kind::Identifier), 94 - 5);
    }

    /// The runs of bytes between the exceptions, by their numbers in ASCII.
    #[test]
    fn bytes_of_identifiers() {
        let runs = [33..=33, 35..=43, 45..=58, 60..=63, 65..=123, 125..=126];
        let listed: Vec<u8> = runs.into_iter().flatten().collect();
        let found: Vec<u8> = (0..=255)
            .filter(|byte| Kind::Identifier.takes(*byte))
            .collect();
        assert_eq!(listed.len(), 89);
        assert_eq!(found, listed);
    }

    #[test]
    fn identifiers() {
        assert!(filled(Kind::Identifier, b"ABC123\0\0"));
        assert!(filled(Kind::Identifier, b"!~"));
        for bad in [b"A,", b"A;", b"A|", b"A@", b"A\"", b"A ", b"A\x7F", b"\0A"] {
            assert!(!filled(Kind::Identifier, bad));
            assert!(!agrees(Kind::Identifier, bad));
        }
    }

    #[test]
    fn blanks() {
        for kind in ALL {
            for size in 0..=20 {
                let never = [Kind::FilledText, Kind::Day].contains(&kind);
                assert_eq!(agrees(kind, &vec![0; size]), !never);
                assert!(!filled(kind, &vec![0; size]));
            }
        }
        assert!(filled(Kind::Binary, &[0, 0, 0, 1]));
        assert!(filled(Kind::Price, &[0, 128]));
    }

    /// Four bytes and a day by refusal 19, by either of the two questions.
    #[test]
    fn days() {
        for (field, expected) in [
            (&[0xEF, 0xDB, 0x32, 0x01][..], true),
            (&[0x95, 0xDB, 0x32, 0x01], false),
            (&[0x85, 0x99, 0x2C, 0x01], true),
            (&[0x84, 0x99, 0x2C, 0x01], false),
            (&[0, 0, 0, 0], false),
            (&[0xFF; 4], false),
            (&[0xEF, 0xDB, 0x32], false),
            (&[0xEF, 0xDB, 0x32, 0x01, 0], false),
            (&[0xEF, 0xDB, 0x32, 0x01, 0, 0, 0, 0], false),
            (&[], false),
        ] {
            assert_eq!(agrees(Kind::Day, field), expected, "{:?}", field);
            assert_eq!(filled(Kind::Day, field), expected, "{:?}", field);
        }
    }

    /// A filled text is a text that is never blank, by either of the two questions.
    #[test]
    fn filled_texts() {
        for field in [
            &b""[..],
            b"\0",
            b"\0\0",
            b"A",
            b" \0",
            b"~A",
            b"\x7F",
            b"\0A",
            b"A\0A",
            b"F\0\0",
        ] {
            let expected = filled(Kind::Text, field);
            assert_eq!(agrees(Kind::FilledText, field), expected);
            assert_eq!(filled(Kind::FilledText, field), expected);
        }
    }

    #[test]
    fn nothing_follows_the_first_nul() {
        for kind in [
            Kind::Letters,
            Kind::LettersAndDigits,
            Kind::Text,
            Kind::Identifier,
            Kind::FilledText,
        ] {
            assert!(agrees(kind, b"AB\0\0"));
            assert!(!agrees(kind, b"A\0B\0"));
            assert!(!agrees(kind, b"\0\0\0B"));
        }
    }

    #[test]
    fn letters_of_kinds() {
        for kind in ALL {
            assert_eq!(Kind::of_letter(&kind.letter().to_string()), Some(kind));
        }
        for word in ["", "a", "AA", "C", "i", "f", "FT", "d", "DD"] {
            assert_eq!(Kind::of_letter(word), None);
        }
    }
}
