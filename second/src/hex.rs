//! BYTES of the format: capital hex, two digits a byte, `-` for no bytes.

const DIGITS: &[u8; 16] = b"0123456789ABCDEF";

pub fn write(bytes: &[u8]) -> String {
    if bytes.is_empty() {
        return "-".to_string();
    }
    let mut text = String::new();
    for byte in bytes {
        text.push(char::from(DIGITS[usize::from(byte >> 4)]));
        text.push(char::from(DIGITS[usize::from(byte & 15)]));
    }
    text
}

pub fn read(word: &str) -> Option<Vec<u8>> {
    if word == "-" {
        return Some(Vec::new());
    }
    let digits = word.as_bytes();
    if digits.is_empty() || digits.len() % 2 != 0 {
        return None;
    }
    let mut bytes = Vec::new();
    for pair in digits.chunks(2) {
        bytes.push(digit(pair[0])? * 16 + digit(pair[1])?);
    }
    Some(bytes)
}

fn digit(character: u8) -> Option<u8> {
    match character {
        b'0'..=b'9' => Some(character - b'0'),
        b'A'..=b'F' => Some(character - b'A' + 10),
        _ => None,
    }
}

#[cfg(test)]
mod tests {
    use super::*;

    #[test]
    fn every_byte_comes_back() {
        let bytes: Vec<u8> = (0..=255).collect();
        assert_eq!(read(&write(&bytes)), Some(bytes));
        assert_eq!(write(&[]), "-");
        assert_eq!(read("-"), Some(Vec::new()));
        assert_eq!(write(&[0xBA, 0x0F]), "BA0F");
    }

    #[test]
    fn other_words_are_no_bytes() {
        for word in [
            "", "A", "0ba", "ba", "0x00", "--", "-00", "0G", "G0", "é", "+1",
        ] {
            assert_eq!(read(word), None, "{}", word);
        }
    }
}
