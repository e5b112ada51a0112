//! Words of the format: NUMBER, which is one to twenty decimal digits, and BYTES of a size that is
//! given.

use crate::hex;

const MOST_DIGITS: usize = 20;

/// None for a number past its greatest value, and for what is no number.
pub fn read_number(word: &str, greatest: u64) -> Option<u64> {
    if word.is_empty() || word.len() > MOST_DIGITS {
        return None;
    }
    let mut value: u128 = 0;
    for character in word.bytes() {
        if !character.is_ascii_digit() {
            return None;
        }
        value = value * 10 + u128::from(character - b'0');
    }
    if value > u128::from(greatest) {
        return None;
    }
    Some(value as u64)
}

pub fn read_u8(word: &str) -> Option<u8> {
    read_number(word, u64::from(u8::MAX)).map(|value| value as u8)
}

pub fn read_u32(word: &str) -> Option<u32> {
    read_number(word, u64::from(u32::MAX)).map(|value| value as u32)
}

pub fn read_size(word: &str, most: usize) -> Option<usize> {
    read_number(word, most as u64).map(|size| size as usize)
}

/// 0 or 1.
pub fn read_truth(word: &str) -> Option<bool> {
    read_number(word, 1).map(|value| value == 1)
}

/// Exactly as many bytes as are wanted.
pub fn read_bytes<const COUNT: usize>(word: &str) -> Option<[u8; COUNT]> {
    hex::read(word)?.try_into().ok()
}

#[cfg(test)]
mod tests {
    use super::*;

    #[test]
    fn numbers() {
        assert_eq!(read_number("00000000000000000009", 9), Some(9));
        assert_eq!(
            read_number("18446744073709551615", u64::MAX),
            Some(u64::MAX)
        );
        assert_eq!(read_u8("255"), Some(255));
        assert_eq!(read_u32("4294967295"), Some(u32::MAX));
        for word in ["", "-", "-1", "+1", "1 ", "000000000000000000009", "x"] {
            assert_eq!(read_number(word, u64::MAX), None, "{}", word);
        }
        assert_eq!(read_number("10", 9), None);
        assert_eq!(read_number("18446744073709551616", u64::MAX), None);
        assert_eq!(read_u8("256"), None);
        assert_eq!(read_u32("4294967296"), None);
        assert_eq!(read_size("16385", 16_384), None);
        assert_eq!(read_truth("1"), Some(true));
        assert_eq!(read_truth("2"), None);
    }

    #[test]
    fn bytes_of_a_size() {
        assert_eq!(read_bytes("0AFF"), Some([10, 255]));
        assert_eq!(read_bytes("-"), Some([]));
        for word in ["-", "0A", "0AFF00", "0AF", "0aFF"] {
            assert_eq!(read_bytes::<2>(word), None, "{}", word);
        }
    }
}
