//! Little-endian numbers at a place of a buffer (document 01, "Wire basics").

use super::Refusal;

/// The number of `width` bytes from `at` on; bytes past the end count as zero.
pub fn get(bytes: &[u8], at: u64, width: u64) -> u64 {
    let mut value = 0;
    for step in 0..width {
        // u128, so that a place near the greatest u64 does not wrap.
        let place = u128::from(at) + u128::from(step);
        if place < bytes.len() as u128 {
            value += u64::from(bytes[place as usize]) << (8 * step);
        }
    }
    value
}

/// Writes `value` in `width` bytes from `at` on, or refuses and stores nothing.
pub fn put(buffer: &mut [u8], at: u64, width: u64, value: u64) -> Result<(), Refusal> {
    let end = u128::from(at) + u128::from(width);
    if end > buffer.len() as u128 {
        return Err(Refusal::Room);
    }
    for step in 0..width {
        buffer[(at + step) as usize] = (value >> (8 * step)) as u8;
    }
    Ok(())
}

#[cfg(test)]
mod tests {
    use super::*;

    #[test]
    fn lowest_byte_first() {
        let bytes = [1, 2, 3, 4, 5, 6, 7, 8, 9];
        assert_eq!(get(&bytes, 0, 2), 0x0201);
        assert_eq!(get(&bytes, 1, 4), 0x05040302);
        assert_eq!(get(&bytes, 1, 8), 0x0908070605040302);
        assert_eq!(get(&bytes, 8, 8), 9);
        assert_eq!(get(&bytes, 9, 2), 0);
        assert_eq!(get(&bytes, u64::MAX, 8), 0);
        assert_eq!(get(&[255; 8], 0, 8), u64::MAX);
    }

    #[test]
    fn put_stays_in_its_place() {
        let mut buffer = [9; 6];
        assert_eq!(put(&mut buffer, 2, 4, 0x04030201), Ok(()));
        assert_eq!(buffer, [9, 9, 1, 2, 3, 4]);
        for at in [3, 6, 7, u64::MAX - 3, u64::MAX] {
            assert_eq!(put(&mut buffer, at, 4, 0), Err(Refusal::Room));
            assert_eq!(buffer, [9, 9, 1, 2, 3, 4]);
        }
    }
}
