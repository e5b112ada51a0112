//! Prices (document 01, "Wire basics"): two's complement, in units of a ten-thousandth.

/// Ten-thousandths in one.
const WHOLE: i128 = 10_000;

pub fn value(bytes: [u8; 8]) -> i64 {
    i64::from_le_bytes(bytes)
}

/// A price with its four decimals. i128, since the least i64 has no opposite in an i64.
pub fn text(price: i64) -> String {
    let sign = if price < 0 { "-" } else { "" };
    let size = i128::from(price).abs();
    format!("{}{}.{:04}", sign, size / WHOLE, size % WHOLE)
}

#[cfg(test)]
mod tests {
    use super::*;

    #[test]
    fn p1_to_p4() {
        assert_eq!(text(value([0x08, 0xE2, 0x01, 0, 0, 0, 0, 0])), "12.3400");
        assert_eq!(
            text(value([0xF8, 0x1D, 0xFE, 255, 255, 255, 255, 255])),
            "-12.3400"
        );
        assert_eq!(text(value([255; 8])), "-0.0001");
        assert_eq!(
            text(value([0, 0, 0, 0, 0, 0, 0, 0x80])),
            "-922337203685477.5808"
        );
    }

    #[test]
    fn others() {
        assert_eq!(text(0), "0.0000");
        assert_eq!(text(9_999), "0.9999");
        assert_eq!(text(-10_000), "-1.0000");
        assert_eq!(text(1_234_500), "123.4500");
        assert_eq!(text(i64::MAX), "922337203685477.5807");
    }
}
