//! Heartbeats and silence by the 32-bit millisecond clock (document 01, end of "Session and
//! replay").

const DUE: u32 = 1_000;
const SILENT: u32 = 5_000;

/// The clock runs round, so the difference is taken modulo 2^32.
fn elapsed(now: u32, then: u32) -> u32 {
    now.wrapping_sub(then)
}

/// Whether a heartbeat is due when the last message went out at `sent`.
pub fn due(now: u32, sent: u32) -> bool {
    elapsed(now, sent) >= DUE
}

/// Whether the peer is silent when it was last heard at `heard`.
pub fn silent(now: u32, heard: u32) -> bool {
    elapsed(now, heard) >= SILENT
}

#[cfg(test)]
mod tests {
    use super::*;

    #[test]
    fn p12() {
        assert!(due(994, 4_294_967_290));
        assert!(!due(993, 4_294_967_290));
    }

    #[test]
    fn limits() {
        assert!(!due(7, 7));
        assert!(!due(1_999, 1_000));
        assert!(due(2_000, 1_000));
        assert!(!silent(5_999, 1_000));
        assert!(silent(6_000, 1_000));
        assert!(!silent(4_993, 4_294_967_290));
        assert!(silent(4_994, 4_294_967_290));
        assert!(due(999, 1_000));
    }
}
