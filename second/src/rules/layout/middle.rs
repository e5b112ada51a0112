//! What stands between the bitfields and the optional fields. Purge Orders alone has something there:
//! RiskGroupIDCnt and the RiskGroupIDs that it counts (document 000, table 30).

/// The bytes of RiskGroupIDCnt and of a RiskGroupID.
const COUNT: usize = 1;
const ID: usize = 2;

#[derive(Clone, Copy, Debug, PartialEq, Eq)]
pub enum Middle {
    Nothing,
    /// RiskGroupIDCnt and so many RiskGroupIDs, which take any value.
    RiskGroups {
        most: u8,
    },
}

impl Middle {
    /// Its bytes, by the bytes from its place on: its count says how many, whether they are there or
    /// not. Without a count it has at least that byte.
    pub fn width(self, bytes: &[u8]) -> usize {
        match self {
            Middle::Nothing => 0,
            Middle::RiskGroups { .. } => {
                let count = bytes.first().copied().unwrap_or(0);
                COUNT + ID * usize::from(count)
            }
        }
    }

    /// Whether its count, the first of the bytes from its place on, is in its range.
    pub fn takes(self, bytes: &[u8]) -> bool {
        match self {
            Middle::Nothing => true,
            Middle::RiskGroups { most } => bytes[0] <= most,
        }
    }
}

#[cfg(test)]
mod tests {
    use super::*;

    #[test]
    fn widths() {
        let groups = Middle::RiskGroups { most: 10 };
        assert_eq!(groups.width(&[]), 1);
        assert_eq!(groups.width(&[0, 9]), 1);
        assert_eq!(groups.width(&[1]), 3);
        assert_eq!(groups.width(&[10, 255]), 21);
        assert_eq!(groups.width(&[255]), 511);
        assert!(groups.takes(&[0]) && groups.takes(&[10]));
        assert!(!groups.takes(&[11]) && !groups.takes(&[255]));
        for bytes in [&[][..], &[0], &[255]] {
            assert_eq!(Middle::Nothing.width(bytes), 0);
            assert!(Middle::Nothing.takes(bytes));
        }
    }
}
