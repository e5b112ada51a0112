//! Sets of faults: a bit for each number of an order of refusals, the lowest for the first.

/// Stands in an order for the 9 that hangs on a value; each other fault is its own number.
pub const LATE: u8 = 109;

/// The number that is told of a fault.
#[cfg(test)]
pub fn told(fault: u8) -> u8 {
    fault % 100
}

/// The numbers of the faults.
pub fn numbers(faults: u16, order: &[u8]) -> Vec<u8> {
    order
        .iter()
        .enumerate()
        .filter(|(index, _)| faults >> index & 1 != 0)
        .map(|(_, number)| *number)
        .collect()
}

/// The sets of faults that are possible; the last of them is the one of all.
pub fn sets(order: &[u8], possible: impl Fn(u16) -> bool) -> Vec<u16> {
    (0..1 << order.len())
        .filter(|faults| possible(*faults))
        .collect()
}
