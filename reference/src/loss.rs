//! The disk loss: bytes that a round loses to arm movement.

use crate::bounds::MAX_BOOKINGS;
use std::sync::LazyLock;

/// "the largest whole number whose square is at most k × 10,000,000,000", k from 0 to 256, found by counting up.
static TABLE: LazyLock<Vec<u64>> = LazyLock::new(|| {
    let mut table = Vec::new();
    let mut root: u64 = 0;
    for k in 0..=MAX_BOOKINGS {
        while (root + 1) * (root + 1) <= k * 10_000_000_000 {
            root += 1;
        }
        table.push(root);
    }
    table
});

/// The loss of a round with `open` films open, at most 256.
pub fn loss(open: u64) -> u64 {
    TABLE[open as usize]
}

#[cfg(test)]
mod tests {
    use super::*;

    #[test]
    fn figures() {
        let figures = [
            (0, 0),
            (1, 100_000),
            (2, 141_421),
            (3, 173_205),
            (256, 1_600_000),
        ];
        for (open, bytes) in figures {
            assert_eq!(loss(open), bytes);
        }
    }

    #[test]
    fn every_entry_keeps_the_rule() {
        for k in 0..=MAX_BOOKINGS {
            let square = k * 10_000_000_000;
            assert!(loss(k) * loss(k) <= square && square < (loss(k) + 1) * (loss(k) + 1));
        }
    }
}
