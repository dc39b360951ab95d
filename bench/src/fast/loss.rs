//! The disk loss, worked out when the program is compiled.

use playback::limits::MAX_BOOKINGS;

/// By the number of films open: the largest whole number whose square is at most k × 10,000,000,000.
const TABLE: [u32; MAX_BOOKINGS + 1] = {
    let mut table = [0; MAX_BOOKINGS + 1];
    let mut k = 0;
    while k <= MAX_BOOKINGS {
        table[k] = (k as u64 * 10_000_000_000).isqrt() as u32;
        k += 1;
    }
    table
};

/// Bytes that a round with that many films open loses, at most 256.
pub fn loss(open: u32) -> u64 {
    u64::from(TABLE[open as usize])
}
