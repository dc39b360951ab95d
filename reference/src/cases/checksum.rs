//! The checksum that stands for values too many to print.

/// The largest prime below 2^32, so that no step leaves 64 bits.
pub const MODULUS: u64 = 4_294_967_291;
/// What the checksum is multiplied by before the next value is added.
pub const MULTIPLIER: u64 = 1_000_003;

/// A checksum, 0 at first.
#[derive(Clone, Copy, Debug, Default, PartialEq, Eq)]
pub struct Checksum(pub u64);

impl Checksum {
    /// Takes in one value.
    pub fn add(&mut self, value: u64) {
        self.0 = (self.0 * MULTIPLIER + value % MODULUS) % MODULUS;
    }

    /// Takes in the values in order.
    pub fn add_all(&mut self, values: &[u64]) {
        for &value in values {
            self.add(value);
        }
    }
}
