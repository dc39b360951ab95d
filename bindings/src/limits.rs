//! The scheduler's bounds, each with its unit. A number past its bound is legal input and meets that bound's own refusal.

/// Films in a file, at most.
pub const MAX_FILMS: usize = 64;
/// Rounds of a film, at most.
pub const MAX_ROUNDS: usize = 4_096;
/// Bytes that a film sends in one round, at most.
pub const MAX_SIZE: u64 = 16_777_215;
/// Pre-fetch rounds, at most.
pub const MAX_PREFETCH: u64 = 256;
/// Reserve in bytes per round, at most.
pub const MAX_RESERVE: u64 = 16_777_215;
/// Rounds of a day, at most.
pub const MAX_DAY: u64 = 86_400;
/// Disk limit in bytes per round, at most.
pub const MAX_DISK: u64 = 4_294_967_295;
/// Memory limit in bytes, at most.
pub const MAX_MEMORY: u64 = 1_099_511_627_776;
/// Bookings of a day, at most.
pub const MAX_BOOKINGS: usize = 256;
