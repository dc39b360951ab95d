//! The papers' bounds.

/// Films in a file ("F is 1 to 64").
pub const MAX_FILMS: usize = 64;
/// Rounds of a film ("each n 1 to 4,096").
pub const MAX_FILM_ROUNDS: usize = 4_096;
/// Bytes that a film sends in one round ("each size at most 16,777,215").
pub const MAX_SIZE: u32 = 16_777_215;
/// Pre-fetch rounds ("Is p at most 256?").
pub const MAX_PREFETCH: u64 = 256;
/// Bytes of a reserve ("Is b at most 16,777,215?").
pub const MAX_RESERVE: u64 = 16_777_215;
/// Rounds of a day ("is T 1 to 86,400?").
pub const MAX_DAY_ROUNDS: u64 = 86_400;
/// Bytes per round of the disk limit ("Is D at most 4,294,967,295").
pub const MAX_DISK: u64 = 4_294_967_295;
/// Bytes of the memory limit ("M at most 1,099,511,627,776").
pub const MAX_MEMORY: u64 = 1_099_511_627_776;
/// Standing bookings ("at most 256 records").
pub const MAX_BOOKINGS: u64 = 256;
