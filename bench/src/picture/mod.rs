//! Pictures of a day: disk, memory and cabs by round with their limits, bookings as bars, refused ones with what refused them.

pub mod draw;
pub mod example;
pub mod record;
pub mod refused;
