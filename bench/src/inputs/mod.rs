//! Inputs at random: records and their marks, texts that spell them, lines like rows, lines of Telemotive ASCII, and damage to all of them.

pub mod ascii;
pub mod ascii_damage;
pub mod ascii_spoiled;
pub mod channels;
pub mod damage;
pub mod lines;
pub mod marks;
pub mod noise;
pub mod numbers;
pub mod random;
pub mod realistic;
pub mod records;
pub mod spelling;
pub mod style;

/// The bytes of a packed record.
pub const RECORD: usize = 20;
/// The last row number.
pub const LAST_NUMBER: u64 = 999_999;
/// The latest start in milliseconds.
pub const LAST_START: u64 = 8_639_999_999_999;
/// The largest offset in microseconds.
pub const LAST_OFFSET: u64 = 281_474_976_710_655;
/// The last channel, and the last bus.
pub const LAST_CHANNEL: u64 = 16;
