//! An independent implementation of the library, written from the paper alone: plain, safe and fast.
//!
//! The functions have the signatures and answers of `bushingowl::numbers`; `read_ascii` has those of `bo_read_ascii`.

#![forbid(unsafe_code)]

mod ascii_line;
mod ascii_reader;
#[cfg(test)]
mod ascii_tests;
mod clock;
mod cursor;
mod explain;
mod export;
#[cfg(test)]
mod mark_tests;
mod marks;
#[cfg(test)]
mod meaning;
mod pen;
mod reader;
mod record;
mod row;
mod tables;
#[cfg(test)]
mod tests;
mod writer;

pub use ascii_reader::read_ascii;
pub use explain::explain;
pub use export::export;
pub use reader::read;
pub use record::{pack, unpack};
pub use writer::write;

/// The last row number.
const LAST_NUMBER: u64 = 999_999;
/// The bytes of a packed record.
const RECORD: usize = 20;
/// The most bytes of packed records in one call.
const MOST_RECORDS: usize = 999_999 * RECORD;
/// The latest start in milliseconds.
const LAST_START: u64 = 8_639_999_999_999;
/// The milliseconds of a day.
const DAY: u64 = 86_400_000;
/// The last channel.
const LAST_CHANNEL: u64 = 16;

/// Number and place.
type Refusal = (u64, u64);

/// The records of a list, or nothing if it is too long or the last is cut off.
fn whole_records(records: &[u8]) -> Option<&[[u8; RECORD]]> {
    match records.as_chunks() {
        (whole, []) if records.len() <= MOST_RECORDS => Some(whole),
        _ => None,
    }
}
