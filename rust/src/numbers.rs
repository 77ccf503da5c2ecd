//! The same functions with the plain numbers of the C boundary, in the order of `include/bushingowl.h`.
//!
//! The first number is 0 or the refusal, the second its place. With a refusal the others are 0.

use crate::boundary;

/// Number, place, version, start, rows, first step back (a position among the rows, from 1), first number.
pub fn read(text: &[u8], out: &mut [u8]) -> [u64; 7] {
    boundary::read(text, out)
}

/// Number, place, bytes.
pub fn write(version: u32, start: u64, first: u64, records: &[u8], out: &mut [u8]) -> [u64; 3] {
    boundary::write(version, start, first, records, out)
}

/// Number, place, offset, bus, kind, extended, ID, length, data, mark.
pub fn unpack(record: &[u8]) -> [u64; 10] {
    boundary::unpack(record)
}

/// Number, place. The fields are offset, bus, kind, extended, ID, length, data, mark, each with any value; a mark above 1
/// is 23.
pub fn pack(fields: &[u64; 8], out: &mut [u8]) -> [u64; 2] {
    boundary::pack(fields, out)
}

/// Number, place, bytes, lines, records left out. The channel that is given is that of bus 0.
pub fn export(start: u64, channel: u64, records: &[u8], out: &mut [u8]) -> [u64; 5] {
    boundary::export(start, channel, records, out)
}

/// Number, place, start, records.
pub fn read_ascii(text: &[u8], out: &mut [u8]) -> [u64; 4] {
    boundary::read_ascii(text, out)
}

/// Number, place, reason, field. The row number that is given is the expected one, or 0 for a first row of any number.
pub fn explain(line: &[u8], version: u32, number: u64) -> [u64; 4] {
    boundary::explain(line, version, number)
}
