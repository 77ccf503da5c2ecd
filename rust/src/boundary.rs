//! The functions of `include/bushingowl.h`, and all `unsafe` code of this crate.
//!
//! Why every call here is sound:
//! - A slice goes over as its pointer and its length.
//! - The library reads and writes only within the lengths given.
//! - `&mut` makes sure that the output and the answer overlap with nothing else in the call.
//! - The library keeps no pointer and has no state, so that calls from several threads do not meet.

mod c {
    extern "C" {
        pub fn bo_read(
            text: *const u8,
            text_len: usize,
            out: *mut u8,
            out_len: usize,
            answer: *mut u64,
        );
        pub fn bo_write(
            version: u32,
            start: u64,
            first: u64,
            records: *const u8,
            records_len: usize,
            out: *mut u8,
            out_len: usize,
            answer: *mut u64,
        );
        pub fn bo_unpack(record: *const u8, record_len: usize, answer: *mut u64);
        pub fn bo_pack(fields: *const u64, out: *mut u8, out_len: usize, answer: *mut u64);
        pub fn bo_export(
            start: u64,
            channel: u64,
            records: *const u8,
            records_len: usize,
            out: *mut u8,
            out_len: usize,
            answer: *mut u64,
        );
        pub fn bo_read_ascii(
            text: *const u8,
            text_len: usize,
            out: *mut u8,
            out_len: usize,
            answer: *mut u64,
        );
        pub fn bo_explain(
            line: *const u8,
            line_len: usize,
            version: u32,
            number: u64,
            answer: *mut u64,
        );
    }
}

/// What an answer holds before the call. Every call sets every number.
const UNSET: u64 = u64::MAX;

pub fn read(text: &[u8], out: &mut [u8]) -> [u64; 7] {
    let mut answer = [UNSET; 7];
    // SAFETY: see above; the answer has room for the seven numbers of the header.
    unsafe {
        c::bo_read(
            text.as_ptr(),
            text.len(),
            out.as_mut_ptr(),
            out.len(),
            answer.as_mut_ptr(),
        )
    }
    answer
}

pub fn write(version: u32, start: u64, first: u64, records: &[u8], out: &mut [u8]) -> [u64; 3] {
    let mut answer = [UNSET; 3];
    // SAFETY: see above; the answer has room for the three numbers of the header.
    unsafe {
        c::bo_write(
            version,
            start,
            first,
            records.as_ptr(),
            records.len(),
            out.as_mut_ptr(),
            out.len(),
            answer.as_mut_ptr(),
        )
    }
    answer
}

pub fn unpack(record: &[u8]) -> [u64; 10] {
    let mut answer = [UNSET; 10];
    // SAFETY: see above; the answer has room for the ten numbers of the header.
    unsafe { c::bo_unpack(record.as_ptr(), record.len(), answer.as_mut_ptr()) }
    answer
}

pub fn pack(fields: &[u64; 8], out: &mut [u8]) -> [u64; 2] {
    let mut answer = [UNSET; 2];
    // SAFETY: see above; there are eight fields, and the answer has room for the two numbers of the header.
    unsafe {
        c::bo_pack(
            fields.as_ptr(),
            out.as_mut_ptr(),
            out.len(),
            answer.as_mut_ptr(),
        )
    }
    answer
}

pub fn export(start: u64, channel: u64, records: &[u8], out: &mut [u8]) -> [u64; 5] {
    let mut answer = [UNSET; 5];
    // SAFETY: see above; the answer has room for the five numbers of the header.
    unsafe {
        c::bo_export(
            start,
            channel,
            records.as_ptr(),
            records.len(),
            out.as_mut_ptr(),
            out.len(),
            answer.as_mut_ptr(),
        )
    }
    answer
}

pub fn read_ascii(text: &[u8], out: &mut [u8]) -> [u64; 4] {
    let mut answer = [UNSET; 4];
    // SAFETY: see above; the answer has room for the four numbers of the header.
    unsafe {
        c::bo_read_ascii(
            text.as_ptr(),
            text.len(),
            out.as_mut_ptr(),
            out.len(),
            answer.as_mut_ptr(),
        )
    }
    answer
}

pub fn explain(line: &[u8], version: u32, number: u64) -> [u64; 4] {
    let mut answer = [UNSET; 4];
    // SAFETY: see above; the answer has room for the four numbers of the header.
    unsafe {
        c::bo_explain(
            line.as_ptr(),
            line.len(),
            version,
            number,
            answer.as_mut_ptr(),
        )
    }
    answer
}
