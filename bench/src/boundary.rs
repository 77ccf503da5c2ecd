//! Two calls of the library, with numbers around their answers that they may not change: the one that explains a line, and the one that reads
//! Telemotive ASCII.

use std::hint::black_box;

extern "C" {
    fn bo_explain(line: *const u8, line_len: usize, version: u32, number: u64, answer: *mut u64);
    fn bo_read_ascii(
        text: *const u8,
        text_len: usize,
        out: *mut u8,
        out_len: usize,
        answer: *mut u64,
    );
}

/// The numbers of the answer, of either call.
const ANSWER: usize = 4;
/// The numbers on both sides of it.
pub const AROUND: usize = 8;

/// The answer, if nothing around it was changed. All the numbers are `before` first.
pub fn explain(line: &[u8], version: u32, number: u64, before: u64) -> Option<[u64; ANSWER]> {
    answered(before, |answer| {
        // SAFETY: the line goes over as its pointer and its length; the answer has room for its four numbers, is lent for this call only, and
        // overlaps with nothing else in it.
        unsafe {
            bo_explain(
                line.as_ptr(),
                line.len(),
                version,
                number,
                answer.as_mut_ptr(),
            )
        }
    })
}

/// The answer, if nothing around it was changed. All the numbers are `before` first.
pub fn read_ascii(text: &[u8], out: &mut [u8], before: u64) -> Option<[u64; ANSWER]> {
    answered(before, |answer| {
        // SAFETY: text and output go over as their pointers and lengths; the answer has room for its four numbers, is lent for this call only,
        // and overlaps with nothing else in it.
        unsafe {
            bo_read_ascii(
                text.as_ptr(),
                text.len(),
                out.as_mut_ptr(),
                out.len(),
                answer.as_mut_ptr(),
            )
        }
    })
}

/// What a call says that is lent the numbers from the answer on.
fn answered(before: u64, call: impl FnOnce(&mut [u64])) -> Option<[u64; ANSWER]> {
    let mut numbers = [before; AROUND + ANSWER + AROUND];
    call(&mut black_box(&mut numbers)[AROUND..]);
    let (left, rest) = black_box(&numbers).split_at(AROUND);
    let (answer, right) = rest.split_at(ANSWER);
    let unchanged = left.iter().chain(right).all(|&number| number == before);
    match unchanged {
        true => answer.try_into().ok(),
        false => None,
    }
}
