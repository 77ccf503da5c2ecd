//! The reader of Telemotive ASCII: a first pass judges every line, a second fills the records.

use super::ascii_line::{line, Second};
use super::cursor::Window;
use super::marks::Marks;
use super::reader::{padded, LONGEST_TEXT};
use super::record::{Fields, LAST_OFFSET};
use super::{Refusal, RECORD};

const MOST_LINES: u64 = 999_999;
/// The steps of a stamp in a millisecond, and the microseconds of a step.
const STEPS: u64 = 10;
const STEP: u64 = 100;

pub fn read_ascii(text: &[u8], out: &mut [u8]) -> [u64; 4] {
    match read_or_refuse(text, out) {
        Ok([start, records]) => [0, 0, start, records],
        Err((number, place)) => [number, place, 0, 0],
    }
}

fn read_or_refuse(text: &[u8], out: &mut [u8]) -> Result<[u64; 2], Refusal> {
    if text.len() > LONGEST_TEXT {
        return Err((1, 0));
    }
    let mut first = None;
    let lines = each_line::<false>(text, |stamp, _| {
        let start = *first.get_or_insert(stamp / STEPS);
        match stamp.checked_sub(start * STEPS) {
            None => Err(32),
            Some(steps) if steps > LAST_OFFSET / STEP => Err(33),
            Some(_) => Ok(()),
        }
    })?;
    if lines > MOST_LINES {
        return Err((34, 0));
    }
    let start = first.unwrap_or(0);
    let out = out.get_mut(..lines as usize * RECORD).ok_or((8, 0))?;
    let mut records = out.as_chunks_mut().0.iter_mut();
    let mut marks = Marks::default();
    each_line::<true>(text, |stamp, mut fields| {
        fields.offset = (stamp - start * STEPS) * STEP;
        fields.mark = marks.next(fields.offset);
        if let Some(record) = records.next() {
            fields.store(record);
        }
        Ok(())
    })?;
    Ok([start, lines])
}

/// One pass over the lines. Gives how many there are, unless one is none or is refused with the number that `take` gives.
/// `JUDGED` says that a pass has taken them before.
#[inline(always)]
fn each_line<const JUDGED: bool>(
    mut text: &[u8],
    mut take: impl FnMut(u64, Fields) -> Result<(), u64>,
) -> Result<u64, Refusal> {
    let mut lines = 0;
    let mut second = Second::new();
    let mut padding = [0; size_of::<Window>()];
    while !text.is_empty() {
        lines += 1;
        let window = match text.first_chunk() {
            Some(window) => window,
            None => padded(text, &mut padding),
        };
        let (stamp, fields, len) = line::<JUDGED>(window, &mut second).ok_or((31, lines))?;
        take(stamp, fields).map_err(|number| (number, lines))?;
        text = &text[len..];
    }
    Ok(lines)
}
