//! The reader: a first pass judges every line, a second fills the records.

use super::clock::milliseconds;
use super::cursor::{Window, LONGEST};
use super::marks::Marks;
use super::record::Fields;
use super::row::row;
use super::{Refusal, DAY, LAST_START, RECORD};

/// The most bytes of a text.
pub const LONGEST_TEXT: usize = 134_217_728;

pub fn read(text: &[u8], out: &mut [u8]) -> [u64; 7] {
    match read_or_refuse(text, out) {
        Ok([version, start, rows, step_back, first]) => {
            [0, 0, version, start, rows, step_back, first]
        }
        Err((number, place)) => [number, place, 0, 0, 0, 0, 0],
    }
}

fn read_or_refuse(text: &[u8], out: &mut [u8]) -> Result<[u64; 5], Refusal> {
    if text.len() > LONGEST_TEXT {
        return Err((1, 0));
    }
    let (version, text) = header(text, (4, 1), version)?;
    let (start, text) = header(text, (5, 2), start)?;
    // No value is needed before all is judged; so the first pass works out only those that have a limit.
    let (rows, first) = each_row::<false>(text, version, |_, _| ())?;
    let out = out.get_mut(..rows as usize * RECORD).ok_or((8, 0))?;
    let mut records = out.as_chunks_mut().0.iter_mut();
    let (mut marks, mut step_back) = (Marks::default(), 0);
    each_row::<true>(text, version, |position, mut fields| {
        fields.mark = marks.next(fields.offset);
        if fields.mark == 1 && step_back == 0 {
            step_back = position;
        }
        if let Some(record) = records.next() {
            fields.store(record);
        }
    })?;
    Ok([version, start, rows, step_back, first])
}

/// One pass over the lines from the third on. Gives how many rows there are, and the number of the first, 0 if there is none.
/// Each row is taken with its position, from 1. `JUDGED` says that a pass has taken them before.
#[inline(always)]
fn each_row<const JUDGED: bool>(
    mut text: &[u8],
    version: u64,
    mut take: impl FnMut(u64, Fields),
) -> Result<(u64, u64), Refusal> {
    let (mut place, mut rows, mut first) = (3, 0, 0);
    // Any number will do for the first row.
    let mut expected = 0;
    let mut padding = [0; size_of::<Window>()];
    while let Some(&byte) = text.first() {
        if byte == b';' {
            text = comment(text, place)?;
        } else {
            let window = match text.first_chunk() {
                Some(window) => window,
                None => padded(text, &mut padding),
            };
            let (number, fields, len) = row::<JUDGED>(window, expected, version == 12)
                .ok_or_else(|| no_row(text, place))?;
            if rows == 0 {
                first = number;
            }
            expected = number + 1;
            rows += 1;
            take(rows, fields);
            text = &text[len..];
        }
        place += 1;
    }
    Ok((rows, first))
}

/// The window of a text that does not fill it: zeros follow, which no row and no line of ASCII has.
#[cold]
pub fn padded<'a>(text: &[u8], window: &'a mut Window) -> &'a Window {
    window.fill(0);
    window[..text.len()].copy_from_slice(text);
    window
}

/// The text after a comment.
fn comment(text: &[u8], place: u64) -> Result<&[u8], Refusal> {
    let (line, rest) = line(text, place)?;
    match line[1..].iter().find(|&&byte| byte != b' ') {
        Some(b'$') => Err((6, place)),
        _ => Ok(rest),
    }
}

#[cold]
fn no_row(text: &[u8], place: u64) -> Refusal {
    line(text, place).err().unwrap_or((7, place))
}

/// The first line without its end, and the text after it.
fn line(text: &[u8], place: u64) -> Result<(&[u8], &[u8]), Refusal> {
    let end = text.iter().position(|byte| matches!(byte, b'\r' | b'\n'));
    let (line, rest) = text.split_at(end.unwrap_or(text.len()));
    match rest.strip_prefix(b"\r\n") {
        None => Err((2, place)),
        Some(_) if line.len() > LONGEST => Err((3, place)),
        Some(rest) => Ok((line, rest)),
    }
}

/// The value of line 1 or 2, and the text after it. The refusal is given if the line is absent or spells no value.
fn header(
    text: &[u8],
    refusal: Refusal,
    value: fn(&[u8]) -> Option<u64>,
) -> Result<(u64, &[u8]), Refusal> {
    if text.is_empty() {
        return Err(refusal);
    }
    let (line, rest) = line(text, refusal.1)?;
    Ok((value(line).ok_or(refusal)?, rest))
}

fn version(line: &[u8]) -> Option<u64> {
    match setting(line, b"$FILEVERSION=")? {
        b"1.1" => Some(11),
        b"1.2" => Some(12),
        _ => None,
    }
}

/// The start in milliseconds.
fn start(line: &[u8]) -> Option<u64> {
    let value = setting(line, b"$STARTTIME=")?;
    let point = value.iter().position(|&byte| byte == b'.')?;
    let (day, fraction) = (&value[..point], &value[point + 1..]);
    if day.len() > 5 || fraction.len() > 10 || (day.len() > 1 && day[0] == b'0') {
        return None;
    }
    let scale = 10_u64.pow(10 - fraction.len() as u32);
    let start = decimal(day)? * DAY + milliseconds(decimal(fraction)? * scale);
    (start <= LAST_START).then_some(start)
}

/// What follows `;`, blanks and a name, without the blanks at the end.
fn setting<'a>(line: &'a [u8], name: &[u8]) -> Option<&'a [u8]> {
    let line = line.strip_prefix(b";")?;
    let begin = line.iter().position(|&byte| byte != b' ')?;
    let mut value = line[begin..].strip_prefix(name)?;
    while let Some(shorter) = value.strip_suffix(b" ") {
        value = shorter;
    }
    Some(value)
}

/// The value of one or more digits.
pub fn decimal(digits: &[u8]) -> Option<u64> {
    if digits.is_empty() {
        return None;
    }
    digits.iter().try_fold(0, |value, byte| {
        byte.is_ascii_digit()
            .then(|| value * 10 + u64::from(byte - b'0'))
    })
}
