//! What is wrong with a line that is no row.
//!
//! A row has one of twelve shapes, and in each shape what may stand in one column does not depend on the others. So some fields begin a row
//! just if they stand in the first columns of some shape. One shape after the other drops out; where the last does, the field is wrong.

use super::reader;
use super::record::{EXTENDED_IDS, LAST_OFFSET, OFFSET_DIGITS, STANDARD_IDS};
use super::tables::{NONE, VALUE};
use super::LAST_NUMBER;
use Column::*;

/// Number, place, reason (1 for a wrong field, 2 for a line that ended early) and field. The expected number is 0 for a first row, which
/// may have any.
pub fn explain(line: &[u8], version: u32, number: u64) -> [u64; 4] {
    let first_columns: &[Column] = match version {
        11 => &[Number, Offset(1)],
        12 => &[Number, Offset(3), Bus],
        _ => return [21, 0, 0, 0],
    };
    if number > LAST_NUMBER || holds_an_end(line) || is_comment(line) {
        return [30, 0, 0, 0];
    }
    match judge(line, first_columns, number) {
        Verdict::Row => [30, 0, 0, 0],
        Verdict::Wrong(field) => [0, 0, 1, field],
        Verdict::Early(field) => [0, 0, 2, field],
    }
}

enum Verdict {
    Row,
    Wrong(u64),
    Early(u64),
}

/// What may stand in a column.
#[derive(Clone, Copy)]
enum Column {
    /// The expected number, or any if that is 0.
    Number,
    /// With so many digits behind the point.
    Offset(usize),
    Bus,
    /// Just this text.
    Just(&'static [u8]),
    Direction,
    FrameId,
    WarningId,
    ErrorId,
    AnyLength,
    Byte,
    /// Sending or receiving.
    ErrorDirection,
    ErrorPosition,
}

/// Type, ID and length, and the columns behind them.
struct Shape([Column; 3], &'static [Column]);

/// All shapes from the type on. Behind the columns of the first, a warning, there may be words.
static SHAPES: [Shape; 12] = [
    Shape([Just(b"Warng"), WarningId, Just(b"4")], &[Byte; 4]),
    Shape([Just(b"Error"), ErrorId, Just(b"4")], &ERROR_DATA),
    Shape([Direction, FrameId, AnyLength], &[Just(b"RTR")]),
    Shape([Direction, FrameId, Just(b"0")], &[]),
    Shape([Direction, FrameId, Just(b"1")], &[Byte; 1]),
    Shape([Direction, FrameId, Just(b"2")], &[Byte; 2]),
    Shape([Direction, FrameId, Just(b"3")], &[Byte; 3]),
    Shape([Direction, FrameId, Just(b"4")], &[Byte; 4]),
    Shape([Direction, FrameId, Just(b"5")], &[Byte; 5]),
    Shape([Direction, FrameId, Just(b"6")], &[Byte; 6]),
    Shape([Direction, FrameId, Just(b"7")], &[Byte; 7]),
    Shape([Direction, FrameId, Just(b"8")], &[Byte; 8]),
];
const ERROR_DATA: [Column; 4] = [ErrorDirection, ErrorPosition, Byte, Byte];

impl Shape {
    fn columns(&self) -> usize {
        self.0.len() + self.1.len()
    }

    /// Whether a field may stand in a column; those behind the last have none.
    fn admits(&self, column: usize, field: &[u8], number: u64) -> bool {
        let mut columns = self.0.iter().chain(self.1);
        columns
            .nth(column)
            .is_some_and(|column| column.admits(field, number))
    }
}

/// The bit of the shape with words.
const WARNING: u16 = 1;

fn judge(line: &[u8], first_columns: &[Column], number: u64) -> Verdict {
    let mut fields = Fields { rest: line };
    let mut good = 0;
    // All shapes share the columns up to the type.
    for column in first_columns {
        match fields.next() {
            None => return Verdict::Early(good),
            Some(field) if !column.admits(field, number) => return Verdict::Wrong(good + 1),
            Some(_) => good += 1,
        }
    }
    // One bit for each shape in which all fields up to here may stand.
    let mut left: u16 = (1 << SHAPES.len()) - 1;
    for column in 0.. {
        if left == WARNING && column == SHAPES[0].columns() {
            return words(fields.rest, good);
        }
        let Some(field) = fields.next() else {
            return match shapes(left).any(|shape| SHAPES[shape].columns() == column) {
                true => Verdict::Row,
                false => Verdict::Early(good),
            };
        };
        for shape in shapes(left) {
            if !SHAPES[shape].admits(column, field, number) {
                left &= !(1 << shape);
            }
        }
        if left == 0 {
            break;
        }
        good += 1;
    }
    Verdict::Wrong(good + 1)
}

/// The shapes whose bits are set.
fn shapes(bits: u16) -> impl Iterator<Item = usize> {
    (0..SHAPES.len()).filter(move |shape| bits >> shape & 1 == 1)
}

/// What follows the last byte of a warning: words of capital letters, each behind a gap. `good` counts the fields before.
fn words(rest: &[u8], good: u64) -> Verdict {
    let in_no_word = |byte: u8| byte != b' ' && !byte.is_ascii_uppercase();
    let Some(wrong) = first(rest, in_no_word) else {
        return Verdict::Row;
    };
    Verdict::Wrong(good + begun(&rest[..=wrong]))
}

/// The fields that begin behind a blank.
fn begun(bytes: &[u8]) -> u64 {
    // No more than one byte can count.
    const TOGETHER: usize = 128;
    let (before, after) = (bytes, bytes.get(1..).unwrap_or_default());
    let chunks = before.chunks(TOGETHER).zip(after.chunks(TOGETHER));
    let begins = |(&before, &after)| u8::from((before == b' ') & (after != b' '));
    chunks
        .map(|(before, after)| u64::from(before.iter().zip(after).map(begins).sum::<u8>()))
        .sum()
}

/// The runs of non-blank bytes. What follows a field begins with the blank behind it, or is empty.
struct Fields<'a> {
    rest: &'a [u8],
}

impl<'a> Iterator for Fields<'a> {
    type Item = &'a [u8];

    fn next(&mut self) -> Option<&'a [u8]> {
        let begin = first(self.rest, |byte| byte != b' ')?;
        let from = &self.rest[begin..];
        let (field, rest) = from.split_at(first(from, |byte| byte == b' ').unwrap_or(from.len()));
        self.rest = rest;
        Some(field)
    }
}

/// Where the first byte of some kind stands. Many are looked at together.
#[inline(always)]
fn first(bytes: &[u8], kind: impl Fn(u8) -> bool) -> Option<usize> {
    const TOGETHER: usize = 64;
    let has = |chunk: &[u8; TOGETHER]| chunk.iter().fold(0, |any, &b| any | u8::from(kind(b))) > 0;
    let chunks = bytes.as_chunks().0;
    let before = TOGETHER * chunks.iter().position(has).unwrap_or(chunks.len());
    let within = bytes[before..].iter().position(|&byte| kind(byte))?;
    Some(before + within)
}

fn holds_an_end(line: &[u8]) -> bool {
    first(line, |byte| byte == b'\r' || byte == b'\n').is_some()
}

fn is_comment(line: &[u8]) -> bool {
    match line {
        [b';', rest @ ..] => first(rest, |byte| byte != b' ').is_none_or(|at| rest[at] != b'$'),
        _ => false,
    }
}

impl Column {
    fn admits(self, field: &[u8], number: u64) -> bool {
        match self {
            Number => match field {
                [digits @ .., b')'] => match decimal(digits, 6) {
                    None | Some(0) => false,
                    Some(value) => number == 0 || value == number,
                },
                _ => false,
            },
            Offset(places) => is_offset(field, places),
            Bus => matches!(decimal(field, 2), Some(1..=16)),
            Just(text) => field == text,
            Direction => matches!(field, b"Rx" | b"Tx"),
            FrameId => {
                hex(field, 4).is_some_and(|id| id <= STANDARD_IDS)
                    || hex(field, 8).is_some_and(|id| id <= EXTENDED_IDS)
            }
            WarningId => hex(field, 8) == Some(0xFFFF_FFFF),
            ErrorId => matches!(hex(field, 4), Some(1 | 2 | 4 | 8)),
            AnyLength => matches!(field, [b'0'..=b'8']),
            Byte => hex(field, 2).is_some(),
            ErrorDirection => matches!(hex(field, 2), Some(0 | 1)),
            ErrorPosition => matches!(hex(field, 2), Some(2..=15 | 17..=19 | 23..=28)),
        }
    }
}

/// A decimal number, a point and just so many digits, up to the largest offset.
fn is_offset(field: &[u8], places: usize) -> bool {
    let Some(point) = field.len().checked_sub(places + 1) else {
        return false;
    };
    let (whole, part) = field.split_at(point);
    let whole = decimal(whole, OFFSET_DIGITS);
    let part = part.strip_prefix(b".").and_then(reader::decimal);
    let scale = 10_u64.pow(3 - places as u32);
    whole
        .zip(part)
        .is_some_and(|(whole, part)| whole * 1000 + part * scale <= LAST_OFFSET)
}

/// The value of at most so many digits without a leading zero.
fn decimal(digits: &[u8], most: usize) -> Option<u64> {
    if digits.len() > most || matches!(digits, [b'0', _, ..]) {
        return None;
    }
    reader::decimal(digits)
}

/// The value of just so many hexadecimal digits.
fn hex(digits: &[u8], count: usize) -> Option<u64> {
    if digits.len() != count {
        return None;
    }
    digits.iter().try_fold(0, |value, &byte| {
        let digit = VALUE[usize::from(byte)];
        (digit != NONE).then_some(value << 4 | u64::from(digit))
    })
}
