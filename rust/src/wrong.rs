//! What is wrong with a line of a trace that is refused with 2 to 6.

use crate::fault::Fault;
use crate::line::cut;
use crate::{read, separated, words, Quoted, Reason, Refused, LINE_LIMIT};
use std::ops::Range;

/// How line 1 and line 2 begin.
const VERSION_LINE: &[u8] = b";$FILEVERSION=";
const START_LINE: &[u8] = b";$STARTTIME=";

/// The line at which this text is refused, and why. A line that is not there is an empty one.
pub(crate) fn wrong(text: &[u8], refused: Refused) -> Option<Fault<'_>> {
    let line = cut(text, refused.place).map_or(&[][..], |(_, line)| line);
    let end = line.iter().position(|byte| matches!(byte, b'\r' | b'\n'));
    let (bytes, behind) = line.split_at(end.unwrap_or(line.len()));
    let (place, why, expected) = match refused.reason {
        Reason::LineNotEnded => not_ended(bytes, behind),
        Reason::LineTooLong => too_long(bytes),
        Reason::NoVersionLine => no_version(text, bytes),
        Reason::NoStartLine => no_start(bytes),
        Reason::DollarComment => dollar(bytes),
        _ => return None,
    };
    Some(Fault {
        line: refused.place,
        bytes,
        place,
        why,
        expected,
    })
}

/// Where it is wrong, why, and what was expected there.
type Wrong = (Range<usize>, String, String);

fn not_ended(line: &[u8], behind: &[u8]) -> Wrong {
    let why = match behind {
        [] => words::end_of_file(),
        [b'\n', ..] => words::end_lf(),
        [b'\r'] => words::end_cr_of_file(),
        _ => words::end_cr(),
    };
    let end = line.len();
    (end..end, why, words::end_expected())
}

fn too_long(line: &[u8]) -> Wrong {
    let length = line.len();
    (
        LINE_LIMIT.min(length)..length,
        words::long(separated(length as u64)),
        words::long_expected(LINE_LIMIT),
    )
}

fn no_version(text: &[u8], line: &[u8]) -> Wrong {
    let (place, why) = match (text, value_of(line, VERSION_LINE)) {
        ([], _) => (0..0, words::version_empty()),
        ([0xEF, 0xBB, 0xBF, ..], _) => (0..3, words::version_byte_order_mark()),
        ([0xFF, 0xFE, ..] | [0xFE, 0xFF, ..], _) => (0..2, words::version_utf_16()),
        (_, None) => (0..line.len(), words::version_none()),
        (_, Some(value)) => {
            let bytes = &line[value.clone()];
            match is_taken(&[VERSION_LINE, bytes, b"\r\n;$STARTTIME=0.0\r\n"]) {
                true => (0..value.start, words::version_good(Quoted(bytes))),
                false => (value, words::version_wrong(Quoted(bytes))),
            }
        }
    };
    (place, why, words::version_expected())
}

fn no_start(line: &[u8]) -> Wrong {
    let (place, why) = match value_of(line, START_LINE) {
        None if line.is_empty() => (0..0, words::start_missing()),
        None => (0..line.len(), words::start_none()),
        Some(value) => {
            let bytes = &line[value.clone()];
            match is_taken(&[b";$FILEVERSION=1.1\r\n", START_LINE, bytes, b"\r\n"]) {
                true => (0..value.start, words::start_good(Quoted(bytes))),
                false => (value, words::start_wrong(Quoted(bytes))),
            }
        }
    };
    (place, why, words::start_expected())
}

fn dollar(line: &[u8]) -> Wrong {
    let at = line.iter().position(|byte| *byte == b'$').unwrap_or(0);
    (at..at + 1, words::dollar(), words::dollar_expected())
}

/// Where the value stands in a line that begins nearly so, in any letter case.
fn value_of(line: &[u8], begin: &[u8]) -> Option<Range<usize>> {
    let name = &begin[1..];
    let mut windows = line.windows(name.len());
    let at = windows.position(|bytes| bytes.eq_ignore_ascii_case(name))?;
    Some(at + name.len()..line.len())
}

/// Whether the library takes a text of these pieces, which have a value in a line as it must be.
fn is_taken(pieces: &[&[u8]]) -> bool {
    read(&pieces.concat(), &mut []).is_ok()
}
