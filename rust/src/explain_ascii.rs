//! What is wrong with a line of Telemotive ASCII that is refused.

use crate::expected::instead_of;
use crate::line::{cut, parts, place_of, places};
use crate::quoted::Quoted;
use crate::{read_ascii, words, AsciiPart, Reason, Refused, LINE_LIMIT, MOST_OFFSET, RECORD};
use std::fmt;
use std::ops::Range;

/// The line at which lines of Telemotive ASCII are refused, and why. It is shown in words, in which a part is cut behind 40
/// bytes and bytes that can't be seen are written as `\x09`; so are `"` and `\`.
#[derive(Clone, Copy, Debug, PartialEq, Eq, Hash)]
pub struct AsciiExplanation<'a> {
    /// The line, from 1.
    pub line: u64,
    /// The line without its CR LF or LF.
    pub bytes: &'a [u8],
    pub fault: AsciiFault<'a>,
}

/// What is wrong with a line of Telemotive ASCII. Parts are what stands between blanks.
#[derive(Clone, Copy, Debug, PartialEq, Eq, Hash)]
#[non_exhaustive]
pub enum AsciiFault<'a> {
    /// It is not ended by CR LF or LF (31).
    NotEnded,
    /// It has more than 250 bytes before its end (31).
    TooLong,
    /// The part with this number, from 1, has these bytes: some line begins with the parts before it, and none with this
    /// one as well (31).
    WrongPart {
        number: u64,
        part: AsciiPart,
        bytes: &'a [u8],
    },
    /// The part with this number, from 1, stands behind the last one of a line (31).
    OneTooMany { number: u64, bytes: &'a [u8] },
    /// A blank stands before the first part; there may be one behind the last, too (31).
    BlankBefore,
    /// A blank stands behind the last part (31).
    BlankBehind,
    /// It is empty, or holds nothing but blanks (31).
    Empty,
    /// It ended early, behind the part with this number, from 1 (31).
    EndedEarly {
        number: u64,
        part: AsciiPart,
        /// What was expected next.
        next: AsciiPart,
    },
    /// Its stamp lies before the start (32).
    BeforeStart,
    /// Its stamp lies more than [`MOST_OFFSET`] microseconds behind the start (33).
    TooFarBehindStart,
}

/// Tells what is wrong with the line at which [`read_ascii`] or [`read_ascii_to_vec`](crate::read_ascii_to_vec) refused a
/// text with 31, 32 or 33.
///
/// `None` for any other refusal, and for one that this text does not get.
///
/// It is not proved itself; whether a part is good is asked of the proved function behind [`read_ascii`].
///
/// ```
/// use bushingowl::{explain_ascii_refusal, read_ascii_to_vec, AsciiFault, AsciiPart};
/// let text = b"29.02.2000 12:00:00.0000 CAN #1 | Rx 123 0\r\n29.02.2000 12:00:00.0000 CAN #17 | Rx 123 0\r\n";
/// let refused = read_ascii_to_vec(text).unwrap_err();
/// let explanation = explain_ascii_refusal(text, refused).unwrap();
/// assert_eq!(explanation.line, 2);
/// assert_eq!(explanation.fault, AsciiFault::WrongPart { number: 4, part: AsciiPart::Channel, bytes: b"#17" });
/// assert_eq!(explanation.to_string(), "part 4 (channel) is wrong: \"#17\"");
/// assert_eq!(explanation.expected(), "a channel from #0 to #16");
/// ```
pub fn explain_ascii_refusal(text: &[u8], refused: Refused) -> Option<AsciiExplanation<'_>> {
    if read_ascii(text, &mut []) != Err(refused) {
        return None;
    }
    let (_, line) = cut(text, refused.place)?;
    let ended = line.strip_suffix(b"\n");
    let bytes = ended.map_or(line, |line| line.strip_suffix(b"\r").unwrap_or(line));
    let fault = match refused.reason {
        Reason::NoAsciiLine if ended.is_none() => AsciiFault::NotEnded,
        Reason::NoAsciiLine => no_line(bytes),
        Reason::BeforeStart => AsciiFault::BeforeStart,
        Reason::OffsetTooLarge => AsciiFault::TooFarBehindStart,
        _ => return None,
    };
    Some(AsciiExplanation {
        line: refused.place,
        bytes,
        fault,
    })
}

/// What is wrong with an ended line that is none of Telemotive ASCII.
fn no_line(line: &[u8]) -> AsciiFault<'_> {
    if line.len() > LINE_LIMIT {
        return AsciiFault::TooLong;
    }
    let parts = parts(line);
    if let Some(wrong) = (0..parts.len()).find(|at| !begins_line(&parts[..=*at])) {
        let (number, bytes) = (wrong as u64 + 1, parts[wrong]);
        return match AsciiPart::behind(&parts[..wrong]) {
            Some(part) => AsciiFault::WrongPart {
                number,
                part,
                bytes,
            },
            None => AsciiFault::OneTooMany { number, bytes },
        };
    }
    let last = parts
        .split_last()
        .and_then(|(_, before)| AsciiPart::behind(before));
    match (last, AsciiPart::behind(&parts)) {
        (None, _) => AsciiFault::Empty,
        (Some(part), Some(next)) => AsciiFault::EndedEarly {
            number: parts.len() as u64,
            part,
            next,
        },
        (Some(_), None) if line.starts_with(b" ") => AsciiFault::BlankBefore,
        (Some(_), None) => AsciiFault::BlankBehind,
    }
}

/// Whether some line begins with these parts: the library takes them with good ones behind.
fn begins_line(parts: &[&[u8]]) -> bool {
    let mut line = parts.to_vec();
    while let Some(next) = AsciiPart::behind(&line) {
        line.push(next.good());
    }
    // Before LF alone a CR of the line would be part of its end.
    let text = [&line.join(&b' ')[..], b"\r\n"].concat();
    read_ascii(&text, &mut [0; RECORD]).is_ok()
}

impl AsciiExplanation<'_> {
    /// Where in [`bytes`](Self::bytes) stands what is wrong: the part that is wrong or one too many, the blanks at an end,
    /// or all that is behind the 250th byte. Of a stamp these are date and time. Where the line is not ended or ended
    /// early, it is the empty range at its end; `0..0` if it is empty or blank.
    ///
    /// ```
    /// use bushingowl::{explain_ascii_refusal, read_ascii_to_vec};
    /// let text = b"29.02.2000 12:00:00.0000  CAN #1 | rx 123 0\n";
    /// let explanation = explain_ascii_refusal(text, read_ascii_to_vec(text).unwrap_err()).unwrap();
    /// assert_eq!(explanation.place(), 35..37);
    /// assert_eq!(explanation.bytes[explanation.place()], *b"rx");
    /// ```
    pub fn place(&self) -> Range<usize> {
        let end = self.bytes.len();
        let place = |number| place_of(self.bytes, number).unwrap_or(end..end);
        match self.fault {
            AsciiFault::WrongPart { number, .. } => place(number),
            AsciiFault::OneTooMany { number, .. } => place(number),
            AsciiFault::NotEnded | AsciiFault::EndedEarly { .. } => end..end,
            AsciiFault::Empty => 0..0,
            AsciiFault::TooLong => LINE_LIMIT.min(end)..end,
            AsciiFault::BlankBefore => 0..place(1).start,
            AsciiFault::BlankBehind => places(self.bytes).last().map_or(0, |last| last.end)..end,
            AsciiFault::BeforeStart | AsciiFault::TooFarBehindStart => 0..place(2).end,
        }
    }

    /// What was expected in that place, in words.
    ///
    /// ```
    /// use bushingowl::{explain_ascii_refusal, read_ascii_to_vec};
    /// let text = b"29.02.2000 12:00:00.0000 CANExt #1 | EXTENDED Rx 123 0\n";
    /// let explanation = explain_ascii_refusal(text, read_ascii_to_vec(text).unwrap_err()).unwrap();
    /// assert_eq!(explanation.to_string(), "part 8 (ID) is wrong: \"123\"");
    /// assert_eq!(explanation.expected(), "an ID of eight hexadecimal digits up to 1fffffff");
    /// ```
    pub fn expected(&self) -> String {
        instead_of(self.fault)
    }
}

impl fmt::Display for AsciiExplanation<'_> {
    fn fmt(&self, f: &mut fmt::Formatter) -> fmt::Result {
        f.write_str(&match self.fault {
            AsciiFault::NotEnded => words::ascii_not_ended(),
            AsciiFault::TooLong => words::ascii_too_long(LINE_LIMIT),
            AsciiFault::WrongPart {
                number,
                part,
                bytes,
            } => words::ascii_wrong_part(number, part, Quoted(bytes)),
            AsciiFault::OneTooMany { number, bytes } => {
                words::ascii_one_too_many(number, Quoted(bytes))
            }
            AsciiFault::BlankBefore | AsciiFault::BlankBehind => words::ascii_blank(),
            AsciiFault::Empty => words::ascii_empty(AsciiPart::Date),
            AsciiFault::EndedEarly { number, part, next } => {
                words::ascii_ended_early(number, part, next)
            }
            AsciiFault::BeforeStart => words::ascii_before_start(),
            AsciiFault::TooFarBehindStart => words::ascii_too_far(MOST_OFFSET),
        })
    }
}
