//! What is wrong with a line that is no row.

use crate::expected::in_column;
use crate::line::{cut, parts, place_of, places};
use crate::quoted::Quoted;
use crate::refused::accepted;
use crate::{numbers, read, room_for_rows, words, Column, Reason, Refused, MOST_ROWS};
use std::fmt;
use std::ops::Range;

/// The reasons why a line is no row, each with its number.
#[derive(Clone, Copy, Debug, PartialEq, Eq, Hash)]
pub enum RowReason {
    /// Some row begins with the fields before this one, and none with this one as well.
    WrongField = 1,
    /// Some row begins with all fields of the line, and none ends with them.
    EndedEarly = 2,
}

impl RowReason {
    /// The reasons in the order of their numbers.
    pub const ALL: [RowReason; 2] = [RowReason::WrongField, RowReason::EndedEarly];

    /// The number that stands for the reason in an answer.
    pub fn number(self) -> u64 {
        self as u64
    }

    /// The reason that has this number.
    pub fn of(number: u64) -> Option<RowReason> {
        RowReason::ALL
            .into_iter()
            .find(|reason| reason.number() == number)
    }
}

/// Why a line is no row.
#[derive(Clone, Copy, Debug, PartialEq, Eq, Hash)]
pub struct Explanation {
    pub reason: RowReason,
    /// The wrong field, from 1. Of a row that ended early the last field; 0 where the line is empty or blank.
    pub field: u64,
}

/// Tells why a line, given without its CR LF, is not the row with this number in this version; with the number 0, why it
/// is no row of any number, which a first row may have. Fields are what stands between blanks. A line may have any
/// length; the time grows in proportion to it.
///
/// Refused with the numbers 21 and 30: there is nothing to explain if the line is that row or a comment or holds CR or
/// LF, or if the number is above [`MOST_ROWS`].
///
/// ```
/// use bushingowl::{explain, Explanation, RowReason};
/// let wrong = Explanation { reason: RowReason::WrongField, field: 6 };
/// assert_eq!(explain(b"2) 1500.250 2 Tx 18AB0001 9", 12, 2), Ok(wrong));
/// let early = Explanation { reason: RowReason::EndedEarly, field: 6 };
/// assert_eq!(explain(b"2) 1500.250 2 Tx 18AB0001 1", 12, 2), Ok(early));
/// assert_eq!(explain(b"2) 1500.250 2 Tx 18AB0001 0", 12, 2).unwrap_err().number(), 30);
/// assert_eq!(explain(b"4117) 1500.250 2 Tx 18AB0001 9", 12, 0), Ok(wrong));
/// ```
pub fn explain(line: &[u8], version: u32, number: u64) -> Result<Explanation, Refused> {
    let [refusal, place, reason, field] = numbers::explain(line, version, number);
    accepted(refusal, place)?;
    let reason = RowReason::of(reason).expect("the library gives only the reasons of its header");
    Ok(Explanation { reason, field })
}

/// The line of a text that is no row, and why. It is shown in words, in which a field is cut behind 40 bytes and bytes
/// that can't be seen are written as `\x09`; so are `"` and `\`.
#[derive(Clone, Copy, Debug, PartialEq, Eq, Hash)]
pub struct RowExplanation<'a> {
    /// The line, from 1.
    pub line: u64,
    /// The line without its CR LF.
    pub bytes: &'a [u8],
    /// The version of the text: 11 for 1.1, 12 for 1.2.
    pub version: u32,
    /// The number that the row must have, one more than the row before it; 0 where none stands before it, and the number
    /// may be any from 1 to [`MOST_ROWS`].
    pub number: u64,
    pub fault: RowFault<'a>,
}

/// What is wrong with the line of a text that is no row.
#[derive(Clone, Copy, Debug, PartialEq, Eq, Hash)]
pub enum RowFault<'a> {
    /// This field, from 1, with these bytes.
    WrongField {
        field: u64,
        column: Column,
        bytes: &'a [u8],
    },
    /// It ended early, behind this field. If it is empty or blank, that is 0, and there is no column.
    EndedEarly {
        field: u64,
        column: Option<Column>,
        /// What was expected next.
        next: Column,
    },
    /// Whatever it holds: the row before it has the number [`MOST_ROWS`], and no row may follow.
    NoNumberLeft,
}

impl RowExplanation<'_> {
    /// Where in [`bytes`](Self::bytes) stands what is wrong: the wrong field. Where the row ended early, it is the empty
    /// range behind the last field, before any blanks; `0..0` if the line is empty or blank. With no number left it is the
    /// whole line.
    ///
    /// ```
    /// use bushingowl::{explain_refusal, read_to_vec};
    /// let text = b";$FILEVERSION=1.1\r\n;$STARTTIME=36585.5\r\n 1) 2.5  Rx 08FF 0\r\n";
    /// let explanation = explain_refusal(text, read_to_vec(text).unwrap_err()).unwrap();
    /// assert_eq!(explanation.place(), 12..16);
    /// assert_eq!(explanation.bytes[explanation.place()], *b"08FF");
    /// ```
    pub fn place(&self) -> Range<usize> {
        let end = places(self.bytes).last().map_or(0, |last| last.end);
        match self.fault {
            RowFault::WrongField { field, .. } => place_of(self.bytes, field).unwrap_or(end..end),
            RowFault::EndedEarly { .. } => end..end,
            RowFault::NoNumberLeft => 0..self.bytes.len(),
        }
    }

    /// What was expected in that place, in words.
    ///
    /// ```
    /// use bushingowl::{explain_refusal, read_to_vec};
    /// let text = b";$FILEVERSION=1.1\r\n;$STARTTIME=36585.5\r\n1) 2.5 Error 0003 4\r\n";
    /// let explanation = explain_refusal(text, read_to_vec(text).unwrap_err()).unwrap();
    /// assert_eq!(explanation.to_string(), "field 4 (ID) is wrong: \"0003\"");
    /// assert_eq!(explanation.expected(), "0001, 0002, 0004 or 0008");
    /// ```
    pub fn expected(&self) -> String {
        let column = match self.fault {
            RowFault::WrongField { column, .. } => column,
            RowFault::EndedEarly { next, .. } => next,
            RowFault::NoNumberLeft => return words::in_no_row(),
        };
        let kind = Column::type_among(self.version, &parts(self.bytes));
        in_column(column, self.version, self.number, kind)
    }
}

/// Tells what is wrong with the line at which [`read`] or [`read_to_vec`](crate::read_to_vec) refused a text with 7. It
/// reads the lines before for the version and the number that the row must have.
///
/// `None` for any other refusal, and for one that this text does not get.
///
/// ```
/// use bushingowl::{explain_refusal, read_to_vec, Column, RowFault};
/// let text = b";$FILEVERSION=1.2\r\n;$STARTTIME=36585.5\r\n1) 0.000 1 Rx 0123 2 0A FF\r\n2) 1500.250 2 Tx 18AB0001 9\r\n";
/// let refused = read_to_vec(text).unwrap_err();
/// let explanation = explain_refusal(text, refused).unwrap();
/// assert_eq!((explanation.line, explanation.version, explanation.number), (4, 12, 2));
/// assert_eq!(explanation.fault, RowFault::WrongField { field: 6, column: Column::Length, bytes: b"9" });
/// assert_eq!(explanation.to_string(), "field 6 (length) is wrong: \"9\"");
/// assert_eq!(explanation.expected(), "a length from 0 to 8");
/// ```
pub fn explain_refusal(text: &[u8], refused: Refused) -> Option<RowExplanation<'_>> {
    explain_refusal_with(text, refused, &mut room_for_rows(text))
}

/// The same, with room that the caller lends for the records of the lines before, as [`read`] takes it. What it holds
/// afterwards is not said.
///
/// `None` also with too little room.
///
/// ```
/// use bushingowl::{explain_refusal, explain_refusal_with, read, RECORD};
/// let text = b";$FILEVERSION=1.1\r\n;$STARTTIME=36585.5\r\n1) 2.5 Rx 07FF 0\r\n2) 2.5 Rx 07FF\r\n";
/// let mut records = [0; RECORD];
/// let refused = read(text, &mut records).unwrap_err();
/// let explanation = explain_refusal_with(text, refused, &mut records);
/// assert_eq!(explanation.unwrap().number, 2);
/// assert_eq!(explanation, explain_refusal(text, refused));
/// assert_eq!(explain_refusal_with(text, refused, &mut records[1..]), None);
/// ```
pub fn explain_refusal_with<'a>(
    text: &'a [u8],
    refused: Refused,
    records: &mut [u8],
) -> Option<RowExplanation<'a>> {
    if refused.reason != Reason::NoRow || read(text, &mut []) != Err(refused) {
        return None;
    }
    let (before, line) = cut(text, refused.place)?;
    let bytes = line.strip_suffix(b"\r\n")?;
    let trace = read(before, records).ok()?;
    // Where no row stands before, both are 0: any number will do.
    let number = trace.first + trace.rows as u64;
    let fault = if number > MOST_ROWS as u64 {
        RowFault::NoNumberLeft
    } else {
        fault_of(bytes, trace.version, number)?
    };
    Some(RowExplanation {
        line: refused.place,
        bytes,
        version: trace.version,
        number,
        fault,
    })
}

/// What is wrong with a line that is no row.
fn fault_of(line: &[u8], version: u32, number: u64) -> Option<RowFault<'_>> {
    let Explanation { reason, field } = explain(line, version, number).ok()?;
    let fields = parts(line);
    match reason {
        RowReason::WrongField => {
            let at = usize::try_from(field.checked_sub(1)?).ok()?;
            Some(RowFault::WrongField {
                field,
                column: Column::behind(version, fields.get(..at)?),
                bytes: fields.get(at)?,
            })
        }
        RowReason::EndedEarly => Some(RowFault::EndedEarly {
            field,
            column: fields
                .split_last()
                .map(|(_, before)| Column::behind(version, before).taken()),
            next: Column::behind(version, &fields),
        }),
    }
}

impl fmt::Display for RowExplanation<'_> {
    fn fmt(&self, f: &mut fmt::Formatter) -> fmt::Result {
        let expected = self.expected();
        f.write_str(&match self.fault {
            RowFault::WrongField {
                field,
                column,
                bytes,
            } => match (column, Quoted(bytes)) {
                (Column::Number, bytes) => words::row_wrong_number(field, column, bytes, expected),
                (Column::End, bytes) => words::row_one_too_many(field, bytes),
                (_, bytes) => words::row_wrong_field(field, column, bytes),
            },
            RowFault::EndedEarly {
                column: None, next, ..
            } => match self.number {
                0 => words::row_empty_first(words::any_number()),
                _ => words::row_empty(next, expected),
            },
            RowFault::EndedEarly {
                field,
                column: Some(column),
                next,
            } => words::row_ended_early(field, column, next),
            RowFault::NoNumberLeft => words::row_no_number_left(),
        })
    }
}
