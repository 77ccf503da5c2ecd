//! Why a call was refused.

use crate::{separated, words, LINE_LIMIT, MOST_CHANNEL, MOST_OFFSET, MOST_ROWS, MOST_TEXT};
use std::error::Error;
use std::fmt;

/// The reasons for a refusal, each with its number.
#[derive(Clone, Copy, Debug, PartialEq, Eq, Hash)]
#[non_exhaustive]
pub enum Reason {
    /// The text has more than [`MOST_TEXT`](crate::MOST_TEXT) bytes.
    TextTooLong = 1,
    /// A line is not ended by CR LF.
    LineNotEnded = 2,
    /// An ended line has more than 250 bytes before its CR LF.
    LineTooLong = 3,
    /// Line 1 is absent or no version line, which is `;$FILEVERSION=1.1` or `;$FILEVERSION=1.2`.
    NoVersionLine = 4,
    /// Line 2 is absent, or no start line such as `;$STARTTIME=36585.5`, or its start is above
    /// [`MOST_START`](crate::MOST_START).
    NoStartLine = 5,
    /// From line 3 on, a comment with `$` first, behind `;` and blanks.
    DollarComment = 6,
    /// From line 3 on, any other line that is no comment and no row.
    NoRow = 7,
    /// The text is good, and the output too short for its records.
    NoRoomForRecords = 8,
    /// The bytes are no multiple of 20 or more than [`MOST_ROWS`](crate::MOST_ROWS) records; for one record, not 20.
    NoRecords = 20,
    /// The version is neither 11 nor 12.
    NoVersion = 21,
    /// The start is above [`MOST_START`](crate::MOST_START).
    StartTooLate = 22,
    /// The first record that is not well formed; in a list, also the first whose mark is wrong
    /// ([`Record::mark`](crate::Record::mark)).
    NotWellFormed = 23,
    /// The first record that the version can't carry: 11 needs bus 0 and an offset of whole 100 microseconds, 12 needs
    /// bus 1 to 16.
    NotCarried = 24,
    /// Everything is good, and the output too short.
    NoRoom = 25,
    /// The first number is 0 with records, or not 0 without, or the last row's would be above
    /// [`MOST_ROWS`](crate::MOST_ROWS). It is given before 23.
    WrongFirstNumber = 26,
    /// The expected number is above [`MOST_ROWS`](crate::MOST_ROWS), or the line holds CR or LF, or it is a row of this
    /// version and number (of any number, if 0 is expected), or a comment.
    Unexplained = 30,
    /// A line is no line of Telemotive ASCII, or has more than 250 bytes before its end, or is not ended by CR LF or LF.
    NoAsciiLine = 31,
    /// The stamp of a line lies before the start, which is the stamp of line 1 cut to the millisecond.
    BeforeStart = 32,
    /// The stamp of a line lies more than [`MOST_OFFSET`](crate::MOST_OFFSET) microseconds behind the start.
    OffsetTooLarge = 33,
    /// All lines are good, and there are more than [`MOST_ROWS`](crate::MOST_ROWS).
    TooManyLines = 34,
    /// The channel given for bus 0 is above [`MOST_CHANNEL`](crate::MOST_CHANNEL). It is given before 23, and also where
    /// no record has bus 0.
    NoChannel = 35,
}

impl Reason {
    /// The reasons in the order of their numbers.
    pub const ALL: [Reason; 21] = [
        Reason::TextTooLong,
        Reason::LineNotEnded,
        Reason::LineTooLong,
        Reason::NoVersionLine,
        Reason::NoStartLine,
        Reason::DollarComment,
        Reason::NoRow,
        Reason::NoRoomForRecords,
        Reason::NoRecords,
        Reason::NoVersion,
        Reason::StartTooLate,
        Reason::NotWellFormed,
        Reason::NotCarried,
        Reason::NoRoom,
        Reason::WrongFirstNumber,
        Reason::Unexplained,
        Reason::NoAsciiLine,
        Reason::BeforeStart,
        Reason::OffsetTooLarge,
        Reason::TooManyLines,
        Reason::NoChannel,
    ];

    /// The refusal number.
    pub fn number(self) -> u64 {
        self as u64
    }

    /// The reason that has this number.
    pub fn of(number: u64) -> Option<Reason> {
        Reason::ALL
            .into_iter()
            .find(|reason| reason.number() == number)
    }
}

/// Why a call was refused, and where. It is shown in words, with its number.
///
/// ```
/// use bushingowl::{read_to_vec, Reason, Refused};
/// let text = b";$FILEVERSION=1.1\r\n;$STARTTIME=36585.5\r\n1) 2.5 Rx 07FF 1 0a\r\n2) 3.0 Rx 07FF 1\r\n";
/// let refused = read_to_vec(text).unwrap_err();
/// assert_eq!(refused, Refused { reason: Reason::NoRow, place: 4 });
/// assert_eq!(refused.number(), 7);
/// assert_eq!(refused.to_string(), "line 4 is no row (refusal 7)");
/// ```
#[derive(Clone, Copy, Debug, PartialEq, Eq, Hash)]
pub struct Refused {
    pub reason: Reason,
    /// The line of a text or the record of a list, from 1; 0 where the reason has no place.
    pub place: u64,
}

impl Refused {
    /// The refusal number.
    pub fn number(&self) -> u64 {
        self.reason.number()
    }

    /// What to do about it, in words, where a file is refused: for the numbers 1 to 7 and 31 to 34. `None` for those of
    /// what a program gave, such as an output that is too short.
    ///
    /// ```
    /// use bushingowl::{read_ascii_to_vec, read_to_vec, unpack};
    /// let remedy = read_to_vec(b";$FILEVERSION=1.3\r\n").unwrap_err().remedy();
    /// assert_eq!(remedy.unwrap(), "save the trace again in one of these versions; no other is read");
    /// let line = "29.02.2000 12:00:00.0000 CAN #1 | Rx 123 0\n";
    /// let lines = format!("{line}{}", line.replace("12:", "11:"));
    /// let remedy = read_ascii_to_vec(lines.as_bytes()).unwrap_err().remedy();
    /// assert_eq!(remedy.unwrap(), "put the earliest line first, or mend the stamp");
    /// assert_eq!(unpack(&[]).unwrap_err().remedy(), None);
    /// ```
    pub fn remedy(&self) -> Option<String> {
        Some(match self.reason {
            Reason::TextTooLong => words::remedy_1(),
            Reason::LineNotEnded => words::remedy_2(),
            Reason::LineTooLong => words::remedy_3(),
            Reason::NoVersionLine => words::remedy_4(),
            Reason::NoStartLine => words::remedy_5(),
            Reason::DollarComment => words::remedy_6(),
            Reason::NoRow => words::remedy_7(),
            Reason::NoAsciiLine => words::remedy_31(),
            Reason::BeforeStart => words::remedy_32(),
            Reason::OffsetTooLarge => words::remedy_33(),
            Reason::TooManyLines => words::remedy_34(separated(MOST_ROWS as u64)),
            _ => return None,
        })
    }

    /// The words without the number.
    fn in_words(&self) -> String {
        let place = self.place;
        let rows = separated(MOST_ROWS as u64);
        match self.reason {
            Reason::TextTooLong => words::refusal_1(separated(MOST_TEXT as u64)),
            Reason::LineNotEnded => words::refusal_2(place),
            Reason::LineTooLong => words::refusal_3(place, LINE_LIMIT),
            Reason::NoVersionLine => words::refusal_4(place),
            Reason::NoStartLine => words::refusal_5(place),
            Reason::DollarComment => words::refusal_6(place),
            Reason::NoRow => words::refusal_7(place),
            Reason::NoRoomForRecords => words::refusal_8(),
            Reason::NoRecords => words::refusal_20(rows),
            Reason::NoVersion => words::refusal_21(),
            Reason::StartTooLate => words::refusal_22(),
            Reason::NotWellFormed => words::refusal_23(place),
            Reason::NotCarried => words::refusal_24(place),
            Reason::NoRoom => words::refusal_25(),
            Reason::WrongFirstNumber => words::refusal_26(rows),
            Reason::Unexplained => words::refusal_30(rows),
            Reason::NoAsciiLine => words::refusal_31(place, LINE_LIMIT),
            Reason::BeforeStart => words::refusal_32(place),
            Reason::OffsetTooLarge => words::refusal_33(place, separated(MOST_OFFSET)),
            Reason::TooManyLines => words::refusal_34(rows),
            Reason::NoChannel => words::refusal_35(MOST_CHANNEL),
        }
    }
}

impl fmt::Display for Refused {
    fn fmt(&self, f: &mut fmt::Formatter) -> fmt::Result {
        f.write_str(&words::refusal(self.in_words(), self.number()))
    }
}

impl Error for Refused {}

/// What the first two numbers of an answer say.
pub(crate) fn accepted(number: u64, place: u64) -> Result<(), Refused> {
    if number == 0 {
        return Ok(());
    }
    let reason = Reason::of(number).expect("the library gives only the numbers of its header");
    Err(Refused { reason, place })
}
