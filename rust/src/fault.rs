//! What is wrong with a file that was refused, for the person who has to mend it.

use crate::shown::{milliseconds, VERSIONS};
use crate::wrong::wrong;
use crate::{
    explain_ascii_refusal, explain_refusal_with, read, unpack, words, write, Reason, Refused,
    RECORD,
};
use std::ops::Range;

/// A line that is wrong, where, and why.
#[derive(Clone, Debug, PartialEq, Eq, Hash)]
pub struct Fault<'a> {
    /// The line, from 1.
    pub line: u64,
    /// The line without its end.
    pub bytes: &'a [u8],
    /// What of it is wrong. Where something is missing, it is empty.
    pub place: Range<usize>,
    /// What is wrong there, in words.
    pub why: String,
    /// What was expected there, in words.
    pub expected: String,
}

/// Tells what is wrong with the line at which [`read`] or [`read_to_vec`](crate::read_to_vec) refused a text, with any
/// number from 2 to 7. The records are room that is lent, as [`explain_refusal_with`] takes it, which tells 7; for the
/// others none is needed.
///
/// `None` for any other refusal, for one that this text does not get, and for 7 with too little room.
///
/// It is not proved itself; whether a version or a start is good is asked of the proved function behind [`read`].
///
/// ```
/// use bushingowl::{fault_of_trace, read};
/// let text = b";$FILEVERSION=1.1\r\n;$STARTTIME=0,5\r\n";
/// let refused = read(text, &mut []).unwrap_err();
/// let fault = fault_of_trace(text, refused, &mut []).unwrap();
/// assert_eq!((fault.line, fault.bytes), (2, &b";$STARTTIME=0,5"[..]));
/// assert_eq!(fault.bytes[fault.place], *b"0,5");
/// assert_eq!(fault.why, "start \"0,5\" was found");
/// assert_eq!(fault.expected, ";$STARTTIME= with days of 1 to 5 digits, a point and 1 to 10 digits, up to 99999.9999999942");
/// assert_eq!(fault_of_trace(b";$FILEVERSION=1.1\r\n;$STARTTIME=0.5\r\n", refused, &mut []), None);
/// ```
pub fn fault_of_trace<'a>(
    text: &'a [u8],
    refused: Refused,
    records: &mut [u8],
) -> Option<Fault<'a>> {
    if refused.reason == Reason::NoRow {
        let row = explain_refusal_with(text, refused, records)?;
        return Some(Fault {
            line: row.line,
            bytes: row.bytes,
            place: row.place(),
            why: row.to_string(),
            expected: row.expected(),
        });
    }
    if read(text, &mut []) != Err(refused) {
        return None;
    }
    wrong(text, refused)
}

/// Tells what is wrong with the line at which [`read_ascii`](crate::read_ascii) or
/// [`read_ascii_to_vec`](crate::read_ascii_to_vec) refused a text, as [`explain_ascii_refusal`] does.
///
/// `None` where that gives none.
///
/// ```
/// use bushingowl::{fault_of_ascii, read_ascii};
/// let text = b"31.11.2023 10:00:00.0000 CAN #1 | Rx 123 0\r\n";
/// let fault = fault_of_ascii(text, read_ascii(text, &mut []).unwrap_err()).unwrap();
/// assert_eq!((fault.line, fault.place), (1, 0..10));
/// assert_eq!(fault.why, "part 1 (date) is wrong: \"31.11.2023\"");
/// assert_eq!(fault.expected, "a date that exists, from 30.12.1899 to 13.10.2173");
/// ```
pub fn fault_of_ascii(text: &[u8], refused: Refused) -> Option<Fault<'_>> {
    let line = explain_ascii_refusal(text, refused)?;
    Some(Fault {
        line: line.line,
        bytes: line.bytes,
        place: line.place(),
        why: line.to_string(),
        expected: line.expected(),
    })
}

/// Tells what of a record the version can't carry, in words, where [`write()`] or
/// [`write_to_vec`](crate::write_to_vec) refused a list with 24.
///
/// `None` for any other refusal, and for one that this list does not get with this version.
///
/// ```
/// use bushingowl::{fault_of_record, read_to_vec, write_to_vec};
/// let (trace, records) = read_to_vec(b";$FILEVERSION=1.2\r\n;$STARTTIME=0.5\r\n1) 0.000 2 Rx 0123 0\r\n")?;
/// let refused = write_to_vec(11, trace.start, trace.first, &records).unwrap_err();
/// let why = fault_of_record(11, &records, refused).unwrap();
/// assert_eq!(why, "it has bus 2, and version 1.1 has no buses");
/// assert_eq!(fault_of_record(12, &records, refused), None);
/// # Ok::<(), bushingowl::Refused>(())
/// ```
pub fn fault_of_record(version: u32, records: &[u8], refused: Refused) -> Option<String> {
    // Neither the start nor the first number counts for 24.
    if refused.reason != Reason::NotCarried
        || write(version, 0, 1, records, &mut []) != Err(refused)
    {
        return None;
    }
    let at = usize::try_from(refused.place.checked_sub(1)?).ok()?;
    let record = unpack(records.chunks(RECORD).nth(at)?).ok()?;
    let (_, name) = VERSIONS.iter().find(|(known, _)| *known == version)?;
    Some(match (version, record.bus) {
        (11, 0) => words::carried_offset(milliseconds(record.offset), name),
        (11, bus) => words::carried_bus(bus, name),
        _ => words::carried_no_bus(name),
    })
}
