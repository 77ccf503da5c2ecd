//! CAN traces (PEAK TRC 1.1 and 1.2) to packed records and back, and packed records to Telemotive ASCII and back.
//!
//! Safe functions over the proved library. Every function takes any bytes and any numbers, and none panics. What can't be
//! used gets a [`Refused`]: a number in words, with its line or record.
//!
//! [`read_to_vec`], [`write_to_vec`], [`export_to_vec`] and [`read_ascii_to_vec`] allocate what they hand out. [`read`],
//! [`write()`], [`export`] and [`read_ascii`] take the output from the caller, and allocate nothing: if accepted, it
//! begins with the bytes written and behind them holds what it held before; if refused, all of it does. [`unpack`] and
//! [`pack`] are for single records. [`explain_refusal`] tells which field of a refused row is wrong, where it stands and
//! what was expected there; [`explain_refusal_with`] does so in room that the caller lends, and [`explain()`] tells the
//! field of a single line. [`explain_ascii_refusal`] tells the same of a refused line of Telemotive ASCII. For the person
//! who has to mend a file, [`fault_of_trace`] and [`fault_of_ascii`] tell it of every line that is refused, whatever the
//! number, [`fault_of_record`] of a record that a version can't carry, and [`Refused::remedy`] what to do about it.
//! [`numbers`] has the functions of the library with the plain numbers of the C boundary.
//!
//! A start counts milliseconds from 30 December 1899, 0:00, in the local time of the logger (1 January 1970 is day
//! 25,569), and is at most [`MOST_START`]. An offset counts microseconds from the start, and is at most [`MOST_OFFSET`].
//! A version is 11 for 1.1 and 12 for 1.2. A packed record has 20 bytes, which [`Record`] lists by their bits; a list of
//! records is one after the other.
//!
//! The first row of a trace has any number from 1 to [`MOST_ROWS`], and each next row one more. The first number is part
//! of the trace, and not of its records: reading gives it ([`Read::first`]), and writing is given it. [`Read::write`] and
//! [`Read::write_to_vec`] pass it on from one to the other.
//!
//! In a list each record has a mark that tells whether its offset is below that of the record before it
//! ([`Record::mark`]). [`read`] and [`read_ascii`] set the marks, and [`write()`] and [`export`] check them. Who makes a
//! list of copied records, some of them or in another order, sets them anew by [`mark_steps`]. [`count_steps`] counts them.
//!
//! A line of Telemotive ASCII has a channel, 0 to [`MOST_CHANNEL`]. Bus 1 to 16 is exported as the channel of its number,
//! and bus 0, which means none, as the channel that the caller gives: [`CHANNEL_AS_BENCH`], or another one to tell two
//! loggers apart. Read back, each channel is the bus of its number. [`CHANNEL_AS_BUS`] is for what is to come back as it
//! was, or has come back.
//!
//! ```
//! let text = b";$FILEVERSION=1.1\r\n;$STARTTIME=36585.5\r\n1) 2.5 Rx 07FF 1 0a\r\n";
//! let (trace, records) = bushingowl::read_to_vec(text)?;
//! assert_eq!((trace.version, trace.start, trace.rows), (11, 3_160_987_200_000, 1));
//! for record in records.chunks(bushingowl::RECORD) {
//!     assert_eq!(bushingowl::unpack(record)?.offset, 2500);
//! }
//! let (_, lines) = bushingowl::export_to_vec(trace.start, bushingowl::CHANNEL_AS_BENCH, &records)?;
//! assert_eq!(lines, b"29.02.2000 12:00:00.0025 CAN #1 | Rx 7ff 1 0a\r\n");
//! # Ok::<(), bushingowl::Refused>(())
//! ```

mod ascii_part;
mod boundary;
mod column;
mod expected;
mod explain;
mod explain_ascii;
mod fault;
mod line;
mod marks;
pub mod numbers;
mod quoted;
mod record;
mod refused;
mod shown;
mod words;
mod wrong;

pub use ascii_part::AsciiPart;
pub use column::Column;
pub use explain::{
    explain, explain_refusal, explain_refusal_with, Explanation, RowExplanation, RowFault,
    RowReason,
};
pub use explain_ascii::{explain_ascii_refusal, AsciiExplanation, AsciiFault};
pub use fault::{fault_of_ascii, fault_of_record, fault_of_trace, Fault};
pub use marks::{count_steps, mark_steps};
pub use quoted::Quoted;
pub use record::{Kind, Record};
pub use refused::{Reason, Refused};
pub use shown::{milliseconds, separated, VERSIONS};

use refused::accepted;

/// The bytes of a packed record.
pub const RECORD: usize = 20;
/// The most bytes of a text that [`read`] and [`read_ascii`] take.
pub const MOST_TEXT: usize = 134_217_728;
/// The most bytes of a line before its end.
pub const LINE_LIMIT: usize = 250;
/// The largest number of a row, and so the most rows of a text and the most records of a list; the most lines that
/// [`read_ascii`] takes, too.
pub const MOST_ROWS: usize = 999_999;
/// The fewest bytes of a row with its CR LF, which are those of `1) 0.0 Rx 0000 0`. So a text has at most
/// `text.len() / LEAST_ROW` rows.
pub const LEAST_ROW: usize = 18;
/// The most bytes that [`write()`] gives for lines 1 and 2 with their CR LF: 19 for `;$FILEVERSION=1.2`, and 30 for
/// `;$STARTTIME=` with five digits of the day, a point and ten digits.
pub const MOST_HEADER: usize = 49;
/// The most bytes that [`write()`] gives for a record, with CR LF:
/// `999999) 281474976710.655 16 Rx 1FFFFFFF 8 00 11 22 33 44 55 66 77`.
pub const MOST_ROW: usize = 67;
/// The most bytes that [`export`] gives for a record, with CR LF:
/// `29.02.2000 12:00:00.0000 CANExt #16 | EXTENDED Rx 1fffffff 8 00 11 22 33 44 55 66 77`.
pub const MOST_LINE: usize = 86;
/// The fewest bytes of a line that [`read_ascii`] takes, with its LF, which are those of
/// `29.02.2000 12:00:00.0000 CAN #1 | Rx 123 0`. So a text has at most `text.len() / LEAST_LINE` of them.
pub const LEAST_LINE: usize = 43;
/// The last start, the last millisecond of day 99,999, which is 13 October 2173.
pub const MOST_START: u64 = 8_639_999_999_999;
/// The largest offset, which fills its 48 bits of a packed record: almost nine years. In a row it is `281474976710.655`;
/// version 1.1 goes up to `281474976710.6`.
pub const MOST_OFFSET: u64 = 281_474_976_710_655;
/// The last channel, which is that of the last bus, and so the last that [`export`] takes for bus 0.
pub const MOST_CHANNEL: u64 = 16;
/// For [`export`]: bus 0 as channel 0, so that each bus is the channel of its number. What is exported so comes back on
/// its bus, and what [`read_ascii`] gave is exported with the channels that it had.
pub const CHANNEL_AS_BUS: u64 = 0;
/// For [`export`]: bus 0 as channel 1, as the bench program (`./bushingowl`) prints it. It comes back as bus 1.
pub const CHANNEL_AS_BENCH: u64 = 1;

/// What a text holds beside its records.
#[derive(Clone, Copy, Debug, PartialEq, Eq, Hash)]
pub struct Read {
    /// 11 for 1.1, 12 for 1.2.
    pub version: u32,
    /// Milliseconds from 30 December 1899.
    pub start: u64,
    pub rows: usize,
    /// The position among the rows, from 1, of the first one whose offset is below that of the row before it, and so of
    /// the first record with a mark. Its number in the text is `first + step_back - 1`.
    pub step_back: Option<usize>,
    /// The number of the first row, from 1; 0 where there are no rows.
    pub first: u64,
}

impl Read {
    /// Writes packed records as a trace text with the version, the start and the first number that were read: as
    /// [`write()`] does, which takes these three from the caller. Nothing else of what was read is used, so that the
    /// records may be others.
    ///
    /// Refused as [`write()`] is: with 26 where the first number does not fit other records, as when none are left.
    ///
    /// ```
    /// let text = b";$FILEVERSION=1.1\r\n;$STARTTIME=0.0\r\n4117) 2.5 Rx 07FF 0\r\n";
    /// let (trace, records) = bushingowl::read_to_vec(text)?;
    /// let mut written = [0; bushingowl::MOST_HEADER + bushingowl::MOST_ROW];
    /// let bytes = trace.write(&records, &mut written)?;
    /// assert!(written[..bytes].ends_with(b"\r\n4117) 2.5 Rx 07FF 0\r\n"));
    /// # Ok::<(), bushingowl::Refused>(())
    /// ```
    pub fn write(&self, records: &[u8], out: &mut [u8]) -> Result<usize, Refused> {
        write(self.version, self.start, self.first, records, out)
    }

    /// The same, and hands the text out. Refused as [`write_to_vec`] is.
    ///
    /// ```
    /// let text = b";$FILEVERSION=1.2\r\n;$STARTTIME=36585.5\r\n; a selection\r\n\
    ///     4117) 0.000 1 Rx 0123 2 0a ff\r\n4118) 1500.250 2 Tx 18AB0001 0\r\n";
    /// let (trace, records) = bushingowl::read_to_vec(text)?;
    /// assert_eq!((trace.first, trace.rows), (4117, 2));
    /// let written = trace.write_to_vec(&records)?;
    /// assert_eq!(written, b";$FILEVERSION=1.2\r\n;$STARTTIME=36585.5000000000\r\n\
    ///     4117) 0.000 1 Rx 0123 2 0A FF\r\n4118) 1500.250 2 Tx 18AB0001 0\r\n");
    /// assert_eq!(bushingowl::read_to_vec(&written)?, (trace, records));
    /// # Ok::<(), bushingowl::Refused>(())
    /// ```
    pub fn write_to_vec(&self, records: &[u8]) -> Result<Vec<u8>, Refused> {
        write_to_vec(self.version, self.start, self.first, records)
    }
}

/// What an export gave.
#[derive(Clone, Copy, Debug, PartialEq, Eq, Hash)]
pub struct Exported {
    /// The bytes of all lines.
    pub bytes: usize,
    pub lines: usize,
    /// The records that give no line.
    pub left_out: usize,
}

/// What lines of Telemotive ASCII hold beside their records.
#[derive(Clone, Copy, Debug, PartialEq, Eq, Hash)]
pub struct ReadAscii {
    /// The stamp of the first line, cut to the millisecond, in milliseconds from 30 December 1899; 0 where there are no
    /// lines.
    pub start: u64,
    /// As many as there are lines.
    pub records: usize,
}

/// Reads a trace text into packed records, [`RECORD`] bytes for each row, and sets their marks ([`Record::mark`]).
/// `text.len() / LEAST_ROW * RECORD` bytes are enough for any text, and so are `MOST_ROWS * RECORD`.
///
/// Refused with the numbers 1 to 8: 1 first, then that of the earliest line, 8 last.
///
/// ```
/// let text = b";$FILEVERSION=1.2\r\n;$STARTTIME=36585.5\r\n1) 0.000 1 Rx 0123 2 0A FF\r\n";
/// let mut records = [0xEE; 30];
/// let trace = bushingowl::read(text, &mut records)?;
/// assert_eq!((trace.version, trace.rows, trace.step_back, trace.first), (12, 1, None, 1));
/// assert_eq!(records[..14], [0, 0, 0, 0, 0, 0, 8, 0, 0, 4, 0x8C, 0x82, 0xBF, 0xC0]);
/// assert_eq!(records[20..], [0xEE; 10]);
/// # Ok::<(), bushingowl::Refused>(())
/// ```
pub fn read(text: &[u8], out: &mut [u8]) -> Result<Read, Refused> {
    let [number, place, version, start, rows, step_back, first] = numbers::read(text, out);
    accepted(number, place)?;
    Ok(Read {
        version: version as u32,
        start,
        rows: rows as usize,
        step_back: (step_back != 0).then_some(step_back as usize),
        first,
    })
}

/// Reads a trace text, and hands out its packed records.
///
/// Refused as [`read`] is, but never for room.
///
/// ```
/// let (trace, records) = bushingowl::read_to_vec(b";$FILEVERSION=1.2\r\n;$STARTTIME=0.0\r\n")?;
/// assert_eq!((trace.rows, trace.first, records.len()), (0, 0, 0));
/// # Ok::<(), bushingowl::Refused>(())
/// ```
pub fn read_to_vec(text: &[u8]) -> Result<(Read, Vec<u8>), Refused> {
    let mut records = room_for_rows(text);
    let trace = read(text, &mut records)?;
    records.truncate(trace.rows * RECORD);
    Ok((trace, records))
}

/// Writes packed records as a trace text, and gives the number of its bytes. [`read`] gives back the same version, start,
/// first number and records. `MOST_HEADER + records.len() / RECORD * MOST_ROW` bytes are enough.
///
/// The first number is that of the first row, from 1, or 0 where there are no records. [`Read::write`] gives the one that
/// was read.
///
/// The marks of the records ([`Record::mark`]) are not written, but checked: 23 names the first record that is not well
/// formed or whose mark is wrong.
///
/// Refused with the numbers 20 to 26: of several the first of 20, 21, 22, 26, 23, 24, 25.
///
/// ```
/// let mut text = [0; bushingowl::MOST_HEADER];
/// let bytes = bushingowl::write(11, 43_200_000, 0, &[], &mut text)?;
/// assert_eq!(&text[..bytes], b";$FILEVERSION=1.1\r\n;$STARTTIME=0.5000000000\r\n");
/// # Ok::<(), bushingowl::Refused>(())
/// ```
pub fn write(
    version: u32,
    start: u64,
    first: u64,
    records: &[u8],
    out: &mut [u8],
) -> Result<usize, Refused> {
    let [number, place, bytes] = numbers::write(version, start, first, records, out);
    accepted(number, place)?;
    Ok(bytes as usize)
}

/// Writes packed records as a trace text, and hands it out.
///
/// Refused as [`write()`] is, but never for room.
///
/// ```
/// use bushingowl::{read_to_vec, write_to_vec};
/// let (trace, records) = read_to_vec(b"; $FILEVERSION=1.1\r\n;$STARTTIME=36585.5\r\n 1)  2.5 Rx 07ff 1 0a\r\n")?;
/// let text = write_to_vec(trace.version, trace.start, 999_999, &records)?;
/// assert_eq!(text, b";$FILEVERSION=1.1\r\n;$STARTTIME=36585.5000000000\r\n999999) 2.5 Rx 07FF 1 0A\r\n");
/// # Ok::<(), bushingowl::Refused>(())
/// ```
pub fn write_to_vec(
    version: u32,
    start: u64,
    first: u64,
    records: &[u8],
) -> Result<Vec<u8>, Refused> {
    let mut text = vec![0; MOST_HEADER + record_count(records) * MOST_ROW];
    let bytes = write(version, start, first, records, &mut text)?;
    text.truncate(bytes);
    Ok(text)
}

/// Exports the data frames among packed records as lines of Telemotive ASCII; the other records are left out. A stamp
/// is cut to 100 microseconds. `records.len() / RECORD * MOST_LINE` bytes are enough.
///
/// Bus 0 is written as the channel that is given, at most [`MOST_CHANNEL`], and every other bus as the channel of its
/// number. Two loggers whose records have no bus look like one, unless each is exported with a channel of its own.
///
/// The marks of the records ([`Record::mark`]) are not written, but checked, those of the records that are left out as
/// well: 23 names the first record that is not well formed or whose mark is wrong.
///
/// Refused with the numbers 20, 22, 35, 23 and 25: of several the first in this order.
///
/// ```
/// use bushingowl::{export, pack, Kind, Record, CHANNEL_AS_BENCH, MOST_LINE, RECORD};
/// let frame = Record { offset: 1_500_250, bus: 2, kind: Kind::DataSent, extended: true, id: 0x18AB_0001, length: 0, data: [0; 8], mark: false };
/// let mut record = [0; RECORD];
/// pack(&frame, &mut record)?;
/// let mut lines = [0; MOST_LINE];
/// let exported = export(3_160_987_200_000, CHANNEL_AS_BENCH, &record, &mut lines)?;
/// assert_eq!((exported.lines, exported.left_out), (1, 0));
/// assert_eq!(&lines[..exported.bytes], b"29.02.2000 12:00:01.5002 CANExt #2 | EXTENDED Tx 18ab0001 0\r\n");
/// # Ok::<(), bushingowl::Refused>(())
/// ```
pub fn export(
    start: u64,
    channel: u64,
    records: &[u8],
    out: &mut [u8],
) -> Result<Exported, Refused> {
    let [number, place, bytes, lines, left_out] = numbers::export(start, channel, records, out);
    accepted(number, place)?;
    Ok(Exported {
        bytes: bytes as usize,
        lines: lines as usize,
        left_out: left_out as usize,
    })
}

/// Exports packed records, and hands out the lines.
///
/// Refused as [`export`] is, but never for room.
///
/// ```
/// use bushingowl::{export_to_vec, read_to_vec, Reason, CHANNEL_AS_BENCH, CHANNEL_AS_BUS, MOST_CHANNEL};
/// // A trace of version 1.1 has no bus.
/// let (trace, records) = read_to_vec(b";$FILEVERSION=1.1\r\n;$STARTTIME=36585.5\r\n1) 2.5 Rx 07FF 0\r\n")?;
/// let as_channel = |channel| export_to_vec(trace.start, channel, &records).map(|(_, lines)| lines);
/// assert_eq!(as_channel(CHANNEL_AS_BENCH)?, b"29.02.2000 12:00:00.0025 CAN #1 | Rx 7ff 0\r\n");
/// assert_eq!(as_channel(CHANNEL_AS_BUS)?, b"29.02.2000 12:00:00.0025 CAN #0 | Rx 7ff 0\r\n");
/// // That of another logger.
/// assert_eq!(as_channel(7)?, b"29.02.2000 12:00:00.0025 CAN #7 | Rx 7ff 0\r\n");
/// assert_eq!(as_channel(MOST_CHANNEL + 1).unwrap_err().reason, Reason::NoChannel);
/// # Ok::<(), bushingowl::Refused>(())
/// ```
pub fn export_to_vec(
    start: u64,
    channel: u64,
    records: &[u8],
) -> Result<(Exported, Vec<u8>), Refused> {
    let mut lines = vec![0; record_count(records) * MOST_LINE];
    let exported = export(start, channel, records, &mut lines)?;
    lines.truncate(exported.bytes);
    Ok((exported, lines))
}

/// Reads lines of Telemotive ASCII, as [`export`] gives them and as they come back edited, into packed records,
/// [`RECORD`] bytes for each line. `text.len() / LEAST_LINE * RECORD` bytes are enough for any text, and so are
/// `MOST_ROWS * RECORD`.
///
/// Between two parts of a line stands one blank or more, hexadecimal letters may be capital or small, and a line may end
/// with CR LF or LF. [`export`] with the start that is handed out and [`CHANNEL_AS_BUS`] gives the lines back in its own
/// spelling, with the same stamps, directions, IDs, channels and bytes.
///
/// The start is the stamp of the first line, cut to the millisecond, and offsets count from it. Stamps may go back from
/// line to line, but not to before the start. The bus is the channel, 0 to 16, and channel 0 is bus 0. So bus 0, exported
/// with [`CHANNEL_AS_BENCH`], comes back as bus 1. What an export leaves out or cuts off does not come back. The marks
/// ([`Record::mark`]) are set where a stamp lies before that of the line before it, whatever they were when exported.
///
/// Version 1.2 carries the records of channels 1 to 16, and version 1.1 those of channel 0, since all offsets here are
/// whole 100 microseconds. Where a text has lines of both, no version carries all its records.
///
/// Refused with the numbers 1, 31 to 34 and 8: 1 first, then that of the earliest line (31 to 33), then 34, 8 last.
///
/// ```
/// use bushingowl::{export_to_vec, read_ascii, CHANNEL_AS_BUS, RECORD};
/// let edited = b"29.02.2000  12:00:00.0009 CAN #0 |  Rx 7FF 2 0A ff\n29.02.2000 12:00:01.5002 CAN #2 | Tx 124 0\r\n";
/// let mut records = [0; 2 * RECORD];
/// let back = read_ascii(edited, &mut records)?;
/// assert_eq!((back.start, back.records), (3_160_987_200_000, 2));
/// let (_, lines) = export_to_vec(back.start, CHANNEL_AS_BUS, &records)?;
/// assert_eq!(lines, b"29.02.2000 12:00:00.0009 CAN #0 | Rx 7ff 2 0a ff\r\n29.02.2000 12:00:01.5002 CAN #2 | Tx 124 0\r\n");
/// # Ok::<(), bushingowl::Refused>(())
/// ```
pub fn read_ascii(text: &[u8], out: &mut [u8]) -> Result<ReadAscii, Refused> {
    let [number, place, start, records] = numbers::read_ascii(text, out);
    accepted(number, place)?;
    Ok(ReadAscii {
        start,
        records: records as usize,
    })
}

/// Reads lines of Telemotive ASCII, and hands out their packed records.
///
/// Refused as [`read_ascii`] is, but never for room.
///
/// ```
/// use bushingowl::{read_ascii_to_vec, unpack, write_to_vec};
/// let (back, records) = read_ascii_to_vec(b"29.02.2000 12:00:01.5002 CANExt #2 | EXTENDED Tx 18AB0001 0\n")?;
/// assert_eq!((back.start, back.records), (3_160_987_201_500, 1));
/// let frame = unpack(&records)?;
/// assert_eq!((frame.offset, frame.bus, frame.extended, frame.id), (200, 2, true, 0x18AB_0001));
/// // Version 1.2 carries what comes back on a bus, and version 1.1 what comes back without one.
/// let trace = write_to_vec(12, back.start, 1, &records)?;
/// assert!(trace.ends_with(b"\r\n1) 0.200 2 Tx 18AB0001 0\r\n"));
/// let (back, records) = read_ascii_to_vec(b"29.02.2000 12:00:01.5002 CAN #0 | Rx 123 0\n")?;
/// let trace = write_to_vec(11, back.start, 1, &records)?;
/// assert!(trace.ends_with(b"\r\n1) 0.2 Rx 0123 0\r\n"));
/// // 30 February.
/// let refused = read_ascii_to_vec(b"30.02.2000 12:00:00.0000 CAN #1 | Rx 123 0\n").unwrap_err();
/// assert_eq!((refused.number(), refused.place), (31, 1));
/// # Ok::<(), bushingowl::Refused>(())
/// ```
pub fn read_ascii_to_vec(text: &[u8]) -> Result<(ReadAscii, Vec<u8>), Refused> {
    let lines = (text.len() / LEAST_LINE).min(MOST_ROWS);
    let mut records = vec![0; lines * RECORD];
    let back = read_ascii(text, &mut records)?;
    records.truncate(back.records * RECORD);
    Ok((back, records))
}

/// Takes one packed record of [`RECORD`] bytes apart. It may have either mark.
///
/// Refused with the numbers 20 and 23.
///
/// ```
/// use bushingowl::{unpack, Kind};
/// let record = unpack(&[0, 0, 0, 0, 0, 0, 8, 0, 0, 4, 0x8C, 0x82, 0xBF, 0xC0, 0, 0, 0, 0, 0, 32])?;
/// assert_eq!((record.bus, record.kind, record.id), (1, Kind::DataReceived, 0x123));
/// assert_eq!(record.data[..record.length.into()], [0x0A, 0xFF]);
/// // It stepped back in its list.
/// assert!(record.mark);
/// # Ok::<(), bushingowl::Refused>(())
/// ```
pub fn unpack(record: &[u8]) -> Result<Record, Refused> {
    let [number, place, fields @ ..] = numbers::unpack(record);
    accepted(number, place)?;
    Ok(Record::of_fields(fields))
}

/// Packs one record into the first [`RECORD`] bytes of the output. It may have either mark.
///
/// Refused with the numbers 23 and 25.
///
/// ```
/// use bushingowl::{pack, Kind, Reason, Record, RECORD};
/// let frame = Record { offset: 0, bus: 17, kind: Kind::RemoteReceived, extended: false, id: 0x124, length: 3, data: [0; 8], mark: true };
/// let mut packed = [0; RECORD];
/// assert_eq!(pack(&frame, &mut packed).unwrap_err().reason, Reason::NotWellFormed);
/// assert_eq!(pack(&Record { bus: 16, ..frame }, &mut packed), Ok(()));
/// assert_eq!(packed[19], 32);
/// ```
pub fn pack(record: &Record, out: &mut [u8]) -> Result<(), Refused> {
    let [number, place] = numbers::pack(&record.fields(), out);
    accepted(number, place)
}

/// How many records there can be: bytes of more than [`MOST_ROWS`] are refused whatever the room.
fn record_count(records: &[u8]) -> usize {
    (records.len() / RECORD).min(MOST_ROWS)
}

/// Room for the records of a trace text.
fn room_for_rows(text: &[u8]) -> Vec<u8> {
    let rows = (text.len() / LEAST_ROW).min(MOST_ROWS);
    vec![0; rows * RECORD]
}
