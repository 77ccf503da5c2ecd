//! How PEAK's programs write a trace: the comments before it, and rows in columns. Rows are set by hand, byte by byte, since there are many millions.

use super::frame::{Frame, What};
use super::Plan;

/// Bytes for the longest row, its end too.
const ROW: usize = 96;
/// Where numbers end, with their bracket behind them.
const NUMBER: usize = 6;
const DIGITS: &[u8; 16] = b"0123456789ABCDEF";

/// Where the columns of a version begin, or end if they are set to the right.
pub struct Columns {
    /// The end of the offset, and how many digits it has behind its point.
    offset: (usize, usize),
    bus: Option<usize>,
    kind: usize,
    id_end: usize,
    length: usize,
    data: usize,
}

const OF_11: Columns = Columns {
    offset: (19, 1),
    bus: None,
    kind: 21,
    id_end: 36,
    length: 38,
    data: 41,
};

const OF_12: Columns = Columns {
    offset: (23, 3),
    bus: Some(25),
    kind: 28,
    id_end: 43,
    length: 45,
    data: 48,
};

const HEAD_11: &str = "\
;   Columns description:
;   ~~~~~~~~~~~~~~~~~~~~~
;   +-Message Number
;   |         +Time Offset (ms)
;   |         |        +Type
;   |         |        |        +ID (hex)
;   |         |        |        |     +Data Length Code
;   |         |        |        |     |   +Data Bytes (hex) ...
;   |         |        |        |     |   |
;---+--   ----+----  --+--  ----+---  +  -+ -- -- -- -- -- -- --
";

const HEAD_12: &str = "\
;   Columns description:
;   ~~~~~~~~~~~~~~~~~~~~~
;   +-Message Number
;   |           +Time Offset (ms)
;   |           |        +Bus
;   |           |        |    +Type
;   |           |        |    |       +ID (hex)
;   |           |        |    |       |    +Data Length Code
;   |           |        |    |       |    |    +Data Bytes (hex) ...
;   |           |        |    |       |    |    |
;---+--   ------+------  +  --+--  ----+---  +  -+ -- -- -- -- -- -- --
";

/// The first lines of a file that begins so many milliseconds into its day, and the columns of its rows.
pub fn head(plan: &Plan, first_day: usize, started: u64, text: &mut Vec<u8>) -> &'static Columns {
    let Plan { machine, day, .. } = plan;
    let part = plan.version - 10;
    let (net, description, columns) = match plan.version {
        11 => ("PCAN-Net", HEAD_11, &OF_11),
        _ => ("Connection", HEAD_12, &OF_12),
    };
    let fraction = (started * 10_000_000_000 + 43_200_000) / 86_400_000;
    let count = first_day + day - 1;
    let (seconds, ms) = (started / 1000, started % 1000);
    let (h, m, s) = (seconds / 3600, seconds / 60 % 60, seconds % 60);
    // The week is that from 9 to 15 November 2026.
    let date = 8 + day;
    let head = format!(
        "\
;$FILEVERSION=1.{part}
;$STARTTIME={count}.{fraction:010}
;
;   C:\\Traces\\machine-{machine:02}\\day-{day}.trc
;
;   Start time: {date:02}.11.2026 {h:02}:{m:02}:{s:02}.{ms:03}.0
;   {net}: machine-{machine:02}
;
{description}"
    );
    text.extend(head.replace('\n', "\r\n").bytes());
    columns
}

impl Columns {
    /// What a logger keeps of an offset in microseconds.
    pub fn kept(&self, offset: u64) -> u64 {
        match self.offset.1 {
            1 => offset / 100 * 100,
            _ => offset,
        }
    }

    pub fn row(&self, text: &mut Vec<u8>, number: u64, offset: u64, bus: u8, frame: &Frame) {
        let mut row = [b' '; ROW];
        decimal(&mut row[..NUMBER], number);
        row[NUMBER] = b')';
        self.put_offset(&mut row, offset);
        if let Some(at) = self.bus {
            row[at] = b'0' + bus;
        }
        let kind = match (frame.what, frame.sent) {
            (What::Warning, _) => b"Warng",
            (What::Error, _) => b"Error",
            (_, false) => b"Rx   ",
            (_, true) => b"Tx   ",
        };
        row[self.kind..self.kind + 5].copy_from_slice(kind);
        let digits = if frame.extended { 8 } else { 4 };
        hexadecimal(&mut row[self.id_end - digits..self.id_end], frame.id);
        row[self.length] = b'0' + frame.length as u8;
        let end = self.data + put_data(&mut row[self.data..], frame);
        row[end] = b'\r';
        row[end + 1] = b'\n';
        text.extend_from_slice(&row[..end + 2]);
    }

    fn put_offset(&self, row: &mut [u8; ROW], offset: u64) {
        let (end, digits) = self.offset;
        let part = match digits {
            1 => offset % 1000 / 100,
            _ => offset % 1000,
        };
        row[end - digits..end].fill(b'0');
        decimal(&mut row[end - digits..end], part);
        row[end - digits - 1] = b'.';
        decimal(&mut row[..end - digits - 1], offset / 1000);
    }
}

/// What stands behind the length, and how many bytes it has. Each data byte has a blank behind it.
fn put_data(row: &mut [u8], frame: &Frame) -> usize {
    if frame.what == What::Remote {
        row[..3].copy_from_slice(b"RTR");
        return 3;
    }
    let bytes = &frame.data.to_be_bytes()[..frame.length];
    for (place, &byte) in row.chunks_exact_mut(3).zip(bytes) {
        place[0] = DIGITS[usize::from(byte >> 4)];
        place[1] = DIGITS[usize::from(byte & 15)];
    }
    let end = 3 * frame.length;
    if frame.what != What::Warning {
        return end;
    }
    let word = match bytes {
        [.., 4] => b"BUSLIGHT",
        _ => b"BUSHEAVY",
    };
    row[end + 1..end + 9].copy_from_slice(word);
    end + 9
}

/// Digits without zeros before them, set to the right.
fn decimal(place: &mut [u8], mut value: u64) {
    for byte in place.iter_mut().rev() {
        *byte = b'0' + (value % 10) as u8;
        value /= 10;
        if value == 0 {
            break;
        }
    }
}

fn hexadecimal(place: &mut [u8], mut value: u32) {
    for byte in place.iter_mut().rev() {
        *byte = DIGITS[value as usize & 15];
        value >>= 4;
    }
}
