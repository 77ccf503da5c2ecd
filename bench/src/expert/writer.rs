//! The writer: a first pass judges and measures all records, a second writes them.

use super::clock::fraction;
use super::marks::Marks;
use super::pen::{digits, Pen};
use super::record::{Fields, ERROR, WARNING};
use super::tables::CAPITAL;
use super::{whole_records, Refusal, DAY, LAST_NUMBER, LAST_START, RECORD};

pub fn write(version: u32, start: u64, first: u64, records: &[u8], out: &mut [u8]) -> [u64; 3] {
    match write_or_refuse(version, start, first, records, out) {
        Ok(bytes) => [0, 0, bytes as u64],
        Err((number, place)) => [number, place, 0],
    }
}

fn write_or_refuse(
    version: u32,
    start: u64,
    first: u64,
    records: &[u8],
    out: &mut [u8],
) -> Result<usize, Refusal> {
    let records = whole_records(records).ok_or((20, 0))?;
    if version != 11 && version != 12 {
        return Err((21, 0));
    }
    if start > LAST_START {
        return Err((22, 0));
    }
    if !numbered(first, records.len() as u64) {
        return Err((26, 0));
    }
    let with_bus = version == 12;
    let total = header_length(start) + measure(records, first, with_bus)?;
    let mut pen = Pen::new(out.get_mut(..total).ok_or((25, 0))?);
    put_header(&mut pen, start, with_bus);
    for (number, record) in (first..).zip(records) {
        put_row(&mut pen, number, &Fields::load(record), with_bus);
    }
    Ok(total)
}

/// Whether so many rows may be numbered from the first number on. No rows have 0.
fn numbered(first: u64, rows: u64) -> bool {
    match rows {
        0 => first == 0,
        _ => (1..=LAST_NUMBER).contains(&first) && first + (rows - 1) <= LAST_NUMBER,
    }
}

/// The bytes of all rows.
fn measure(records: &[[u8; RECORD]], first: u64, with_bus: bool) -> Result<usize, Refusal> {
    let (mut sum, mut uncarried) = (0, 0);
    let mut marks = Marks::default();
    for (position, (number, record)) in (1..).zip((first..).zip(records)) {
        let fields = marks.judge(record).ok_or((23, position))?;
        if uncarried == 0 && !carried(&fields, with_bus) {
            uncarried = position;
        }
        sum += row_length(number, &fields, with_bus);
    }
    match uncarried {
        0 => Ok(sum),
        _ => Err((24, uncarried)),
    }
}

#[inline(always)]
fn carried(fields: &Fields, with_bus: bool) -> bool {
    match with_bus {
        true => fields.bus != 0,
        false => fields.bus == 0 && fields.offset.is_multiple_of(100),
    }
}

#[inline(always)]
fn row_length(number: u64, fields: &Fields, with_bus: bool) -> usize {
    let version = match with_bus {
        true => ") .000  ".len() + digits(fields.bus),
        false => ") .0 ".len(),
    };
    let data = 3 * fields.length as usize;
    let kind = match fields.kind {
        WARNING => "Warng FFFFFFFF 4\r\n".len() + data,
        ERROR => "Error 0001 4\r\n".len() + data,
        2 | 3 => "Rx 0123 2 RTR\r\n".len(),
        _ => "Rx 0123 2\r\n".len() + data,
    };
    digits(number) + digits(fields.offset / 1000) + version + kind + 4 * fields.extended as usize
}

#[inline(always)]
fn put_row(pen: &mut Pen, number: u64, fields: &Fields, with_bus: bool) {
    pen.decimal(number);
    pen.put(*b") ");
    pen.decimal(fields.offset / 1000);
    let part = fields.offset % 1000;
    pen.put([b'.', b'0' + (part / 100) as u8]);
    if with_bus {
        pen.two(part % 100);
        pen.put(*b" ");
        pen.decimal(fields.bus);
    }
    match fields.kind {
        WARNING => pen.put(*b" Warng FFFFFFFF "),
        ERROR => {
            pen.put(*b" Error 000");
            pen.put([b'0' + fields.id as u8, b' ']);
        }
        kind => {
            let first = if kind & 1 == 0 { b'R' } else { b'T' };
            pen.put([b' ', first, b'x', b' ']);
            put_id(pen, fields);
        }
    }
    match fields.kind {
        2 | 3 => pen.put([b'0' + fields.length as u8, b' ', b'R', b'T', b'R']),
        _ => pen.data(fields.length, fields.data, &CAPITAL),
    }
    pen.put(*b"\r\n");
}

/// Four or eight digits and a blank.
#[inline(always)]
fn put_id(pen: &mut Pen, fields: &Fields) {
    let bytes = (fields.id as u32).to_be_bytes();
    let [a, b, c, d] = bytes.map(|byte| CAPITAL[usize::from(byte)]);
    if fields.extended == 1 {
        pen.put([a[0], a[1], b[0], b[1]]);
    }
    pen.put([c[0], c[1], d[0], d[1], b' ']);
}

fn header_length(start: u64) -> usize {
    ";$FILEVERSION=1.1\r\n;$STARTTIME=.0123456789\r\n".len() + digits(start / DAY)
}

fn put_header(pen: &mut Pen, start: u64, with_bus: bool) {
    pen.put(match with_bus {
        true => *b";$FILEVERSION=1.2\r\n;$STARTTIME=",
        false => *b";$FILEVERSION=1.1\r\n;$STARTTIME=",
    });
    pen.decimal(start / DAY);
    pen.put(*b".");
    let fraction = fraction(start % DAY);
    for power in [100_000_000, 1_000_000, 10_000, 100, 1] {
        pen.two(fraction / power % 100);
    }
    pen.put(*b"\r\n");
}
