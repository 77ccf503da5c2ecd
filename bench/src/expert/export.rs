//! The export: a first pass judges and measures all records, a second writes the lines.

use super::clock::Clock;
use super::marks::Marks;
use super::pen::{digits, Pen};
use super::record::{Fields, REMOTE};
use super::tables::SMALL;
use super::{whole_records, Refusal, LAST_CHANNEL, LAST_START, RECORD};

/// The channel that is given is that of bus 0.
pub fn export(start: u64, channel: u64, records: &[u8], out: &mut [u8]) -> [u64; 5] {
    match export_or_refuse(start, channel, records, out) {
        Ok([bytes, lines, left_out]) => [0, 0, bytes, lines, left_out],
        Err((number, place)) => [number, place, 0, 0, 0],
    }
}

fn export_or_refuse(
    start: u64,
    channel: u64,
    records: &[u8],
    out: &mut [u8],
) -> Result<[u64; 3], Refusal> {
    let records = whole_records(records).ok_or((20, 0))?;
    if start > LAST_START {
        return Err((22, 0));
    }
    if channel > LAST_CHANNEL {
        return Err((35, 0));
    }
    let (bytes, lines) = measure(channel, records)?;
    let mut pen = Pen::new(out.get_mut(..bytes).ok_or((25, 0))?);
    let mut clock = Clock::new();
    for record in records {
        let fields = Fields::load(record);
        if fields.kind < REMOTE {
            put_stamp(&mut pen, &mut clock, start * 10 + fields.offset / 100);
            put_frame(&mut pen, channel_of(&fields, channel), &fields);
        }
    }
    Ok([bytes as u64, lines, records.len() as u64 - lines])
}

/// The bytes and the number of all lines.
fn measure(channel: u64, records: &[[u8; RECORD]]) -> Result<(usize, u64), Refusal> {
    let (mut bytes, mut lines) = (0, 0);
    let mut marks = Marks::default();
    for (number, record) in (1..).zip(records) {
        let fields = marks.judge(record).ok_or((23, number))?;
        if fields.kind < REMOTE {
            bytes += line_length(channel_of(&fields, channel), &fields);
            lines += 1;
        }
    }
    Ok((bytes, lines))
}

/// The channel in a line. Every bus but 0 has the channel of its number.
#[inline(always)]
fn channel_of(fields: &Fields, of_bus_0: u64) -> u64 {
    match fields.bus {
        0 => of_bus_0,
        bus => bus,
    }
}

#[inline(always)]
fn line_length(channel: u64, fields: &Fields) -> usize {
    let around = match fields.extended {
        0 => "29.02.2000 12:00:00.0000 CAN # | Rx 123 2\r\n".len(),
        _ => "29.02.2000 12:00:00.0000 CANExt # | EXTENDED Rx 18ab0001 2\r\n".len(),
    };
    around + digits(channel) + 3 * fields.length as usize
}

/// Date and time of a count of 100 microseconds.
#[inline(always)]
fn put_stamp(pen: &mut Pen, clock: &mut Clock, stamp: u64) {
    let part = clock.set(stamp);
    pen.put(*clock.text());
    pen.two(part / 100);
    pen.two(part % 100);
}

#[inline(always)]
fn put_frame(pen: &mut Pen, channel: u64, fields: &Fields) {
    let first = if fields.kind == 0 { b'R' } else { b'T' };
    let bytes = (fields.id as u32).to_be_bytes();
    let [a, b, c, d] = bytes.map(|byte| SMALL[usize::from(byte)]);
    if fields.extended == 0 {
        pen.put(*b" CAN #");
        pen.decimal(channel);
        pen.put([b' ', b'|', b' ', first, b'x', b' ']);
        pen.put([c[1], d[0], d[1], b' ']);
    } else {
        pen.put(*b" CANExt #");
        pen.decimal(channel);
        pen.put(*b" | EXTENDED ");
        pen.put([first, b'x', b' ']);
        pen.put([a[0], a[1], b[0], b[1], c[0], c[1], d[0], d[1], b' ']);
    }
    pen.data(fields.length, fields.data, &SMALL);
    pen.put(*b"\r\n");
}
