//! Marks: where a trace sets them, which lists the writer and the export take, and what a single record may have.

use super::{export, pack, read, unpack, write, LAST_START, RECORD};
use std::array::from_fn;

/// What an output holds before the call.
const BEFORE: u8 = 0xAA;
/// The bit of a mark in the last byte of a record.
const MARK: u8 = 32;
/// A bus that no record may have, in the byte in which it stands, with kind 0.
const NO_BUS: u8 = 17 << 3;
const LENGTH: usize = 4;
/// The records of a list.
const LIST: usize = LENGTH * RECORD;
/// Room for all of it, written or exported.
const ROOM: usize = 400;

type Offsets = [u64; LENGTH];

/// Below, equal and above, in every way from one record to the next, with small steps and with some that carry into every byte.
fn patterns() -> Vec<Offsets> {
    let mut patterns = Vec::new();
    for step in [100, 25_600, 6_553_600, 1 << 24, 25 << 32, 25 << 40] {
        for pattern in 0..3_u32.pow(3) {
            let mut offset = 4 * step;
            patterns.push(from_fn(|position| {
                match position
                    .checked_sub(1)
                    .map(|at| pattern / 3_u32.pow(at as u32) % 3)
                {
                    None | Some(1) => {}
                    Some(0) => offset -= step,
                    _ => offset += step,
                }
                offset
            }));
        }
    }
    patterns
}

/// The marks as the paper says them.
fn marks(offsets: &Offsets) -> [u64; LENGTH] {
    from_fn(|position| match position {
        0 => 0,
        _ => u64::from(offsets[position] < offsets[position - 1]),
    })
}

/// Rows of version 1.2 with these offsets, numbered from 1.
fn trace(offsets: &Offsets) -> String {
    let mut text = ";$FILEVERSION=1.2\r\n;$STARTTIME=0.0000000000\r\n".to_string();
    for (before, offset) in offsets.iter().enumerate() {
        let (number, whole, part) = (before + 1, offset / 1000, offset % 1000);
        text += &format!("{number}) {whole}.{part:03} 1 Rx 0123 0\r\n");
    }
    text
}

/// Packed records of the same rows, with these marks.
fn list(offsets: &Offsets, marks: [u64; LENGTH]) -> [u8; LIST] {
    let mut records = [0; LIST];
    for (record, (offset, mark)) in records.chunks_mut(RECORD).zip(offsets.iter().zip(marks)) {
        let fields = [*offset, 1, 0, 0, 0x123, 0, 0, mark];
        assert_eq!(pack(&fields, record), [0, 0]);
    }
    records
}

/// The refusal with which a list is neither written nor exported; nothing is written then.
fn refused(records: &[u8]) -> [u64; 2] {
    let mut out = [BEFORE; ROOM];
    let written = write(12, 0, 1, records, &mut out);
    let exported = export(0, 0, records, &mut out);
    assert_eq!(written[2], 0);
    assert_eq!(exported[2..], [0, 0, 0]);
    assert_eq!(written[..2], exported[..2]);
    assert_eq!(out, [BEFORE; ROOM]);
    [written[0], written[1]]
}

#[test]
fn marks_of_a_trace() {
    for offsets in patterns() {
        let marks = marks(&offsets);
        let first = marks.iter().position(|&mark| mark == 1);
        let step_back = first.map_or(0, |before| before as u64 + 1);
        let mut records = [BEFORE; LIST];
        let answer = read(trace(&offsets).as_bytes(), &mut records);
        assert_eq!(answer, [0, 0, 12, 0, 4, step_back, 1], "{offsets:?}");
        assert_eq!(records, list(&offsets, marks), "{offsets:?}");
        for (record, mark) in records.chunks(RECORD).zip(marks) {
            assert_eq!(record[RECORD - 1], MARK * mark as u8);
        }
    }
}

#[test]
fn comments_are_no_records() {
    let text = trace(&[500, 300, 300, 100]).replace("\r\n", "\r\n; 0.000\r\n");
    // The first two lines stand behind each other.
    let text = text.replacen("; 0.000\r\n", "", 1);
    let mut records = [BEFORE; LIST];
    let answer = read(text.as_bytes(), &mut records);
    assert_eq!(answer, [0, 0, 12, 0, 4, 2, 1]);
    assert_eq!(records, list(&[500, 300, 300, 100], [0, 1, 0, 1]));
}

#[test]
fn lists_with_true_marks() {
    for offsets in patterns() {
        let (records, text) = (list(&offsets, marks(&offsets)), trace(&offsets));
        let mut out = [BEFORE; ROOM];
        let len = text.len();
        let written = write(12, 0, 1, &records, &mut out);
        assert_eq!(written, [0, 0, len as u64], "{offsets:?}");
        assert_eq!(out[..len], *text.as_bytes());
        let exported = export(0, 0, &records, &mut out);
        assert_eq!([exported[0], exported[1], exported[3]], [0, 0, 4]);
        // A beginning of the list is one, too.
        for count in 0..LENGTH as u64 {
            let begun = &records[..count as usize * RECORD];
            assert_eq!(write(12, 0, count.min(1), begun, &mut out)[0], 0);
            assert_eq!(export(0, 0, begun, &mut out)[3], count);
        }
    }
}

#[test]
fn each_mark_turned() {
    for offsets in patterns() {
        for turned in 0..LENGTH {
            let mut marks = marks(&offsets);
            marks[turned] ^= 1;
            let place = turned as u64 + 1;
            assert_eq!(refused(&list(&offsets, marks)), [23, place], "{offsets:?}");
            // A later one does not count.
            for later in turned + 1..LENGTH {
                let mut marks = marks;
                marks[later] ^= 1;
                assert_eq!(refused(&list(&offsets, marks)), [23, place], "{offsets:?}");
            }
        }
    }
}

#[test]
fn the_earliest_of_malformed_and_false() {
    for offsets in patterns() {
        let good = list(&offsets, marks(&offsets));
        for (malformed, turned) in (0..LENGTH).flat_map(|a| (0..LENGTH).map(move |b| (a, b))) {
            for (byte, value) in [(6, NO_BUS), (RECORD - 1, 1), (RECORD - 1, 31)] {
                let mut records = good;
                records[malformed * RECORD + byte] |= value;
                let alone = refused(&records);
                assert_eq!(alone, [23, malformed as u64 + 1]);
                records[turned * RECORD + RECORD - 1] ^= MARK;
                let place = malformed.min(turned) as u64 + 1;
                assert_eq!(refused(&records), [23, place], "{offsets:?}");
            }
        }
    }
}

#[test]
fn lists_that_are_cut_or_joined() {
    let records = list(&[300, 200, 400, 100], [0, 1, 0, 1]);
    let from = |record: usize| &records[record * RECORD..];
    // What was the second record, or the fourth, is the first now, which has no mark.
    assert_eq!(refused(from(1)), [23, 1]);
    assert_eq!(refused(from(3)), [23, 1]);
    assert_eq!(export(0, 0, from(2), &mut [0; ROOM])[0], 0);
    // The first one of a second list is no longer the first.
    let twice = [&records[..], &records].concat();
    assert_eq!(export(0, 0, &twice, &mut [0; 2 * ROOM])[0], 0);
    let back = [from(2), &records].concat();
    assert_eq!(export(0, 0, &back, &mut [0; 2 * ROOM])[0], 0);
    let joined = [&records[..3 * RECORD], &records].concat();
    assert_eq!(refused(&joined), [23, 4]);
}

#[test]
fn refusals_beside_a_false_mark() {
    // All marks lost, as records had none before.
    let records = list(&[300, 200, 250, 150], [0; LENGTH]);
    let mut out = [BEFORE; ROOM];
    for (version, start, first, len, answer) in [
        (12, 0, 1, LIST, [23, 2, 0]),
        // Version 1.1 can't carry the first record.
        (11, 0, 1, LIST, [23, 2, 0]),
        (12, 0, 0, LIST, [26, 0, 0]),
        (12, LAST_START + 1, 0, LIST, [22, 0, 0]),
        (13, LAST_START + 1, 0, LIST, [21, 0, 0]),
        (13, LAST_START + 1, 0, LIST - 1, [20, 0, 0]),
    ] {
        let list = &records[..len];
        assert_eq!(write(version, start, first, list, &mut out), answer);
        assert_eq!(write(version, start, first, list, &mut []), answer);
    }
    for (start, channel, len, number, place) in [
        (0, 16, LIST, 23, 2),
        (0, 17, LIST, 35, 0),
        (LAST_START + 1, 17, LIST, 22, 0),
        (LAST_START + 1, 17, LIST - 1, 20, 0),
    ] {
        let list = &records[..len];
        let answer = [number, place, 0, 0, 0];
        assert_eq!(export(start, channel, list, &mut out), answer);
        assert_eq!(export(start, channel, list, &mut []), answer);
    }
    assert_eq!(out, [BEFORE; ROOM]);
}

/// Fields of every kind, without a mark.
const FIELDS: [[u64; 7]; 7] = [
    [0, 0, 0, 0, 0, 0, 0],
    [1 << 47, 16, 1, 1, 0x1FFF_FFFF, 8, u64::MAX],
    [100, 3, 0, 0, 0x7FF, 8, 1],
    [100, 3, 2, 0, 0x123, 8, 0],
    [100, 3, 3, 1, 0x123, 0, 0],
    [100, 3, 4, 0, 0, 4, 0xFFFF_FFFF << 32],
    [100, 3, 5, 0, 8, 4, 0x011C_FFFF << 32],
];

/// The fields with a mark.
fn with(fields: [u64; 7], mark: u64) -> [u64; 8] {
    let [offset, bus, kind, extended, id, length, data] = fields;
    [offset, bus, kind, extended, id, length, data, mark]
}

#[test]
fn marks_of_single_records() {
    for fields in FIELDS {
        let mut records = [[BEFORE; RECORD]; 2];
        for mark in [0, 1] {
            let record = &mut records[mark as usize];
            assert_eq!(pack(&with(fields, mark), record), [0, 0]);
            let answer = unpack(record);
            assert_eq!(answer[..2], [0, 0]);
            assert_eq!(answer[2..], with(fields, mark));
            assert_eq!(pack(&with(fields, mark), &mut [0; RECORD - 1]), [25, 0]);
        }
        // It is one bit, and nothing else changes.
        records[0][RECORD - 1] |= MARK;
        assert_eq!(records[0], records[1]);
        let powers = (1..64).flat_map(|power| [1 << power, 1 << power | 1]);
        for mark in powers.chain([10, u64::MAX]) {
            let mut out = [BEFORE; RECORD];
            assert_eq!(pack(&with(fields, mark), &mut out), [23, 1]);
            assert_eq!(pack(&with(fields, mark), &mut []), [23, 1]);
            assert_eq!(out, [BEFORE; RECORD]);
        }
    }
}

#[test]
fn five_bits_stay_zero() {
    for fields in FIELDS {
        let mut record = [0; RECORD];
        pack(&with(fields, 0), &mut record);
        for end in 0..64 {
            let mut other = record;
            other[RECORD - 1] |= end;
            let answer = unpack(&other);
            match end {
                0 | MARK => assert_eq!(answer[9], u64::from(end == MARK)),
                _ => assert_eq!(answer, [23, 1, 0, 0, 0, 0, 0, 0, 0, 0]),
            }
            // In a list it is the first, which has no mark.
            let answer = export(0, 0, &other, &mut [0; ROOM]);
            let number = if end == 0 { [0, 0] } else { [23, 1] };
            assert_eq!(answer[..2], number);
        }
    }
    assert_eq!(unpack(&[0; RECORD + 1])[0], 20);
}
