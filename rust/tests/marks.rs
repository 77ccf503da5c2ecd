//! The marks of records: set by both readers, checked by both writers, either one in a single record, set anew in a list
//! of copied records, and counted.

use bushingowl::{
    count_steps, mark_steps, numbers, pack, read_ascii_to_vec, read_to_vec, unpack, write_to_vec,
    ReadAscii, Reason, Record, Refused, CHANNEL_AS_BUS, MOST_OFFSET, MOST_ROWS, MOST_START, RECORD,
};

/// 29 February 2000, noon.
const START: u64 = 3_160_987_200_000;
/// The first record of the small trace, as the paper has it. Its offset is 0, and it has no mark.
const FIRST: [u8; RECORD] = [
    0, 0, 0, 0, 0, 0, 8, 0, 0, 4, 0x8C, 0x82, 0xBF, 0xC0, 0, 0, 0, 0, 0, 0,
];
/// The last byte of a record, and the mark in it.
const LAST: usize = RECORD - 1;
const MARK: u8 = 32;
/// A byte of such a record, and a bit of it with which the record is not well formed: the five behind the mark, and bus 17.
const MALFORMED: [(usize, u8); 6] = [
    (LAST, 1),
    (LAST, 2),
    (LAST, 4),
    (LAST, 8),
    (LAST, 16),
    (6, 128),
];

/// Records like the first one, with these offsets and marks.
fn list(offsets: &[u64], marks: &[bool]) -> Vec<u8> {
    let mut records = FIRST.repeat(offsets.len());
    let values = offsets.iter().zip(marks);
    for (record, (offset, mark)) in records.chunks_mut(RECORD).zip(values) {
        record[..6].copy_from_slice(&offset.to_be_bytes()[2..]);
        record[LAST] = if *mark { MARK } else { 0 };
    }
    records
}

/// Every pattern of three steps, each of them 100 microseconds down, none, or 100 up: the offsets of four records, and the
/// marks that they have. All of them lie at the start of the first one's millisecond or behind it, as lines have to.
fn patterns() -> impl Iterator<Item = ([u64; 4], [bool; 4])> {
    (0..27).map(|pattern| {
        let (mut offsets, mut marks) = ([900; 4], [false; 4]);
        for (k, weight) in [(1, 1), (2, 3), (3, 9)] {
            let step = pattern / weight % 3;
            offsets[k] = offsets[k - 1] + 100 * step - 100;
            marks[k] = step == 0;
        }
        (offsets, marks)
    })
}

/// Every list of four marks.
fn all_marks() -> impl Iterator<Item = [bool; 4]> {
    (0..16).map(|bits| [1, 2, 4, 8].map(|weight| bits & weight != 0))
}

/// The trace of such records, as it is written in version 1.2.
fn text(offsets: &[u64]) -> String {
    let head = ";$FILEVERSION=1.2\r\n;$STARTTIME=36585.5000000000\r\n".to_string();
    let rows = (1..).zip(offsets);
    rows.fold(head, |text, (number, offset)| {
        let (ms, rest) = (offset / 1000, offset % 1000);
        text + &format!("{number}) {ms}.{rest:03} 1 Rx 0123 2 0A FF\r\n")
    })
}

/// Their lines, where the offsets lie within a second.
fn lines(offsets: &[u64]) -> String {
    let line = |offset| format!("29.02.2000 12:00:00.{offset:04} CAN #1 | Rx 123 2 0a ff\r\n");
    offsets.iter().map(|offset| line(offset / 100)).collect()
}

fn marks_of(records: &[u8]) -> Vec<bool> {
    let records = records.chunks(RECORD);
    records.map(|record| unpack(record).unwrap().mark).collect()
}

/// The position, from 1, of the first mark.
fn first_mark(marks: &[bool]) -> Option<usize> {
    let at = marks.iter().position(|mark| *mark);
    at.map(|at| at + 1)
}

/// The records with these bits of these bytes turned.
fn turned(records: &[u8], bits: &[(usize, u8)]) -> Vec<u8> {
    let mut records = records.to_vec();
    for (at, bit) in bits {
        records[*at] ^= bit;
    }
    records
}

/// Holds both writers to what they give for a list.
#[track_caller]
fn is_taken(records: &[u8], text: &str, lines: &str) {
    let mut out = [0xEE; 1000];
    let answer = numbers::write(12, START, 1, records, &mut out);
    assert_eq!(answer, [0, 0, text.len() as u64]);
    assert_eq!(out[..text.len()], *text.as_bytes());
    let [number, place, bytes, ..] = numbers::export(START, CHANNEL_AS_BUS, records, &mut out);
    assert_eq!([number, place, bytes], [0, 0, lines.len() as u64]);
    assert_eq!(out[..lines.len()], *lines.as_bytes());
}

/// Holds both writers to 23 at this record, whatever the room, and the output to what it held.
#[track_caller]
fn is_refused(records: &[u8], place: usize) {
    let place = place as u64;
    for room in [0, 1000] {
        let mut out = vec![0xEE; room];
        let answer = numbers::write(12, START, 1, records, &mut out);
        assert_eq!(answer, [23, place, 0]);
        let answer = numbers::export(START, CHANNEL_AS_BUS, records, &mut out);
        assert_eq!(answer, [23, place, 0, 0, 0]);
        assert!(out.iter().all(|byte| *byte == 0xEE));
    }
}

/// Holds the setting of marks to its refusal, and the bytes to what they were.
#[track_caller]
fn is_not_marked(records: &[u8], reason: Reason, place: u64) {
    let mut bytes = records.to_vec();
    let answer = mark_steps(&mut bytes);
    assert_eq!(answer, Err(Refused { reason, place }));
    assert!(bytes == records);
}

#[test]
fn are_set_by_the_reader() {
    for (offsets, marks) in patterns() {
        let (trace, records) = read_to_vec(text(&offsets).as_bytes()).unwrap();
        assert_eq!(records, list(&offsets, &marks), "{offsets:?}");
        assert_eq!(marks_of(&records), marks);
        assert_eq!(trace.step_back, first_mark(&marks), "{offsets:?}");
    }
}

#[test]
fn are_set_in_version_11_too() {
    for (offsets, marks) in patterns() {
        let text = text(&offsets).replace("=1.2", "=1.1");
        let text = text.replace("00 1 Rx", " Rx");
        let (trace, records) = read_to_vec(text.as_bytes()).unwrap();
        assert_eq!((trace.version, trace.rows), (11, 4));
        assert_eq!(marks_of(&records), marks, "{offsets:?}");
        assert_eq!(trace.step_back, first_mark(&marks), "{offsets:?}");
        let written = trace.write_to_vec(&records);
        assert_eq!(written, Ok(text.into_bytes()));
    }
}

#[test]
fn are_set_by_the_reader_of_ascii() {
    for (offsets, marks) in patterns() {
        let expected = ReadAscii {
            start: START,
            records: 4,
        };
        let answer = read_ascii_to_vec(lines(&offsets).as_bytes());
        assert_eq!(answer, Ok((expected, list(&offsets, &marks))));
    }
}

#[test]
fn are_checked_by_both_writers() {
    for (offsets, marks) in patterns() {
        // One mark turned, several, and none.
        for given in all_marks() {
            let records = list(&offsets, &given);
            let mut pairs = given.iter().zip(&marks);
            match pairs.position(|(given, mark)| given != mark) {
                Some(wrong) => is_refused(&records, wrong + 1),
                None => is_taken(&records, &text(&offsets), &lines(&offsets)),
            }
        }
    }
}

#[test]
fn the_earliest_of_wrong_marks_and_malformed_records() {
    for (offsets, marks) in patterns() {
        let good = list(&offsets, &marks);
        for (early, late) in (0..4).flat_map(|early| (early..4).map(move |late| (early, late))) {
            let marks = [early, late].map(|k| (k * RECORD + LAST, MARK));
            for (at, bit) in MALFORMED {
                let malformed = [early, late].map(|k| (k * RECORD + at, bit));
                is_refused(&turned(&good, &[malformed[0], marks[1]]), early + 1);
                is_refused(&turned(&good, &[marks[0], malformed[1]]), early + 1);
            }
        }
    }
}

#[test]
fn their_place_among_the_refusals() {
    let wrong = list(&[900], &[true]);
    let write = |version, start, first| numbers::write(version, start, first, &wrong, &mut []);
    assert_eq!(write(13, MOST_START + 1, 0), [21, 0, 0]);
    assert_eq!(write(12, MOST_START + 1, 0), [22, 0, 0]);
    assert_eq!(write(12, MOST_START, 0), [26, 0, 0]);
    assert_eq!(write(12, MOST_START, 1), [23, 1, 0]);
    let export = |start, channel| numbers::export(start, channel, &wrong, &mut []);
    assert_eq!(export(MOST_START + 1, 17), [22, 0, 0, 0, 0]);
    assert_eq!(export(MOST_START, 17), [35, 0, 0, 0, 0]);
    assert_eq!(export(MOST_START, 16), [23, 1, 0, 0, 0]);
    let good = list(&[900, 800, 700], &[false, true, true]);
    // Bus 0, in the first record and in the second, which version 1.2 can't carry.
    for at in [6, RECORD + 6] {
        let misfit = turned(&good, &[(at, 8)]);
        let place = (at / RECORD + 1) as u64;
        let answer = numbers::write(12, START, 1, &misfit, &mut [0; 1000]);
        assert_eq!(answer, [24, place, 0]);
        is_refused(&turned(&misfit, &[(2 * RECORD + LAST, MARK)]), 3);
    }
}

#[test]
fn of_every_two_offsets() {
    let offsets = [
        0,
        1,
        255,
        256,
        65_535,
        65_536,
        (1 << 32) - 1,
        1 << 32,
        (1 << 32) + 1,
        1 << 47,
        MOST_OFFSET - 1,
        MOST_OFFSET,
    ];
    for (i, first) in offsets.into_iter().enumerate() {
        for (j, second) in offsets.into_iter().enumerate() {
            let text = text(&[first, second]);
            let records = list(&[first, second], &[false, j < i]);
            let (trace, read) = read_to_vec(text.as_bytes()).unwrap();
            assert_eq!(read, records, "{text}");
            assert_eq!(trace.step_back, (j < i).then_some(2), "{text}");
            let written = write_to_vec(12, START, 1, &records);
            assert_eq!(written, Ok(text.into_bytes()));
            is_refused(&turned(&records, &[(RECORD + LAST, MARK)]), 2);
        }
    }
}

#[test]
fn of_records_that_give_no_line() {
    // A remote frame between two data frames: the last one steps back from it, and not from the other line.
    let text = text(&[500, 900, 700]).replace("900 1 Rx 0123 2 0A FF", "900 1 Rx 0123 2 RTR");
    let (trace, records) = read_to_vec(text.as_bytes()).unwrap();
    assert_eq!(marks_of(&records), [false, false, true]);
    assert_eq!(trace.step_back, Some(3));
    is_taken(&records, &text, &lines(&[500, 700]));
    for k in 0..3 {
        is_refused(&turned(&records, &[(k * RECORD + LAST, MARK)]), k + 1);
    }
    // Without it there is no step.
    let (_, back) = read_ascii_to_vec(lines(&[500, 700]).as_bytes()).unwrap();
    assert_eq!(marks_of(&back), [false, false]);
}

#[test]
fn of_the_samples() {
    let small = include_bytes!("../../samples/small.trc");
    let samples: [(&[u8], &[usize]); 4] = [
        (small, &[3]),
        (include_bytes!("../../samples/selection.trc"), &[5]),
        (include_bytes!("../../samples/dosing.trc"), &[]),
        (include_bytes!("../../samples/version-11.trc"), &[5]),
    ];
    for (text, marked) in samples {
        let (trace, records) = read_to_vec(text).unwrap();
        let marks = (1..=trace.rows).map(|k| marked.contains(&k));
        assert_eq!(marks_of(&records), marks.collect::<Vec<_>>());
        assert_eq!(trace.step_back, marked.first().copied());
        let written = trace.write_to_vec(&records).unwrap();
        assert_eq!(read_to_vec(&written), Ok((trace, records)));
    }
    // The paper's first record is as it was.
    assert_eq!(read_to_vec(small).unwrap().1[..RECORD], FIRST);
}

#[test]
fn of_as_many_records_as_there_can_be() {
    let mut offsets = vec![900; MOST_ROWS];
    offsets[MOST_ROWS - 1] = 899;
    let mut marks = vec![false; MOST_ROWS];
    marks[MOST_ROWS - 1] = true;
    let mut records = list(&offsets, &marks);
    let text = write_to_vec(12, START, 1, &records).unwrap();
    let (trace, read) = read_to_vec(&text).unwrap();
    assert_eq!((trace.rows, trace.step_back), (MOST_ROWS, Some(MOST_ROWS)));
    assert!(read == records);
    let last = records.len() - 1;
    records[last] ^= MARK;
    is_refused(&records, MOST_ROWS);
    assert_eq!(mark_steps(&mut records), Ok(()));
    assert!(read == records);
    records.extend(FIRST);
    is_not_marked(&records, Reason::NoRecords, 0);
}

#[test]
fn single_records_may_have_either() {
    let frame = Record {
        offset: 1_500_250,
        ..unpack(&FIRST).unwrap()
    };
    for mark in [false, true] {
        let frame = Record { mark, ..frame };
        let packed = list(&[frame.offset], &[mark]);
        assert_eq!(unpack(&packed), Ok(frame));
        let mut out = [0xEE; RECORD + 4];
        assert_eq!(pack(&frame, &mut out), Ok(()));
        assert_eq!(out[..RECORD], packed);
        assert_eq!(out[RECORD..], [0xEE; 4]);
    }
    // In a list of one it is the first.
    is_refused(&list(&[1_500_250], &[true]), 1);
}

#[test]
fn of_each_kind() {
    let data = 0x0102_0304_0506_0708;
    #[rustfmt::skip]
    let kinds = [
        [0, 0, 0, 0, 0, 0, 0],
        [MOST_OFFSET, 16, 1, 1, 0x1FFF_FFFF, 8, u64::MAX],
        [100, 1, 1, 0, 0x7FF, 8, data],
        [100, 1, 2, 0, 0x124, 3, 0],
        [100, 1, 3, 1, 0x124, 8, 0],
        [100, 1, 4, 0, 0, 4, 8 << 32],
        [100, 1, 5, 0, 4, 4, 0x0113_0060 << 32],
    ];
    for [offset, bus, kind, extended, id, length, data] in kinds {
        let packed = [0, 1].map(|mark| {
            let fields = [offset, bus, kind, extended, id, length, data, mark];
            let mut record = [0xEE; RECORD];
            assert_eq!(numbers::pack(&fields, &mut record), [0, 0], "{fields:?}");
            let answer = numbers::unpack(&record);
            assert_eq!(answer[..2], [0, 0], "{fields:?}");
            assert_eq!(answer[2..], fields);
            record
        });
        // The mark is one bit, and changes no other.
        assert_eq!(turned(&packed[0], &[(LAST, MARK)]), packed[1]);
        assert_eq!(packed[0][LAST] & MARK, 0);
    }
}

#[test]
fn above_1_there_is_none() {
    let above = [
        2,
        3,
        32,
        255,
        256,
        257,
        1 << 32,
        (1 << 32) + 1,
        1 << 63,
        (1 << 63) + 1,
        u64::MAX,
    ];
    for mark in above {
        // A good record, and one of bus 17.
        for bus in [1, 17] {
            for room in [0, RECORD - 1, RECORD, RECORD + 4] {
                let mut out = vec![0xEE; room];
                let fields = [0, bus, 0, 0, 0x123, 0, 0, mark];
                assert_eq!(numbers::pack(&fields, &mut out), [23, 1], "{mark}");
                assert!(out.iter().all(|byte| *byte == 0xEE));
            }
        }
    }
}

#[test]
fn the_five_bits_behind_them_are_zero() {
    for bits in 1..MARK {
        for mark in [0, MARK] {
            let record = turned(&FIRST, &[(LAST, mark | bits)]);
            let answer = numbers::unpack(&record);
            assert_eq!(answer, [23, 1, 0, 0, 0, 0, 0, 0, 0, 0]);
        }
        let good = list(&[900, 800, 800], &[false, true, false]);
        for k in 0..3 {
            let bad = turned(&good, &[(k * RECORD + LAST, bits)]);
            is_refused(&bad, k + 1);
            is_not_marked(&bad, Reason::NotWellFormed, k as u64 + 1);
        }
    }
}

#[test]
fn are_set_anew() {
    assert_eq!(mark_steps(&mut []), Ok(()));
    for (offsets, marks) in patterns() {
        for given in all_marks() {
            let mut records = list(&offsets, &given);
            assert_eq!(mark_steps(&mut records), Ok(()));
            assert_eq!(records, list(&offsets, &marks), "{given:?}");
        }
    }
}

#[test]
fn are_set_anew_in_copied_records() {
    let sample = include_bytes!("../../samples/selection.trc");
    let (trace, records) = read_to_vec(sample).unwrap();
    let rows: Vec<&[u8]> = records.chunks(RECORD).collect();
    // Rows, from 1, in their new order: only the fifth has a mark. Then the first record whose mark is wrong there, and the
    // marks that are right.
    #[rustfmt::skip]
    let cases: [(&[usize], u64, &[bool]); 4] = [
        (&[4, 6, 5], 0, &[false, false, true]),
        (&[5], 1, &[false]),
        (&[1, 3, 5, 6], 3, &[false, false, false, false]),
        (&[6, 5, 4, 3, 2, 1], 4, &[false, true, false, true, true, true]),
    ];
    for (order, wrong, marks) in cases {
        let copied: Vec<&[u8]> = order.iter().map(|k| rows[k - 1]).collect();
        let copied = copied.concat();
        let mut marked = copied.clone();
        assert_eq!(mark_steps(&mut marked), Ok(()));
        assert_eq!(marks_of(&marked), marks, "{order:?}");
        let written = trace.write_to_vec(&marked).unwrap();
        let (again, read) = read_to_vec(&written).unwrap();
        assert_eq!(read, marked);
        assert_eq!(again.step_back, first_mark(marks), "{order:?}");
        let reason = Reason::NotWellFormed;
        let unmarked = match wrong {
            0 => Ok(written),
            place => Err(Refused { reason, place }),
        };
        assert_eq!(trace.write_to_vec(&copied), unmarked, "{order:?}");
    }
}

#[test]
fn are_not_set_in_what_is_no_list() {
    // All marks are wrong, so that one that was set would show.
    let wrong = list(&[900, 800, 900], &[true, false, true]);
    for len in [1, 19, 21, 39, 41, 59] {
        is_not_marked(&wrong[..len], Reason::NoRecords, 0);
        is_not_marked(&vec![0xFF; len], Reason::NoRecords, 0);
    }
    for k in 0..3 {
        for (at, bit) in MALFORMED {
            let bad = turned(&wrong, &[(k * RECORD + at, bit)]);
            is_not_marked(&bad, Reason::NotWellFormed, k as u64 + 1);
        }
        // Of several the first.
        let several = [&wrong[..k * RECORD], &[0xFF; 2 * RECORD]].concat();
        is_not_marked(&several, Reason::NotWellFormed, k as u64 + 1);
    }
}

#[test]
fn are_counted() {
    let set = |marks: &[bool]| marks.iter().filter(|mark| **mark).count();
    assert_eq!(count_steps(&[]), 0);
    for marks in all_marks() {
        let records = list(&[0; 4], &marks);
        assert_eq!(count_steps(&records), set(&marks_of(&records)));
        // Bytes behind the last whole record do not count.
        for bytes in 0..=records.len() {
            let whole = &marks[..bytes / RECORD];
            assert_eq!(count_steps(&records[..bytes]), set(whole));
        }
    }
    for (offsets, marks) in patterns() {
        let (_, records) = read_to_vec(text(&offsets).as_bytes()).unwrap();
        assert_eq!(count_steps(&records), set(&marks), "{offsets:?}");
    }
}

#[test]
fn are_counted_by_their_bit_alone() {
    // Every bit of a record, and all others.
    for at in 0..RECORD {
        for bit in (0..8).map(|power| 1 << power) {
            let is_mark = (at, bit) == (LAST, MARK);
            let alone = turned(&[0; RECORD], &[(at, bit)]);
            assert_eq!(count_steps(&alone), usize::from(is_mark));
            let others = turned(&[0xFF; RECORD], &[(at, bit)]);
            assert_eq!(count_steps(&others), usize::from(!is_mark));
        }
    }
    // More records than a list may have.
    let records = list(&[0, 0], &[false, true]).repeat(MOST_ROWS);
    assert_eq!(count_steps(&records), MOST_ROWS);
}
