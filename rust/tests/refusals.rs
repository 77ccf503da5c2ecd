//! Every refusal of every function: its number, its place, and an output that is as it was.

use bushingowl::{
    export, export_to_vec, numbers, pack, read, read_to_vec, unpack, write, write_to_vec, Kind,
    Reason, Record, Refused, CHANNEL_AS_BENCH, MOST_CHANNEL, MOST_START, MOST_TEXT, RECORD,
};

const HEAD: &str = ";$FILEVERSION=1.2\r\n;$STARTTIME=36585.5\r\n";
const FRAME: Record = Record {
    offset: 1_500_250,
    bus: 2,
    kind: Kind::DataReceived,
    extended: false,
    id: 0x7FF,
    length: 1,
    data: [0x0A, 0, 0, 0, 0, 0, 0, 0],
    mark: false,
};

fn refused<T>(reason: Reason, place: u64) -> Result<T, Refused> {
    Err(Refused { reason, place })
}

fn packed(record: &Record) -> [u8; RECORD] {
    let mut packed = [0; RECORD];
    pack(record, &mut packed).unwrap();
    packed
}

/// Runs the call on an output of so many bytes, which it must leave as it is.
fn untouched<T>(len: usize, call: impl Fn(&mut [u8]) -> T) -> T {
    let mut out = vec![0xEE; len];
    let answer = call(&mut out);
    assert!(out.iter().all(|byte| *byte == 0xEE));
    answer
}

#[test]
fn of_reading() {
    let lines = |lines: &str| format!("{HEAD}{lines}").into_bytes();
    let long = format!(";{}\r\n", "x".repeat(250));
    let cases = [
        (lines("1) 0.000 1 Rx 0123 0"), Reason::LineNotEnded, 3),
        (lines(";\r\n;\rx\r\n"), Reason::LineNotEnded, 4),
        (lines(&long), Reason::LineTooLong, 3),
        (b"".to_vec(), Reason::NoVersionLine, 1),
        (b";$FILEVERSION=1.3\r\n".to_vec(), Reason::NoVersionLine, 1),
        (HEAD.as_bytes()[..19].to_vec(), Reason::NoStartLine, 2),
        (
            b";$FILEVERSION=1.1\r\n;$STARTTIME=99999.9999999999\r\n".to_vec(),
            Reason::NoStartLine,
            2,
        ),
        (lines(";\r\n; $x\r\n"), Reason::DollarComment, 4),
        (lines("1) 0.000 17 Rx 0123 0\r\n"), Reason::NoRow, 3),
        (
            lines("1) 0.000 1 Rx 0123 0\r\n1) 0.000 1 Rx 0123 0\r\n"),
            Reason::NoRow,
            4,
        ),
        (
            lines("4117) 0.000 1 Rx 0123 0\r\n2) 0.000 1 Rx 0123 0\r\n"),
            Reason::NoRow,
            4,
        ),
    ];
    for (text, reason, place) in cases {
        let shown = String::from_utf8_lossy(&text);
        let answer = untouched(60, |out| read(&text, out));
        assert_eq!(answer, refused(reason, place), "{shown}");
        assert_eq!(read_to_vec(&text), refused(reason, place), "{shown}");
    }
}

#[test]
fn of_a_text_above_the_limit() {
    let text = vec![b';'; MOST_TEXT + 1];
    let expected = refused(Reason::TextTooLong, 0);
    assert_eq!(untouched(60, |out| read(&text, out)), expected);
    assert_eq!(read_to_vec(&text), refused(Reason::TextTooLong, 0));
    let expected = refused(Reason::LineNotEnded, 1);
    assert_eq!(read(&text[1..], &mut []), expected);
}

#[test]
fn of_reading_without_room() {
    let text = format!("{HEAD}1) 0.000 1 Rx 0123 0\r\n;\r\n2) 0.000 1 Rx 0123 0\r\n");
    for len in [0, 19, 20, 39] {
        let answer = untouched(len, |out| read(text.as_bytes(), out));
        assert_eq!(answer, refused(Reason::NoRoomForRecords, 0));
    }
    assert_eq!(read(text.as_bytes(), &mut [0; 40]).unwrap().rows, 2);
}

#[test]
fn of_writing() {
    let good = packed(&FRAME);
    let odd = packed(&Record { bus: 0, ..FRAME });
    let bad = [0xFF; RECORD];
    // Version, start, first number, records, and what they are refused with. Each of the first ones is wrong in all that
    // comes behind as well.
    #[rustfmt::skip]
    let cases: [(u32, u64, u64, Vec<u8>, Reason, u64); 14] = [
        (13, u64::MAX, u64::MAX, vec![0xFF; 19], Reason::NoRecords, 0),
        (13, u64::MAX, u64::MAX, bad.to_vec(), Reason::NoVersion, 0),
        (u32::MAX, 0, 0, vec![], Reason::NoVersion, 0),
        (12, MOST_START + 1, u64::MAX, bad.to_vec(), Reason::StartTooLate, 0),
        (12, MOST_START + 1, 1, vec![], Reason::StartTooLate, 0),
        (12, MOST_START, u64::MAX, bad.to_vec(), Reason::WrongFirstNumber, 0),
        (12, MOST_START, 0, bad.to_vec(), Reason::WrongFirstNumber, 0),
        (11, 0, 0, good.to_vec(), Reason::WrongFirstNumber, 0),
        // Positions, whatever the number of the first row.
        (12, 0, 1, [good, odd, bad].concat(), Reason::NotWellFormed, 3),
        (12, 0, 4117, [good, bad, odd].concat(), Reason::NotWellFormed, 2),
        (12, 0, 1, [good, odd, odd].concat(), Reason::NotCarried, 2),
        (12, 0, 4117, [good, odd, odd].concat(), Reason::NotCarried, 2),
        (11, 0, 1, good.to_vec(), Reason::NotCarried, 1),
        (11, 0, 1, odd.to_vec(), Reason::NotCarried, 1),
    ];
    for (version, start, first, records, reason, place) in cases {
        for room in [0, 300] {
            let answer = untouched(room, |out| write(version, start, first, &records, out));
            assert_eq!(answer, refused(reason, place));
        }
        let answer = write_to_vec(version, start, first, &records);
        assert_eq!(answer, refused(reason, place));
    }
}

#[test]
fn of_exporting() {
    let good = packed(&FRAME);
    let bad = [0xFF; RECORD];
    // Start, channel, records, and what they are refused with. Each of the first ones is wrong in all that comes behind
    // as well.
    #[rustfmt::skip]
    let cases: [(u64, u64, Vec<u8>, Reason, u64); 8] = [
        (u64::MAX, u64::MAX, vec![0xFF; 21], Reason::NoRecords, 0),
        (MOST_START + 1, u64::MAX, bad.to_vec(), Reason::StartTooLate, 0),
        (MOST_START + 1, u64::MAX, vec![], Reason::StartTooLate, 0),
        (MOST_START, u64::MAX, bad.to_vec(), Reason::NoChannel, 0),
        (MOST_START, MOST_CHANNEL + 1, good.to_vec(), Reason::NoChannel, 0),
        (MOST_START, MOST_CHANNEL + 1, vec![], Reason::NoChannel, 0),
        (MOST_START, MOST_CHANNEL, bad.to_vec(), Reason::NotWellFormed, 1),
        (0, 0, [good, good, bad].concat(), Reason::NotWellFormed, 3),
    ];
    for (start, channel, records, reason, place) in cases {
        for room in [0, 300] {
            let answer = untouched(room, |out| export(start, channel, &records, out));
            assert_eq!(answer, refused(reason, place));
        }
        let answer = export_to_vec(start, channel, &records);
        assert_eq!(answer, refused(reason, place));
    }
}

#[test]
fn of_writing_and_exporting_without_room() {
    let records = [packed(&FRAME), packed(&FRAME)].concat();
    let text = write_to_vec(12, 0, 1, &records).unwrap();
    let (exported, lines) = export_to_vec(0, CHANNEL_AS_BENCH, &records).unwrap();
    assert_eq!(exported.bytes, lines.len());
    for less in [1, 2, 30] {
        let answer = untouched(text.len() - less, |out| write(12, 0, 1, &records, out));
        assert_eq!(answer, refused(Reason::NoRoom, 0));
        let answer = untouched(lines.len() - less, |out| {
            export(0, CHANNEL_AS_BENCH, &records, out)
        });
        assert_eq!(answer, refused(Reason::NoRoom, 0));
    }
    let mut out = vec![0; text.len()];
    assert_eq!(write(12, 0, 1, &records, &mut out), Ok(text.len()));
    assert_eq!(out, text);
    let mut out = vec![0; lines.len()];
    let answer = export(0, CHANNEL_AS_BENCH, &records, &mut out);
    assert_eq!(answer, Ok(exported));
    assert_eq!(out, lines);
}

#[test]
fn of_single_records() {
    for len in [0, 19, 21, 40] {
        assert_eq!(unpack(&vec![0; len]), refused(Reason::NoRecords, 0));
    }
    assert_eq!(unpack(&[0xFF; RECORD]), refused(Reason::NotWellFormed, 1));
    let bad = Record { length: 0, ..FRAME };
    for len in [0, 20, 30] {
        let answer = untouched(len, |out| pack(&bad, out));
        assert_eq!(answer, refused(Reason::NotWellFormed, 1));
    }
    for len in [0, 19] {
        let answer = untouched(len, |out| pack(&FRAME, out));
        assert_eq!(answer, refused(Reason::NoRoom, 0));
    }
}

#[test]
fn with_zeros_for_all_other_numbers() {
    assert_eq!(numbers::read(b"", &mut []), [4, 1, 0, 0, 0, 0, 0]);
    // A row before the line that is wrong, and a good trace without room.
    let text = format!("{HEAD}4117) 0.000 1 Rx 0123 0\r\n");
    let answer = numbers::read(format!("{text}x\r\n").as_bytes(), &mut [0; 40]);
    assert_eq!(answer, [7, 4, 0, 0, 0, 0, 0]);
    let answer = numbers::read(text.as_bytes(), &mut []);
    assert_eq!(answer, [8, 0, 0, 0, 0, 0, 0]);
    assert_eq!(numbers::write(13, 0, 0, &[], &mut []), [21, 0, 0]);
    assert_eq!(numbers::write(12, 0, 1, &[], &mut []), [26, 0, 0]);
    assert_eq!(numbers::export(0, 0, &[0], &mut []), [20, 0, 0, 0, 0]);
    assert_eq!(numbers::export(0, 17, &[], &mut []), [35, 0, 0, 0, 0]);
    assert_eq!(numbers::unpack(&[]), [20, 0, 0, 0, 0, 0, 0, 0, 0, 0]);
    let answer = numbers::unpack(&[0xFF; RECORD]);
    assert_eq!(answer, [23, 1, 0, 0, 0, 0, 0, 0, 0, 0]);
    assert_eq!(numbers::pack(&[u64::MAX; 8], &mut [0; 20]), [23, 1]);
    assert_eq!(numbers::pack(&[0; 8], &mut []), [25, 0]);
    // A line before the one that is wrong, and a good line without room.
    let line = "29.02.2000 12:00:00.0000 CAN #1 | Rx 123 0\n";
    let answer = numbers::read_ascii(format!("{line}x\n").as_bytes(), &mut [0; 40]);
    assert_eq!(answer, [31, 2, 0, 0]);
    let answer = numbers::read_ascii(line.as_bytes(), &mut [0; 19]);
    assert_eq!(answer, [8, 0, 0, 0]);
    assert_eq!(numbers::explain(b"", 13, 1), [21, 0, 0, 0]);
    assert_eq!(numbers::explain(b";", 12, 1), [30, 0, 0, 0]);
    assert_eq!(numbers::explain(b";", 12, 0), [30, 0, 0, 0]);
}

#[test]
fn in_words() {
    let shown = |reason, place| Refused { reason, place }.to_string();
    let cases = [
        (1, 0, "the text has more than 134,217,728 bytes (refusal 1)"),
        (2, 5, "line 5 is not ended by CR LF (refusal 2)"),
        (3, 9, "line 9 has more than 250 bytes (refusal 3)"),
        (4, 1, "line 1 is no ;$FILEVERSION=1.1 or 1.2 (refusal 4)"),
        (
            5,
            2,
            "line 2 is no ;$STARTTIME= up to day 99,999 (refusal 5)",
        ),
        (6, 3, "line 3 is a comment with $ first (refusal 6)"),
        (7, 4, "line 4 is no row (refusal 7)"),
        (8, 0, "the output is too short for the records (refusal 8)"),
        (
            20,
            0,
            "the bytes are not 20 for each record, up to 999,999 (refusal 20)",
        ),
        (21, 0, "the version is neither 11 nor 12 (refusal 21)"),
        (22, 0, "the start lies past day 99,999 (refusal 22)"),
        (
            23,
            8,
            "record 8 is not well formed, or its mark is wrong (refusal 23)",
        ),
        (24, 8, "the version can't carry record 8 (refusal 24)"),
        (25, 0, "the output is too short (refusal 25)"),
        (
            26,
            0,
            "the first number is 0 with records or not 0 without, or the last row's would be above 999,999 (refusal 26)",
        ),
        (
            30,
            0,
            "the line is a row or a comment or holds CR or LF, or its number is above 999,999 (refusal 30)",
        ),
        (
            31,
            3,
            "line 3 is no line of Telemotive ASCII, or has more than 250 bytes, or is not ended (refusal 31)",
        ),
        (
            32,
            2,
            "the stamp of line 2 lies before the start, that of line 1 cut to the millisecond (refusal 32)",
        ),
        (
            33,
            7,
            "the stamp of line 7 lies more than 281,474,976,710,655 microseconds behind the start (refusal 33)",
        ),
        (34, 0, "there are more than 999,999 lines (refusal 34)"),
        (35, 0, "the channel of bus 0 is above 16 (refusal 35)"),
    ];
    assert_eq!(cases.len(), Reason::ALL.len());
    for (number, place, words) in cases {
        let reason = Reason::of(number).unwrap();
        assert_eq!(reason.number(), number);
        assert_eq!(shown(reason, place), words);
    }
    for number in [0, 9, 19, 27, 29, 36, u64::MAX] {
        assert_eq!(Reason::of(number), None);
    }
}
