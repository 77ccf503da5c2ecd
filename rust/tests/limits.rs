//! The constants are the very limits: what is as large is taken, and one more is not.

use bushingowl::{
    export, export_to_vec, pack, read_ascii_to_vec, read_to_vec, unpack, write, write_to_vec, Kind,
    Reason, Record, CHANNEL_AS_BENCH, LEAST_LINE, LEAST_ROW, MOST_CHANNEL, MOST_HEADER, MOST_LINE,
    MOST_OFFSET, MOST_ROW, MOST_ROWS, MOST_START, MOST_TEXT, RECORD,
};

/// The record with the longest row and the longest line, but for its number.
const LONGEST: Record = Record {
    offset: MOST_OFFSET,
    bus: 16,
    kind: Kind::DataReceived,
    extended: true,
    id: 0x1FFF_FFFF,
    length: 8,
    data: [0, 0x11, 0x22, 0x33, 0x44, 0x55, 0x66, 0x77],
    mark: false,
};

fn packs(record: &Record) -> bool {
    let mut packed = [0; RECORD];
    let answer = pack(record, &mut packed);
    if answer.is_ok() {
        assert_eq!(unpack(&packed).as_ref(), Ok(record));
    }
    answer.is_ok()
}

#[test]
fn of_a_record() {
    for mark in [false, true] {
        assert!(packs(&Record { mark, ..LONGEST }));
    }
    let wrong = [
        Record {
            offset: MOST_OFFSET + 1,
            ..LONGEST
        },
        Record { bus: 17, ..LONGEST },
        Record {
            id: 0x2000_0000,
            ..LONGEST
        },
        Record {
            id: 0x800,
            extended: false,
            ..LONGEST
        },
        Record {
            length: 9,
            ..LONGEST
        },
        Record {
            length: 7,
            ..LONGEST
        },
        Record {
            kind: Kind::RemoteSent,
            ..LONGEST
        },
    ];
    for record in wrong {
        assert!(!packs(&record), "{record:?}");
    }
}

#[test]
fn of_each_kind() {
    let frame = Record {
        offset: 0,
        bus: 0,
        extended: false,
        id: 0,
        length: 4,
        data: [0; 8],
        ..LONGEST
    };
    for (number, kind) in Kind::ALL.into_iter().enumerate() {
        assert_eq!(kind.number(), number as u64);
        let record = Record { kind, ..frame };
        assert_eq!(packs(&record), kind != Kind::ErrorFrame);
        let id = Record { id: 8, ..record };
        let position = Record {
            data: [1, 28, 0xFF, 0xFF, 0, 0, 0, 0],
            ..id
        };
        let data = matches!(kind, Kind::DataReceived | Kind::DataSent);
        assert_eq!(packs(&position), data || kind == Kind::ErrorFrame);
        let remote = matches!(kind, Kind::RemoteReceived | Kind::RemoteSent);
        assert_eq!(packs(&id), data || remote);
    }
    assert_eq!(Kind::of(6), None);
}

#[test]
fn of_a_start() {
    let text = write_to_vec(12, MOST_START, 0, &[]).unwrap();
    assert_eq!(text.len(), MOST_HEADER);
    assert_eq!(read_to_vec(&text).unwrap().0.start, MOST_START);
    let late = write_to_vec(12, MOST_START + 1, 0, &[]).unwrap_err();
    assert_eq!(late.reason, Reason::StartTooLate);
}

#[test]
fn of_the_shortest_rows() {
    let head = ";$FILEVERSION=1.1\r\n;$STARTTIME=0.0\r\n";
    let row = "1) 0.0 Rx 0000 0\r\n";
    assert_eq!(row.len(), LEAST_ROW);
    let (trace, records) = read_to_vec(format!("{head}{row}").as_bytes()).unwrap();
    assert_eq!((trace.rows, records.len()), (1, RECORD));
    let shorter = format!("{head}1) 0.0 Rx 000 0\r\n");
    assert_eq!(read_to_vec(shorter.as_bytes()).unwrap_err().place, 3);
}

#[test]
fn of_the_shortest_lines() {
    let line = "29.02.2000 12:00:00.0000 CAN #1 | Rx 123 0\n";
    assert_eq!(line.len(), LEAST_LINE);
    let (back, records) = read_ascii_to_vec(line.as_bytes()).unwrap();
    assert_eq!((back.records, records.len()), (1, RECORD));
    // Without any one byte it is none.
    for at in 0..line.len() {
        let shorter = [&line[..at], &line[at + 1..]].concat();
        let refused = read_ascii_to_vec(shorter.as_bytes()).unwrap_err();
        assert_eq!((refused.number(), refused.place), (31, 1), "{shorter}");
    }
}

#[test]
fn of_the_longest_row() {
    let mut record = [0; RECORD];
    pack(&LONGEST, &mut record).unwrap();
    let mut out = [0; MOST_HEADER + MOST_ROW];
    let answer = write(12, MOST_START, 999_999, &record, &mut out);
    assert_eq!(answer, Ok(out.len()));
    let short = write(12, MOST_START, 999_999, &record, &mut out[1..]).unwrap_err();
    assert_eq!(short.reason, Reason::NoRoom);
}

#[test]
fn of_a_channel() {
    // On the last channel the line of bus 0 is as long as any.
    let mut record = [0; RECORD];
    pack(&Record { bus: 0, ..LONGEST }, &mut record).unwrap();
    let mut out = [0; MOST_LINE];
    let exported = export(0, MOST_CHANNEL, &record, &mut out).unwrap();
    assert_eq!(exported.bytes, out.len());
    let short = export(0, MOST_CHANNEL, &record, &mut out[1..]).unwrap_err();
    assert_eq!(short.reason, Reason::NoRoom);
    let above = export(0, MOST_CHANNEL + 1, &record, &mut out).unwrap_err();
    assert_eq!(above.reason, Reason::NoChannel);
}

#[test]
fn of_rows_and_lines() {
    let mut record = [0; RECORD];
    pack(&LONGEST, &mut record).unwrap();
    let mut records = record.repeat(MOST_ROWS);
    let text = write_to_vec(12, MOST_START, 1, &records).unwrap();
    let last = b"999999) 281474976710.655 16 Rx 1FFFFFFF 8 00 11 22 33 44 55 66 77\r\n";
    assert_eq!(last.len(), MOST_ROW);
    assert!(text.ends_with(last));
    let (trace, read) = read_to_vec(&text).unwrap();
    assert_eq!((trace.rows, trace.step_back), (MOST_ROWS, None));
    assert_eq!(trace.first, 1);
    assert!(read == records);
    let (exported, lines) = export_to_vec(MOST_START, CHANNEL_AS_BENCH, &records).unwrap();
    assert_eq!((exported.lines, exported.left_out), (MOST_ROWS, 0));
    assert_eq!(lines.len(), MOST_ROWS * MOST_LINE);
    let next = [text, b"1000000) 0.000 1 Rx 0000 0\r\n".to_vec()].concat();
    let refused = read_to_vec(&next).unwrap_err();
    assert_eq!((refused.number(), refused.place), (7, 1_000_002));
    records.extend(record);
    let many = write_to_vec(12, 0, 1, &records).unwrap_err();
    assert_eq!(many.reason, Reason::NoRecords);
    assert_eq!(
        export_to_vec(0, CHANNEL_AS_BENCH, &records).unwrap_err(),
        many
    );
}

#[test]
fn of_a_text() {
    let mut text = b";$FILEVERSION=1.1\r\n;$STARTTIME=0.0\r\n".to_vec();
    let comment = [&[b';'; 250][..], b"\r\n"].concat();
    let left = MOST_TEXT - text.len();
    text.extend(comment.repeat(left / comment.len()));
    text.extend(&comment[comment.len() - left % comment.len()..]);
    assert_eq!(text.len(), MOST_TEXT);
    assert_eq!(read_to_vec(&text).unwrap().0.rows, 0);
    text.extend(b";");
    let refused = read_to_vec(&text).unwrap_err();
    assert_eq!(refused.reason, Reason::TextTooLong);
}
