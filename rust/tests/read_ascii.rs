//! Lines of Telemotive ASCII, read back. What is expected comes from the rules of the line; days are counted by hand.

use bushingowl::{
    export_to_vec, numbers, pack, read_ascii, read_ascii_to_vec, read_to_vec, unpack, write_to_vec,
    Kind, ReadAscii, Reason, Record, Refused, CHANNEL_AS_BENCH, CHANNEL_AS_BUS, LEAST_LINE,
    MOST_OFFSET, MOST_ROWS, MOST_START, MOST_TEXT, RECORD,
};

const LINES: &str = "29.02.2000 12:00:00.0000 CAN #1 | Rx 123 2 0a ff\r\n\
    29.02.2000 12:00:01.5002 CANExt #2 | EXTENDED Tx 18ab0001 0\r\n";
/// 29 February 2000, noon.
const START: u64 = 3_160_987_200_000;
const DAY: u64 = 86_400_000;
/// The frames of the two lines; the microseconds below 100 were cut off.
const FIRST: Record = Record {
    offset: 0,
    bus: 1,
    kind: Kind::DataReceived,
    extended: false,
    id: 0x123,
    length: 2,
    data: [0x0A, 0xFF, 0, 0, 0, 0, 0, 0],
    mark: false,
};
const SECOND: Record = Record {
    offset: 1_500_200,
    bus: 2,
    kind: Kind::DataSent,
    extended: true,
    id: 0x18AB_0001,
    length: 0,
    data: [0; 8],
    mark: false,
};
const FIRST_PACKED: [u8; RECORD] = [
    0, 0, 0, 0, 0, 0, 8, 0, 0, 4, 0x8C, 0x82, 0xBF, 0xC0, 0, 0, 0, 0, 0, 0,
];

/// The list of these records, each with the mark that it has there.
fn packed(records: &[Record]) -> Vec<u8> {
    let mut all = vec![0; records.len() * RECORD];
    let mut before = 0;
    for (record, out) in records.iter().zip(all.chunks_mut(RECORD)) {
        let mark = record.offset < before;
        pack(&Record { mark, ..*record }, out).unwrap();
        before = record.offset;
    }
    all
}

/// The lines of these records in house spelling, each bus as the channel of its number.
#[track_caller]
fn spelled(start: u64, records: &[u8]) -> Vec<u8> {
    export_to_vec(start, CHANNEL_AS_BUS, records).unwrap().1
}

fn refused<T>(reason: Reason, place: u64) -> Result<T, Refused> {
    Err(Refused { reason, place })
}

/// Holds a text to its start and records, with room to spare and with none.
#[track_caller]
fn holds(text: &str, start: u64, records: &[Record]) {
    let expected = ReadAscii {
        start,
        records: records.len(),
    };
    let bytes = packed(records);
    let answer = read_ascii_to_vec(text.as_bytes());
    assert_eq!(answer, Ok((expected, bytes.clone())), "{text}");
    let mut out = vec![0xEE; bytes.len() + 7];
    assert_eq!(read_ascii(text.as_bytes(), &mut out), Ok(expected));
    assert_eq!(out, [&bytes[..], &[0xEE; 7]].concat());
    let mut exact = vec![0xEE; bytes.len()];
    assert_eq!(read_ascii(text.as_bytes(), &mut exact), Ok(expected));
    assert_eq!(exact, bytes);
}

/// Holds a text to its refusal, whatever the room, and the output to what it held.
#[track_caller]
fn is_refused(text: &[u8], reason: Reason, place: u64) {
    let shown = String::from_utf8_lossy(&text[..text.len().min(300)]);
    for room in [0, 100] {
        let mut out = vec![0xEE; room];
        let answer = read_ascii(text, &mut out);
        assert_eq!(answer, refused(reason, place), "{shown}");
        assert_eq!(out, vec![0xEE; room]);
    }
    let answer = numbers::read_ascii(text, &mut [0; 40]);
    assert_eq!(answer, [reason.number(), place, 0, 0], "{shown}");
    assert_eq!(read_ascii_to_vec(text), refused(reason, place), "{shown}");
}

/// A line with this stamp.
fn at(stamp: &str) -> String {
    format!("{stamp} CAN #1 | Rx 123 2 0a ff\r\n")
}

/// A line with these parts behind the stamp of START.
fn with(parts: &str) -> String {
    format!("29.02.2000 12:00:00.0000 {parts}\r\n")
}

/// The records of such lines, which differ in their offsets alone.
fn offsets<const N: usize>(offsets: [u64; N]) -> [Record; N] {
    offsets.map(|offset| Record { offset, ..FIRST })
}

#[test]
fn the_lines_of_the_paper() {
    holds(LINES, START, &[FIRST, SECOND]);
    assert_eq!(packed(&[FIRST]), FIRST_PACKED);
    let answer = numbers::read_ascii(LINES.as_bytes(), &mut [0; 40]);
    assert_eq!(answer, [0, 0, START, 2]);
    let (back, records) = read_ascii_to_vec(LINES.as_bytes()).unwrap();
    let (exported, lines) = export_to_vec(back.start, CHANNEL_AS_BUS, &records).unwrap();
    assert_eq!((exported.lines, exported.left_out), (2, 0));
    assert_eq!(lines, LINES.as_bytes());
}

#[test]
fn the_exports_of_the_samples_are_unchanged() {
    let samples: [(&[u8], u64); 5] = [
        (include_bytes!("../../samples/small.txt"), START),
        (
            include_bytes!("../../samples/dosing.txt"),
            // 1 November 2023, 10:00:00.0243.
            45_231 * DAY + 36_000_024,
        ),
        (
            include_bytes!("../../samples/selection.txt"),
            45_231 * DAY + 36_052_318,
        ),
        (
            include_bytes!("../../samples/version-11.txt"),
            45_231 * DAY + 36_000_018,
        ),
        (
            include_bytes!("../../samples/no-bus.txt"),
            45_231 * DAY + 36_000_018,
        ),
    ];
    for (text, start) in samples {
        let (back, records) = read_ascii_to_vec(text).unwrap();
        assert_eq!(back.start, start);
        let lines = text.iter().filter(|byte| **byte == b'\n').count();
        assert_eq!((back.records, records.len()), (lines, lines * RECORD));
        let again = spelled(back.start, &records);
        assert!(again == text);
    }
}

#[test]
fn an_edited_export() {
    let samples: [(&[u8], &[u8]); 2] = [
        (
            include_bytes!("../../samples/edited.asc"),
            include_bytes!("../../samples/edited.txt"),
        ),
        (
            include_bytes!("../../samples/no-bus.asc"),
            include_bytes!("../../samples/no-bus.txt"),
        ),
    ];
    for (edited, house) in samples {
        let (back, records) = read_ascii_to_vec(edited).unwrap();
        assert!(spelled(back.start, &records) == house);
        assert_eq!(read_ascii_to_vec(house), Ok((back, records)));
    }
    is_refused(
        include_bytes!("../../samples/no-such-date.asc"),
        Reason::NoAsciiLine,
        3,
    );
}

#[test]
fn the_exports_of_a_trace_without_buses() {
    let trace = include_bytes!("../../samples/version-11.trc");
    let (read, records) = read_to_vec(trace).unwrap();
    let lines = |channel| export_to_vec(read.start, channel, &records).unwrap().1;
    let printed = include_bytes!("../../samples/version-11.txt");
    assert!(lines(CHANNEL_AS_BENCH) == printed);
    let own = include_bytes!("../../samples/no-bus.txt");
    assert!(lines(CHANNEL_AS_BUS) == own);
}

#[test]
fn no_lines() {
    holds("", 0, &[]);
    assert_eq!(numbers::read_ascii(b"", &mut []), [0, 0, 0, 0]);
}

#[test]
fn blanks_and_letters_are_open() {
    let blanks = " ".repeat(200);
    for line in [
        "29.02.2000 12:00:00.0000 CAN #1 | Rx 123 2 0A FF",
        "29.02.2000 12:00:00.0000 CAN #1 | Rx 123 2 0A fF",
        "29.02.2000  12:00:00.0000   CAN    #1     |  Rx   123    2     0a      Ff",
        &format!("29.02.2000{blanks}12:00:00.0000 CAN #1 | Rx 123 2 0a ff"),
        &format!("29.02.2000 12:00:00.0000 CAN{blanks}#1 | Rx 123 2 0a ff"),
        &format!("29.02.2000 12:00:00.0000 CAN #1{blanks}| Rx 123 2 0a ff"),
        &format!("29.02.2000 12:00:00.0000 CAN #1 |{blanks}Rx 123 2 0a ff"),
        &format!("29.02.2000 12:00:00.0000 CAN #1 | Rx 123 2 0a{blanks}ff"),
    ] {
        holds(&format!("{line}\n"), START, &[FIRST]);
        holds(&format!("{line}\r\n"), START, &[FIRST]);
    }
    for id in ["18ab0001", "18AB0001", "18aB0001"] {
        let line = format!("29.02.2000 12:00:01.5002 CANExt  #2  |  EXTENDED   Tx {id}  0\n");
        let frame = Record {
            offset: 200,
            ..SECOND
        };
        holds(&line, START + 1500, &[frame]);
    }
}

#[test]
fn every_line_has_an_end_of_its_own() {
    let line = at("29.02.2000 12:00:00.0000");
    let bare = line.trim_end();
    for ends in [
        ["\r\n"; 3],
        ["\n"; 3],
        ["\r\n", "\n", "\r\n"],
        ["\n", "\r\n", "\n"],
    ] {
        let text: String = ends.map(|end| format!("{bare}{end}")).concat();
        holds(&text, START, &[FIRST; 3]);
    }
    for end in [
        "", "\r", "\r\r\n", "\n\r", "\r\n\r", "\n\n", "\r\n\r\n", "\0", "\x0B\n", "\x1A",
    ] {
        // What stands behind a good end is a line by itself.
        let first = if end.starts_with('\n') || end.starts_with("\r\n") {
            2
        } else {
            1
        };
        is_refused(
            format!("{bare}{end}").as_bytes(),
            Reason::NoAsciiLine,
            first,
        );
        let text = format!("{line}{bare}\n{bare}{end}");
        is_refused(text.as_bytes(), Reason::NoAsciiLine, first + 2);
    }
    for text in ["\n", "\r\n", "\r", " ", " \n", "x", "\u{FEFF}"] {
        is_refused(text.as_bytes(), Reason::NoAsciiLine, 1);
        is_refused(format!("{text}{line}").as_bytes(), Reason::NoAsciiLine, 1);
    }
    // A CR at any place, and so an LF, and a zero.
    for place in 0..bare.len() {
        for byte in ["\r", "\n", "\0", "\t"] {
            let (before, behind) = bare.split_at(place);
            let text = format!("{line}{before}{byte}{behind}\n");
            is_refused(text.as_bytes(), Reason::NoAsciiLine, 2);
        }
    }
}

#[test]
fn a_line_has_at_most_250_bytes() {
    let parts = ["29.02.2000", "12:00:00.0000 CAN #1 | Rx 123 2 0a ff"];
    let taken = parts.concat().len();
    for end in ["\r\n", "\n"] {
        let line = |bytes: usize| format!("{}{end}", parts.join(&" ".repeat(bytes - taken)));
        for bytes in [taken + 1, 249, 250] {
            assert_eq!(line(bytes).len(), bytes + end.len());
            holds(&line(bytes), START, &[FIRST]);
            holds(&line(bytes).repeat(2), START, &[FIRST; 2]);
        }
        for bytes in [251, 252, 500, 70_000] {
            is_refused(line(bytes).as_bytes(), Reason::NoAsciiLine, 1);
            let text = format!("{}{}", line(250), line(bytes));
            is_refused(text.as_bytes(), Reason::NoAsciiLine, 2);
        }
    }
}

#[test]
fn what_each_part_may_be() {
    for (parts, bus) in [
        ("CAN #0 | Rx 123 2 0a ff", 0),
        ("CAN #1 | Rx 123 2 0a ff", 1),
        ("CAN #9 | Rx 123 2 0a ff", 9),
    ] {
        holds(&with(parts), START, &[Record { bus, ..FIRST }]);
    }
    for bus in 0..=16 {
        let line = with(&format!("CANExt #{bus} | EXTENDED Tx 18ab0001 0"));
        let frame = Record {
            offset: 0,
            bus,
            ..SECOND
        };
        holds(&line, START, &[frame]);
    }
    for id in [0, 1, 0x123, 0x7FE, 0x7FF] {
        let line = with(&format!("CAN #1 | Rx {id:03x} 2 0a ff"));
        holds(&line, START, &[Record { id, ..FIRST }]);
    }
    // An ID of the extended form, whatever its value.
    for id in [0, 0x123, 0x7FF, 0x800, 0x1FFF_FFFE, 0x1FFF_FFFF] {
        let line = with(&format!("CANExt #2 | EXTENDED Tx {id:08X} 0"));
        let frame = Record {
            offset: 0,
            id,
            ..SECOND
        };
        holds(&line, START, &[frame]);
    }
    let bytes = [0x00, 0x11, 0x22, 0xAA, 0xBB, 0xC0, 0x0D, 0xFF];
    for length in 0..=8 {
        let given = &bytes[..length];
        let texts: String = given.iter().map(|byte| format!(" {byte:02x}")).collect();
        let mut data = [0; 8];
        data[..length].copy_from_slice(given);
        for (direction, kind) in [("Rx", Kind::DataReceived), ("Tx", Kind::DataSent)] {
            let line = with(&format!("CAN #1 | {direction} 123 {length}{texts}"));
            let frame = Record {
                kind,
                length: length as u8,
                data,
                ..FIRST
            };
            holds(&line, START, &[frame]);
        }
        // One byte less, and one more.
        if let Some((less, _)) = texts.rsplit_once(' ') {
            let line = with(&format!("CAN #1 | Rx 123 {length}{less}"));
            is_refused(line.as_bytes(), Reason::NoAsciiLine, 1);
        }
        let line = with(&format!("CAN #1 | Rx 123 {length}{texts} 00"));
        is_refused(line.as_bytes(), Reason::NoAsciiLine, 1);
    }
}

#[test]
fn what_is_no_such_line() {
    let lines = [
        // Blanks at the ends, none between, and others than byte 32.
        " 29.02.2000 12:00:00.0000 CAN #1 | Rx 123 0",
        "29.02.2000 12:00:00.0000 CAN #1 | Rx 123 0 ",
        "29.02.200012:00:00.0000 CAN #1 | Rx 123 0",
        "29.02.2000 12:00:00.0000CAN #1 | Rx 123 0",
        "29.02.2000 12:00:00.0000 CAN#1 | Rx 123 0",
        "29.02.2000 12:00:00.0000 CAN #1| Rx 123 0",
        "29.02.2000 12:00:00.0000 CAN #1 |Rx 123 0",
        "29.02.2000 12:00:00.0000 CAN #1 | Rx123 0",
        "29.02.2000 12:00:00.0000 CAN #1 | Rx 1230",
        "29.02.2000 12:00:00.0000 CAN #1 | Rx 123 2 0aff",
        "29.02.2000 12:00:00.0000 CANExt #1 | EXTENDEDTx 18ab0001 0",
        "29.02.2000\t12:00:00.0000 CAN #1 | Rx 123 0",
        "29.02.2000\u{A0}12:00:00.0000 CAN #1 | Rx 123 0",
        // Parts that are missing, that are one too many, or stand elsewhere.
        "12:00:00.0000 CAN #1 | Rx 123 0",
        "29.02.2000 CAN #1 | Rx 123 0",
        "29.02.2000 12:00:00.0000 #1 | Rx 123 0",
        "29.02.2000 12:00:00.0000 CAN | Rx 123 0",
        "29.02.2000 12:00:00.0000 CAN #1 Rx 123 0",
        "29.02.2000 12:00:00.0000 CAN #1 | 123 0",
        "29.02.2000 12:00:00.0000 CAN #1 | Rx 0",
        "29.02.2000 12:00:00.0000 CAN #1 | Rx 123",
        "29.02.2000 12:00:00.0000 CAN #1 | Rx",
        "29.02.2000 12:00:00.0000 CAN #1 |",
        "29.02.2000 12:00:00.0000",
        "29.02.2000",
        "29.02.2000 12:00:00.0000 CAN #1 | | Rx 123 0",
        "29.02.2000 12:00:00.0000 CAN #1 | Rx Rx 123 0",
        "29.02.2000 12:00:00.0000 CAN #1 | Rx 123 0 x",
        "12:00:00.0000 29.02.2000 CAN #1 | Rx 123 0",
        "29.02.2000 12:00:00.0000 CAN #1 | 123 Rx 0",
        // What goes with which ID.
        "29.02.2000 12:00:00.0000 CAN #1 | EXTENDED Rx 123 0",
        "29.02.2000 12:00:00.0000 CAN #1 | EXTENDED Rx 00000123 0",
        "29.02.2000 12:00:00.0000 CAN #1 | Rx 00000123 0",
        "29.02.2000 12:00:00.0000 CANExt #1 | Rx 00000123 0",
        "29.02.2000 12:00:00.0000 CANExt #1 | EXTENDED Rx 123 0",
        "29.02.2000 12:00:00.0000 CANExt #1 | Rx 123 0",
        "29.02.2000 12:00:00.0000 CAN #1 | Rx 800 0",
        "29.02.2000 12:00:00.0000 CAN #1 | Rx fff 0",
        "29.02.2000 12:00:00.0000 CAN #1 | Rx 12 0",
        "29.02.2000 12:00:00.0000 CAN #1 | Rx 0123 0",
        "29.02.2000 12:00:00.0000 CAN #1 | Rx 12g 0",
        "29.02.2000 12:00:00.0000 CANExt #1 | EXTENDED Rx 20000000 0",
        "29.02.2000 12:00:00.0000 CANExt #1 | EXTENDED Rx 018ab0001 0",
        "29.02.2000 12:00:00.0000 CANExt #1 | EXTENDED Rx 18ab000 0",
        // Words spelled otherwise.
        "29.02.2000 12:00:00.0000 can #1 | Rx 123 0",
        "29.02.2000 12:00:00.0000 CANEXT #1 | EXTENDED Rx 00000123 0",
        "29.02.2000 12:00:00.0000 CANExt #1 | Extended Rx 00000123 0",
        "29.02.2000 12:00:00.0000 CAN #1 | rx 123 0",
        "29.02.2000 12:00:00.0000 CAN #1 | RX 123 0",
        "29.02.2000 12:00:00.0000 CAN #1 | Warng 123 0",
        "29.02.2000 12:00:00.0000 CAN #1 ; Rx 123 0",
        "29.02.2000 12:00:00.0000 LIN #1 | Rx 123 0",
        // Channels.
        "29.02.2000 12:00:00.0000 CAN #00 | Rx 123 0",
        "29.02.2000 12:00:00.0000 CAN #01 | Rx 123 0",
        "29.02.2000 12:00:00.0000 CAN #17 | Rx 123 0",
        "29.02.2000 12:00:00.0000 CAN #20 | Rx 123 0",
        "29.02.2000 12:00:00.0000 CAN #100 | Rx 123 0",
        "29.02.2000 12:00:00.0000 CAN #257 | Rx 123 0",
        "29.02.2000 12:00:00.0000 CAN # | Rx 123 0",
        "29.02.2000 12:00:00.0000 CAN # 1 | Rx 123 0",
        "29.02.2000 12:00:00.0000 CAN 1 | Rx 123 0",
        "29.02.2000 12:00:00.0000 CAN #a | Rx 123 0",
        // Lengths and bytes.
        "29.02.2000 12:00:00.0000 CAN #1 | Rx 123 9 00 11 22 33 44 55 66 77 88",
        "29.02.2000 12:00:00.0000 CAN #1 | Rx 123 00",
        "29.02.2000 12:00:00.0000 CAN #1 | Rx 123 01 0a",
        "29.02.2000 12:00:00.0000 CAN #1 | Rx 123 a",
        "29.02.2000 12:00:00.0000 CAN #1 | Rx 123 1 a",
        "29.02.2000 12:00:00.0000 CAN #1 | Rx 123 1 00a",
        "29.02.2000 12:00:00.0000 CAN #1 | Rx 123 1 0g",
        "29.02.2000 12:00:00.0000 CAN #1 | Rx 123 1 0x0a",
        "29.02.2000 12:00:00.0000 CAN #1 | Rx 123 3 RTR",
        // What other files hold.
        "; a comment",
        ";$FILEVERSION=1.2",
        "1) 0.000 1 Rx 0123 2 0A FF",
        "refused 7 at line 4",
    ];
    let good = at("29.02.2000 12:00:00.0000");
    for line in lines {
        is_refused(format!("{line}\n").as_bytes(), Reason::NoAsciiLine, 1);
        let text = format!("{good}{good}{line}\r\n{good}");
        is_refused(text.as_bytes(), Reason::NoAsciiLine, 3);
    }
}

#[test]
fn dates_and_times_that_exist() {
    let days = [
        ("30.12.1899", 0),
        ("31.12.1899", 1),
        ("01.01.1900", 2),
        ("28.02.1900", 60),
        ("01.03.1900", 61),
        ("29.02.1904", 1521),
        ("01.01.1970", 25_569),
        ("29.02.2000", 36_585),
        ("30.04.2023", 45_046),
        ("31.12.2023", 45_291),
        ("28.02.2100", 73_109),
        ("01.03.2100", 73_110),
        ("13.10.2173", 99_999),
    ];
    let times = [
        ("00:00:00.0000", 0, 0),
        ("00:00:00.0009", 0, 900),
        ("09:08:07.6543", 32_887_654, 300),
        ("23:59:59.9999", 86_399_999, 900),
    ];
    for (date, day) in days {
        for (time, ms, offset) in times {
            let line = at(&format!("{date} {time}"));
            holds(&line, day * DAY + ms, &offsets([offset]));
            // And back.
            let (back, records) = read_ascii_to_vec(line.as_bytes()).unwrap();
            let lines = spelled(back.start, &records);
            assert_eq!(lines, line.as_bytes());
        }
    }
    // The last stamp that there is.
    let last = at("13.10.2173 23:59:59.9999");
    assert_eq!(
        read_ascii_to_vec(last.as_bytes()).unwrap().0.start,
        MOST_START
    );
}

#[test]
fn dates_and_times_that_do_not() {
    for date in [
        "29.12.1899",
        "30.11.1899",
        "31.12.1898",
        "30.12.0000",
        "32.12.1899",
        "14.10.2173",
        "01.11.2173",
        "01.01.2174",
        "31.12.9999",
        "29.02.1900",
        "29.02.2023",
        "29.02.2100",
        "30.02.2000",
        "31.04.2023",
        "31.06.2023",
        "31.09.2023",
        "31.11.2023",
        "32.01.2023",
        "00.01.2023",
        "01.00.2023",
        "01.13.2023",
        "1.01.2023",
        "01.1.2023",
        "01.01.23",
        "01.01.02023",
        "001.01.2023",
        "01-01-2023",
        "01.01-2023",
        "2023.01.01",
        "01.01.2023.",
        "0a.01.2023",
        "+1.01.2023",
    ] {
        let line = at(&format!("{date} 12:00:00.0000"));
        is_refused(line.as_bytes(), Reason::NoAsciiLine, 1);
        // Behind a good line too, whether the stamp would lie before it or behind it.
        let text = format!("{}{line}", at("01.01.1970 00:00:00.0000"));
        is_refused(text.as_bytes(), Reason::NoAsciiLine, 2);
    }
    for time in [
        "24:00:00.0000",
        "25:00:00.0000",
        "12:60:00.0000",
        "12:00:60.0000",
        "99:99:99.9999",
        "12:00:00",
        "12:00:00.",
        "12:00:00.000",
        "12:00:00.00000",
        "2:00:00.0000",
        "12:0:00.0000",
        "12:00:0.0000",
        "012:00:00.0000",
        "12.00:00.0000",
        "12:00.00.0000",
        "12:00:00,0000",
        "12:00:00:0000",
        "1a:00:00.0000",
        "12:00:00.000a",
    ] {
        let line = at(&format!("29.02.2000 {time}"));
        is_refused(line.as_bytes(), Reason::NoAsciiLine, 1);
    }
}

#[test]
fn stamps_before_the_first_one() {
    let first = at("29.02.2000 12:00:00.0019");
    let start = START + 1;
    // At the start of its millisecond, 0.9 ms before the first stamp, and all between.
    for tenths in 0..=9 {
        let text = format!("{first}{}", at(&format!("29.02.2000 12:00:00.001{tenths}")));
        holds(&text, start, &offsets([900, 100 * tenths]));
    }
    for stamp in [
        "29.02.2000 12:00:00.0009",
        "29.02.2000 11:59:59.9999",
        "28.02.2000 23:59:59.9999",
        "30.12.1899 00:00:00.0000",
    ] {
        let text = format!("{first}{}", at(stamp));
        is_refused(text.as_bytes(), Reason::BeforeStart, 2);
        let text = format!("{first}{first}{first}{}{first}x", at(stamp));
        is_refused(text.as_bytes(), Reason::BeforeStart, 4);
    }
    // Steps back that stay behind the start are kept as they are.
    let text = [
        "29.02.2000 12:00:00.0019",
        "29.02.2000 12:00:05.0000",
        "29.02.2000 12:00:00.0010",
        "29.02.2000 12:00:04.9999",
        "29.02.2000 12:00:04.9999",
    ];
    let text = text.map(at).concat();
    let expected = offsets([900, 4_999_000, 0, 4_998_900, 4_998_900]);
    holds(&text, start, &expected);
    let (back, records) = read_ascii_to_vec(text.as_bytes()).unwrap();
    let lines = spelled(back.start, &records);
    assert_eq!(lines, text.as_bytes());
}

#[test]
fn stamps_past_the_largest_offset() {
    // 281,474,976.7106 seconds are 3257 days, 19 hours, 29 minutes and 36.7106 seconds.
    let most = MOST_OFFSET / 100 * 100;
    assert_eq!(most, 281_474_976_710_600);
    for (first, offset) in [("00:00:00.0000", 0), ("00:00:00.0009", 900)] {
        let first = at(&format!("30.12.1899 {first}"));
        let text = format!("{first}{}", at("30.11.1908 19:29:36.7106"));
        holds(&text, 0, &offsets([offset, most]));
        for late in [
            "30.11.1908 19:29:36.7107",
            "01.12.1908 00:00:00.0000",
            "13.10.2173 23:59:59.9999",
        ] {
            let text = format!("{first}{}", at(late));
            is_refused(text.as_bytes(), Reason::OffsetTooLarge, 2);
            let text = format!("{first}{first}{}{}x\n", at(late), at(late));
            is_refused(text.as_bytes(), Reason::OffsetTooLarge, 3);
        }
    }
    // Up to the last stamp: day 96,742 lies 3257 days before it. The start is cut to the millisecond, so that the offset
    // is 0.7 ms less than the largest, or 0.3 ms more.
    let text = [
        at("12.11.2164 04:30:23.2900"),
        at("13.10.2173 23:59:59.9999"),
    ]
    .concat();
    let start = 96_742 * DAY + 16_223_290;
    holds(&text, start, &offsets([0, most - 700]));
    let text = [
        at("12.11.2164 04:30:23.2899"),
        at("13.10.2173 23:59:59.9999"),
    ]
    .concat();
    is_refused(text.as_bytes(), Reason::OffsetTooLarge, 2);
}

#[test]
fn the_earliest_line_is_given() {
    let good = at("29.02.2000 12:00:00.0000");
    let early = at("29.02.2000 11:59:59.9999");
    let late = at("01.03.2010 12:00:00.0000");
    let wrong = at("30.02.2000 12:00:00.0000");
    let reasons = [
        (&early, Reason::BeforeStart),
        (&late, Reason::OffsetTooLarge),
        (&wrong, Reason::NoAsciiLine),
    ];
    for (line, reason) in reasons {
        for (behind, _) in reasons {
            let text = format!("{good}{good}{line}{behind}{good}");
            is_refused(text.as_bytes(), reason, 3);
        }
    }
    // Without a first line there is no start: its own stamp is none that lies before or behind it.
    for line in [&early, &late] {
        assert_eq!(read_ascii_to_vec(line.as_bytes()).unwrap().0.records, 1);
    }
}

#[test]
fn without_room() {
    for len in [0, 1, 19, 20, 39] {
        let mut out = vec![0xEE; len];
        let answer = read_ascii(LINES.as_bytes(), &mut out);
        assert_eq!(answer, refused(Reason::NoRoomForRecords, 0));
        assert_eq!(out, vec![0xEE; len]);
        // What is wrong with a line comes before.
        let answer = read_ascii(format!("{LINES}x\n").as_bytes(), &mut out);
        assert_eq!(answer, refused(Reason::NoAsciiLine, 3));
    }
}

#[test]
fn as_many_lines_as_there_can_be() {
    let line = "29.02.2000 12:00:00.0000 CAN #1 | Rx 123 0\n";
    assert_eq!(line.len(), LEAST_LINE);
    let mut text = line.repeat(MOST_ROWS);
    let frame = Record {
        length: 0,
        data: [0; 8],
        ..FIRST
    };
    let (back, records) = read_ascii_to_vec(text.as_bytes()).unwrap();
    assert_eq!((back.start, back.records), (START, MOST_ROWS));
    assert!(records == packed(&[frame]).repeat(MOST_ROWS));
    let short = &mut vec![0xEE; records.len() - 1];
    let answer = read_ascii(text.as_bytes(), short);
    assert_eq!(answer, refused(Reason::NoRoomForRecords, 0));
    assert!(short.iter().all(|byte| *byte == 0xEE));
    let lines = spelled(back.start, &records);
    assert_eq!(lines.len(), MOST_ROWS * (LEAST_LINE + 1));
    assert!(read_ascii_to_vec(&lines) == Ok((back, records)));
    // A wrong line at the limit and behind it comes before the number of lines.
    for lines in [MOST_ROWS, MOST_ROWS + 1] {
        text.truncate(MOST_ROWS * LEAST_LINE);
        text.push_str(&line.repeat(lines - MOST_ROWS));
        let place = lines as u64 + 1;
        for (wrong, reason) in [
            (&line[..LEAST_LINE - 1], Reason::NoAsciiLine),
            ("\n", Reason::NoAsciiLine),
            (&at("29.02.2000 11:59:59.9999"), Reason::BeforeStart),
            (&at("01.03.2010 12:00:00.0000"), Reason::OffsetTooLarge),
        ] {
            is_refused(format!("{text}{wrong}").as_bytes(), reason, place);
        }
    }
    is_refused(text.as_bytes(), Reason::TooManyLines, 0);
    text.push_str(line);
    is_refused(text.as_bytes(), Reason::TooManyLines, 0);
}

#[test]
fn as_many_bytes_as_there_can_be() {
    let parts = ["29.02.2000", "12:00:00.0000 CAN #1 | Rx 123 2 0a ff\r\n"];
    let long = |bytes: usize| parts.join(&" ".repeat(bytes - parts.concat().len()));
    let full = MOST_TEXT / 252 - 1;
    let mut text = long(252).repeat(full);
    let rest = MOST_TEXT - text.len();
    text.push_str(&long(rest / 2));
    text.push_str(&long(rest - rest / 2));
    assert_eq!(text.len(), MOST_TEXT);
    let (back, records) = read_ascii_to_vec(text.as_bytes()).unwrap();
    assert_eq!((back.start, back.records), (START, full + 2));
    assert!(records == FIRST_PACKED.repeat(full + 2));
    // One byte more, whatever it is.
    text.push('x');
    is_refused(text.as_bytes(), Reason::TextTooLong, 0);
    is_refused(&text.as_bytes()[1..], Reason::NoAsciiLine, 1);
    is_refused(&vec![0; MOST_TEXT + 1], Reason::TextTooLong, 0);
}

#[test]
fn what_an_export_leaves_out_does_not_come_back() {
    let remote = Record {
        kind: Kind::RemoteReceived,
        data: [0; 8],
        ..FIRST
    };
    let none = Record { bus: 0, ..FIRST };
    let later = Record {
        offset: 2_000_199,
        bus: 0,
        ..SECOND
    };
    let records = packed(&[
        remote,
        Record {
            offset: 1_000_099,
            ..none
        },
        later,
        remote,
    ]);
    // The start is that of the first line, bus 0 is the channel that it was written as, and microseconds were cut off.
    for (channel, bus) in [(CHANNEL_AS_BUS, 0), (CHANNEL_AS_BENCH, 1), (7, 7)] {
        let lines = export_to_vec(START, channel, &records).unwrap().1;
        let text = String::from_utf8(lines).unwrap();
        let first = Record { bus, ..FIRST };
        let second = Record {
            offset: 1_000_100,
            bus,
            ..SECOND
        };
        holds(&text, START + 1000, &[first, second]);
    }
}

#[test]
fn an_export_that_is_refused() {
    // The records step back to before the first line.
    let records = packed(&offsets([5_000_000, 1_000_000]));
    let lines = spelled(START, &records);
    is_refused(&lines, Reason::BeforeStart, 2);
    // The stamp lies past the last day.
    let records = packed(&offsets([0, 1000]));
    let lines = spelled(MOST_START, &records);
    assert!(lines.ends_with(&at("14.10.2173 00:00:00.0000").into_bytes()));
    is_refused(&lines, Reason::NoAsciiLine, 2);
}

#[test]
fn what_comes_back_can_be_written() {
    let (back, records) = read_ascii_to_vec(LINES.as_bytes()).unwrap();
    let text = write_to_vec(12, back.start, 1, &records).unwrap();
    let expected = b";$FILEVERSION=1.2\r\n\
        ;$STARTTIME=36585.5000000000\r\n\
        1) 0.000 1 Rx 0123 2 0A FF\r\n\
        2) 1500.200 2 Tx 18AB0001 0\r\n";
    assert_eq!(text, expected);
    let (trace, again) = read_to_vec(&text).unwrap();
    assert_eq!((trace.start, again), (back.start, records));
}

#[test]
fn records_there_and_back() {
    // Numbers that come by no order, the same in every run.
    let mut state = 0x9E37_79B9_7F4A_7C15_u64;
    let mut next = |below: u64| {
        state ^= state << 13;
        state ^= state >> 7;
        state ^= state << 17;
        state % below
    };
    for _ in 0..200 {
        let start = next(MOST_START - MOST_OFFSET / 1000);
        let records: Vec<Record> = (0..50)
            .map(|k| {
                let extended = next(2) == 1;
                let length = next(9) as usize;
                let mut data = [0; 8];
                data[..length].fill_with(|| next(256) as u8);
                Record {
                    // That of the first record lies within its millisecond.
                    offset: next(if k == 0 { 10 } else { MOST_OFFSET / 100 }) * 100,
                    bus: next(17) as u8,
                    kind: Kind::of(next(2)).unwrap(),
                    extended,
                    id: next(if extended { 0x2000_0000 } else { 0x800 }) as u32,
                    length: length as u8,
                    data,
                    mark: false,
                }
            })
            .collect();
        let lines = spelled(start, &packed(&records));
        let house = String::from_utf8(lines).unwrap();
        holds(&house, start, &records);
        // All letters behind the stamps that may be capitals, more blanks, and other ends.
        let edited: String = house
            .lines()
            .map(|line| {
                let (head, tail) = line.split_once("x ").unwrap();
                let end = if next(2) == 1 { "\n" } else { "\r\n" };
                format!("{head}x {}", tail.to_uppercase()).replace(' ', "   ") + end
            })
            .collect();
        holds(&edited, start, &records);
        for record in read_ascii_to_vec(edited.as_bytes())
            .unwrap()
            .1
            .chunks(RECORD)
        {
            assert!(unpack(record).is_ok());
        }
    }
}
