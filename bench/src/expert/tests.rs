//! The small trace of the paper, its limits that are spelled in a row, the channels of an export, and what is wrong with lines that are none.

use super::{explain, export, pack, read, unpack, write, LAST_START, RECORD};

const TEXT: &str = ";$FILEVERSION=1.2\r\n;$STARTTIME=36585.5\r\n\
    1) 0.000 1 Rx 0123 2 0A FF\r\n\
    2) 1500.250 2 Tx 18AB0001 0\r\n\
    3) 1500.249 1 Rx 0124 3 RTR\r\n";
const LINES: &str = "29.02.2000 12:00:00.0000 CAN #1 | Rx 123 2 0a ff\r\n\
    29.02.2000 12:00:01.5002 CANExt #2 | EXTENDED Tx 18ab0001 0\r\n";
const START: u64 = 3_160_987_200_000;
/// The largest offset: all 48 bits.
const LAST_OFFSET: u64 = (1 << 48) - 1;
/// Channels that there are not; of most of them the lower bits are one.
const NO_CHANNELS: [u64; 14] = [
    17,
    18,
    31,
    32,
    33,
    255,
    256,
    257,
    1 << 16,
    1 << 32,
    1 << 32 | 16,
    1 << 63,
    1 << 63 | 1,
    u64::MAX,
];
/// What an output holds before the call.
const BEFORE: u8 = 0xAA;

#[test]
fn small_trace() {
    let mut records = [0xAA; 3 * RECORD];
    let read = read(TEXT.as_bytes(), &mut records);
    assert_eq!(read, [0, 0, 12, START, 3, 3, 1]);
    let first = [0, 0, 0, 0, 0, 0, 8, 0, 0, 4, 0x8C, 0x82, 0xBF, 0xC0];
    assert_eq!(records[..14], first);
    assert_eq!(records[14..RECORD], [0; 6]);
    // Only row 3 steps back.
    let marks = records.chunks(RECORD).map(|record| unpack(record)[9]);
    assert_eq!(marks.collect::<Vec<u64>>(), [0, 0, 1]);

    let written = TEXT.replace("36585.5", "36585.5000000000");
    let mut out = vec![0; written.len()];
    let len = out.len() as u64;
    assert_eq!(write(12, START, 1, &records, &mut out), [0, 0, len]);
    assert_eq!(out, written.as_bytes());

    // None of the records has bus 0.
    for channel in 0..=16 {
        let mut out = vec![0; LINES.len()];
        let len = out.len() as u64;
        let exported = export(START, channel, &records, &mut out);
        assert_eq!(exported, [0, 0, len, 2, 1]);
        assert_eq!(out, LINES.as_bytes());
    }
}

#[test]
fn limits_of_a_row() {
    for (taken, refused) in [
        ("1) 0.000 1 Rx 07FF 0", "1) 0.000 1 Rx 0800 0"),
        ("1) 0.000 1 Rx 1fffffff 0", "1) 0.000 1 Rx 20000000 0"),
        ("1) 0.000 16 Tx 0000 0", "1) 0.000 17 Tx 0000 0"),
        ("1) 0.000 1 Rx 0000 8 RTR", "1) 0.000 1 Rx 0000 9 RTR"),
        ("1) 0.000 1 Rx 0000 0", "1) 0.000 1 Rx 0000 0 00"),
        (
            "1) 281474976710.655 1 Rx 0000 0",
            "1) 281474976710.656 1 Rx 0000 0",
        ),
        (
            "1) 0.000 1 Error 0008 4 01 0F 00 00",
            "1) 0.000 1 Error 0008 4 01 10 00 00",
        ),
        (
            "1) 0.000 1 Warng FFFFFFFF 4 00 00 00 08 AB",
            "1) 0.000 1 Warng FFFFFFF 4 00 00 00 08 AB",
        ),
        (" 1)  0.000  1  Rx  0000  1  0a ", "0) 0.000 1 Rx 0000 1 0a"),
        ("999999) 0.000 1 Rx 0000 0", "1000000) 0.000 1 Rx 0000 0"),
        ("4117) 0.000 1 Rx 0000 0", "04117) 0.000 1 Rx 0000 0"),
    ] {
        for (row, number) in [(taken, 0), (refused, 7)] {
            assert_eq!(number_of(row), number, "{row}");
        }
    }
    assert_eq!(number_of(&format!("{:250}", "1) 0.000 1 Rx 0000 0")), 0);
    assert_eq!(number_of(&format!("{:251}", "1) 0.000 1 Rx 0000 0")), 3);
    assert_eq!(number_of("1) 0.000 1 Rx 0000 0\r"), 2);
}

/// The number given for a trace of one row.
fn number_of(row: &str) -> u64 {
    let text = format!(";$FILEVERSION=1.2\r\n;$STARTTIME=0.0\r\n{row}\r\n");
    read(text.as_bytes(), &mut [0; RECORD])[0]
}

/// The offset of a row in which it is spelled so, if it is one. It must be written as it was read, and be explained alike.
fn offset_of(version: u32, spelled: &str) -> Option<u64> {
    let begun = format!("1) {spelled}");
    let bus = if version == 12 { " 1" } else { "" };
    let row = format!("{begun}{bus} Rx 0123 0");
    let head = format!(";$FILEVERSION=1.{}\r\n", version - 10);
    let text = format!("{head};$STARTTIME=0.0000000000\r\n{row}\r\n");
    let explained = [begun, row].map(|line| explain(line.as_bytes(), version, 1));
    let mut record = [0; RECORD];
    let answer = read(text.as_bytes(), &mut record);
    if answer[..2] == [7, 3] {
        assert_eq!(explained, [wrong(2), wrong(2)], "{text}");
        return None;
    }
    assert_eq!(answer, [0, 0, u64::from(version), 0, 1, 0, 1], "{text}");
    assert_eq!(explained, [early(2), ROW], "{text}");
    let mut out = vec![0; text.len()];
    let len = out.len() as u64;
    assert_eq!(write(version, 0, 1, &record, &mut out), [0, 0, len]);
    assert_eq!(out, text.as_bytes());
    Some(unpack(&record)[2])
}

#[test]
fn offsets_of_rows() {
    for (spelled, offset) in [
        ("99999999999.999", Some(99_999_999_999_999)),
        ("100000000000.000", Some(100_000_000_000_000)),
        ("140737488355.327", Some((1 << 47) - 1)),
        ("140737488355.328", Some(1 << 47)),
        ("281474976709.999", Some(281_474_976_709_999)),
        ("281474976710.655", Some(LAST_OFFSET)),
        ("281474976710.656", None),
        ("281474976710.999", None),
        ("281474976711.000", None),
        ("281475976710.000", None),
        ("999999999999.999", None),
        ("1000000000000.000", None),
        ("2814749767106.550", None),
        ("0281474976710.655", None),
        ("18446744073709551.616", None),
    ] {
        assert_eq!(offset_of(12, spelled), offset, "{spelled}");
        let tenths = &spelled[..spelled.len() - 2];
        let offset = match tenths {
            // What of the limit is below a tenth is not spelled.
            "281474976710.6" => Some(281_474_976_710_600),
            _ => offset.map(|offset| offset - offset % 100),
        };
        assert_eq!(offset_of(11, tenths), offset, "{tenths}");
    }
    assert_eq!(offset_of(11, "281474976710.7"), None);
}

#[test]
fn offsets_of_records() {
    let fields = |offset| [offset, 1, 0, 0, 0x123, 0, 0, 0];
    for offset in [0, (1 << 47) - 1, 1 << 47, LAST_OFFSET - 1, LAST_OFFSET] {
        let mut record = [0xAA; RECORD];
        assert_eq!(pack(&fields(offset), &mut record), [0, 0]);
        assert_eq!(record[..6], offset.to_be_bytes()[2..]);
        assert_eq!(unpack(&record)[..3], [0, 0, offset]);
    }
    for bit in 48..64 {
        for offset in [1 << bit, 1 << bit | 1, 1 << bit | LAST_OFFSET] {
            let mut record = [0xAA; RECORD];
            assert_eq!(pack(&fields(offset), &mut record), [23, 1]);
            assert_eq!(record, [0xAA; RECORD]);
        }
    }
}

#[test]
fn longest_row() {
    let row = "999999) 281474976710.655 16 Tx 1FFFFFFF 8 00 11 22 33 44 55 66 77";
    assert_eq!(row.len(), 65);
    let text = format!(";$FILEVERSION=1.2\r\n;$STARTTIME=99999.9999999884\r\n{row}\r\n");
    let mut record = [0; RECORD];
    let answer = read(text.as_bytes(), &mut record);
    assert_eq!(answer, [0, 0, 12, LAST_START, 1, 0, 999_999]);
    let mut out = vec![0; text.len()];
    let len = out.len() as u64;
    let written = write(12, LAST_START, 999_999, &record, &mut out);
    assert_eq!(written, [0, 0, len]);
    assert_eq!(out, text.as_bytes());
}

#[test]
fn last_stamps() {
    // The largest offset is 3,257 days, 19:29:36.710655. The last start is one millisecond before day 100,000, which is 14.10.2173; so the last
    // stamp lies in day 103,257: nine years behind 13.10.2173, with two leap days, are 3,287 days, and 29 fewer are 3,258.
    for (start, stamp) in [
        (0, "30.11.1908 19:29:36.7106"),
        (START, "30.01.2009 07:29:36.7106"),
        (LAST_START, "14.09.2182 19:29:36.7096"),
    ] {
        let mut record = [0; RECORD];
        pack(&[LAST_OFFSET, 16, 1, 0, 0x7FF, 0, 0, 0], &mut record);
        let line = format!("{stamp} CAN #16 | Tx 7ff 0\r\n");
        let mut out = vec![0; line.len()];
        let len = out.len() as u64;
        assert_eq!(export(start, 0, &record, &mut out), [0, 0, len, 1, 0]);
        assert_eq!(out, line.as_bytes());
    }
}

/// A record of a bus, without data where its kind may have none.
fn record(bus: u64, kind: u64, extended: u64) -> [u8; RECORD] {
    let [id, length, data] = match kind {
        4 => [0, 4, 0],
        5 => [1, 4, 2 << 48],
        _ => [0x123, 0, 0],
    };
    let mut record = [0; RECORD];
    let fields = [0, bus, kind, extended, id, length, data, 0];
    assert_eq!(pack(&fields, &mut record), [0, 0]);
    record
}

/// The answer of an export from start 0, and the lines. Nothing but these is written, just as much room is enough, and one byte less is not.
fn exported(channel: u64, records: &[u8]) -> ([u64; 5], String) {
    let mut out = [BEFORE; 8000];
    let answer = export(0, channel, records, &mut out);
    let len = answer[2] as usize;
    assert!(out[len..].iter().all(|&byte| byte == BEFORE));
    let mut just = vec![BEFORE; len];
    assert_eq!(export(0, channel, records, &mut just), answer);
    assert_eq!(just, out[..len]);
    if len > 0 {
        let mut short = vec![BEFORE; len - 1];
        let refused = export(0, channel, records, &mut short);
        assert_eq!(refused, [25, 0, 0, 0, 0]);
        assert_eq!(short, vec![BEFORE; len - 1]);
    }
    (answer, String::from_utf8(just).unwrap())
}

/// The line of a data frame that was sent.
fn line(channel: u64, extended: u64) -> String {
    let rest = match extended {
        0 => format!("CAN #{channel} | Tx 123 0\r\n"),
        _ => format!("CANExt #{channel} | EXTENDED Tx 00000123 0\r\n"),
    };
    format!("30.12.1899 00:00:00.0000 {rest}")
}

#[test]
fn channel_of_each_bus() {
    for channel in 0..=16 {
        let mut records = Vec::new();
        let mut lines = String::new();
        for (bus, extended) in (0..=16).flat_map(|bus| [(bus, 0), (bus, 1)]) {
            let shown = if bus == 0 { channel } else { bus };
            let (record, line) = (record(bus, 1, extended), line(shown, extended));
            let len = line.len() as u64;
            let alone = exported(channel, &record);
            assert_eq!(alone, ([0, 0, len, 1, 0], line.clone()));
            records.extend(record);
            lines += &line;
        }
        let len = lines.len() as u64;
        assert_eq!(exported(channel, &records), ([0, 0, len, 34, 0], lines));
    }
}

#[test]
fn channel_of_what_gives_no_line() {
    for channel in 0..=16 {
        assert_eq!(exported(channel, &[]), ([0; 5], String::new()));
        let others: Vec<u8> = (2..=5).flat_map(|kind| record(0, kind, 0)).collect();
        let answer = [0, 0, 0, 0, 4];
        assert_eq!(exported(channel, &others), (answer, String::new()));
        let between = [others.clone(), record(0, 1, 1).to_vec(), others].concat();
        let line = line(channel, 1);
        let answer = [0, 0, line.len() as u64, 1, 8];
        assert_eq!(exported(channel, &between), (answer, line));
    }
}

#[test]
fn no_channels() {
    let buses = |kind: u64| move |bus: u64| record(bus, kind, 0);
    let lists: [Vec<u8>; 6] = [
        Vec::new(),
        record(0, 0, 0).to_vec(),
        record(0, 2, 1).to_vec(),
        (1..=16).flat_map(buses(1)).collect(),
        (1..=16).flat_map(buses(4)).collect(),
        (0..=16).flat_map(buses(1)).collect(),
    ];
    for list in &lists {
        assert_eq!(exported(16, list).0[0], 0);
        for channel in NO_CHANNELS {
            for room in [0, 1, 42, 44, 8000] {
                let mut out = vec![BEFORE; room];
                assert_eq!(export(0, channel, list, &mut out), [35, 0, 0, 0, 0]);
                assert!(out.iter().all(|&byte| byte == BEFORE));
            }
        }
    }
}

#[test]
fn refusals_of_an_export_in_turn() {
    let good = [record(0, 1, 0), record(3, 0, 1)].concat();
    // Bus 17; so the second record is not well formed.
    let mut bad = good.clone();
    bad[RECORD + 6] = 17 << 3;
    let cut = &good[..2 * RECORD - 1];
    let late = [LAST_START + 1, u64::MAX];
    for (list, number, place) in [(&*good, 25, 0), (&*bad, 23, 2), (cut, 20, 0), (&[1], 20, 0)] {
        for channel in (0..=16).chain(NO_CHANNELS) {
            for start in [0, LAST_START].into_iter().chain(late) {
                let (number, place) = match number {
                    20 => (20, 0),
                    _ if start > LAST_START => (22, 0),
                    _ if channel > 16 => (35, 0),
                    _ => (number, place),
                };
                let mut out = [BEFORE; 44];
                let answer = export(start, channel, list, &mut out);
                assert_eq!(answer, [number, place, 0, 0, 0]);
                assert_eq!(out, [BEFORE; 44]);
            }
        }
    }
    for (channel, number) in [(16, 0), (17, 35)] {
        assert_eq!(export(LAST_START, channel, &[], &mut [])[0], number);
        assert_eq!(export(LAST_START + 1, channel, &[], &mut [])[0], 22);
    }
}

/// Version 1.1 with rows of these numbers, comments between them, and offsets that fall.
fn numbered(numbers: &[&str]) -> String {
    let mut text = ";$FILEVERSION=1.1\r\n;$STARTTIME=0.0\r\n".to_string();
    for (row, number) in numbers.iter().enumerate() {
        text += &format!(
            ";{row}) 0.0 Rx 0123 0\r\n  {number}) {}.0 Rx 0123 0\r\n",
            9 - row
        );
    }
    text
}

#[test]
fn first_numbers() {
    let answer = |numbers: &[&str]| read(numbered(numbers).as_bytes(), &mut [0; 4 * RECORD]);
    assert_eq!(answer(&[]), [0, 0, 11, 0, 0, 0, 0]);
    for first in [1, 2, 9, 4117, 999_998] {
        let [one, two] = [first, first + 1].map(|number: u64| number.to_string());
        assert_eq!(answer(&[&one]), [0, 0, 11, 0, 1, 0, first]);
        assert_eq!(answer(&[&one, &two]), [0, 0, 11, 0, 2, 2, first]);
        let last = [first - 1, first, first + 2].map(|number| number.to_string());
        for other in [&last[0], &last[1], &last[2], "1", "0", "1000000"] {
            if *other != two {
                assert_eq!(answer(&[&one, other]), [7, 6, 0, 0, 0, 0, 0]);
            }
        }
    }
    assert_eq!(answer(&["999999"]), [0, 0, 11, 0, 1, 0, 999_999]);
    for next in ["1000000", "999999", "999998", "0", "1"] {
        assert_eq!(answer(&["999999", next]), [7, 6, 0, 0, 0, 0, 0]);
    }
    for number in ["0", "00", "01", "04117", "1000000", "", "+1", "-1"] {
        assert_eq!(answer(&[number]), [7, 4, 0, 0, 0, 0, 0], "{number}");
    }
}

#[test]
fn first_numbers_written() {
    let text = numbered(&["4117", "4118", "4119"]);
    let mut records = [0; 3 * RECORD];
    read(text.as_bytes(), &mut records);
    let mut out = [0; 1000];
    let mut written = |first, rows: usize| {
        let [number, place, bytes] = write(11, 0, first, &records[..rows * RECORD], &mut out);
        assert_eq!(place, 0);
        match number {
            0 => Ok(read(&out[..bytes as usize], &mut [0; 3 * RECORD])),
            _ => Err((number, bytes)),
        }
    };
    assert_eq!(written(0, 0), Ok([0, 0, 11, 0, 0, 0, 0]));
    for first in [1, 2, 8, 4117, 999_997] {
        assert_eq!(written(first, 3), Ok([0, 0, 11, 0, 3, 2, first]));
        assert_eq!(written(first, 0), Err((26, 0)));
    }
    assert_eq!(written(999_999, 1), Ok([0, 0, 11, 0, 1, 0, 999_999]));
    let far = [1_000_000, 1 << 32 | 1, u64::MAX - 1, u64::MAX];
    for first in [0, 999_998, 999_999].into_iter().chain(far) {
        assert_eq!(written(first, 3), Err((26, 0)));
    }
    // 22 comes before it, and 23 behind.
    let mut bad = records;
    bad[2 * RECORD - 1] = 1;
    assert_eq!(write(11, START * 3, 0, &bad, &mut out), [22, 0, 0]);
    assert_eq!(write(11, START, 0, &bad, &mut out), [26, 0, 0]);
    assert_eq!(write(11, START, 4117, &bad, &mut out), [23, 2, 0]);
}

const ROW: [u64; 4] = [30, 0, 0, 0];

fn wrong(field: u64) -> [u64; 4] {
    [0, 0, 1, field]
}

fn early(field: u64) -> [u64; 4] {
    [0, 0, 2, field]
}

/// The answer for row 7 of version 1.2.
fn seventh(line: &str) -> [u64; 4] {
    explain(line.as_bytes(), 12, 7)
}

#[test]
fn fields_in_turn() {
    // Each field of each kind: others that may stand there, and others that may not.
    let number = ("7)", "7)", "6)|8)|07)|7|)|7))|7).|77)|0)|-7)|+7)|1)|7]");
    let offset = (
        "0.000",
        "0.000|9.999|4294967296.000|99999999999.999|100000000000.000|281474976710.655",
        "0.0|0.00|0.0000|.000|00.000|01.000|0,000|0.|0|0.00A|A.000|-0.000|0.000.|281474976710.656|1000000000000.000",
    );
    let bus = ("1", "1|2|9|10|16", "0|01|17|20|100|1.|A|-1|256");
    let frame_id = (
        "0123",
        "0000|07FF|07ff|00000000|000007FF|1FFFFFFF|1fffFFFF",
        "0800|FFFF|123|00123|0000123|000000123|20000000|FFFFFFFF|012G|0x12|012.|\u{e9}12",
    );
    let byte = (
        "0A",
        "00|FF|ff|fF|a0",
        "0|000|G0|0G|0x|0.|RT|RTR0|-1|@0|0`|0g",
    );
    let four = ("4", "4", "0|3|5|8|04|4.|40|RTR");
    let first_byte = ("0A", "00|FF|RTR", "0|000|G0|rtr|RTR0|RT|AB0");
    let columns: &[&[(&str, &str, &str)]] = &[
        &[
            number,
            offset,
            bus,
            (
                "Rx",
                "Rx|Tx",
                "rx|RX|R|Rxx|tx|Warn|Warnng|warng|Warng.|error|ERROR|Errors|RTR|0|x",
            ),
            frame_id,
            ("2", "1|2|3|8", "9|02|2.|A|-|22|RTR"),
            first_byte,
            byte,
        ],
        &[
            number,
            offset,
            bus,
            ("Warng", "Warng", "Warn|WARNG|Warnng|warng|Warnga"),
            (
                "FFFFFFFF",
                "FFFFFFFF|ffffffff|FfFfFfFf",
                "FFFFFFF|FFFFFFFFF|FFFFFFFE|EFFFFFFF|1FFFFFFF|FFFF|07FF",
            ),
            four,
            byte,
            byte,
            byte,
            byte,
        ],
        &[
            number,
            offset,
            bus,
            ("Error", "Error", "error|Err|Errorr"),
            (
                "0001",
                "0001|0002|0004|0008",
                "0000|0003|0009|0010|000A|0080|07FF|1|00000001|FFFFFFFF",
            ),
            four,
            ("00", "00|01", "02|10|0|1|001|FF|RTR"),
            (
                "02",
                "02|0F|0f|11|12|13|17|18|19|1A|1b|1C",
                "00|01|10|14|15|16|1D|1F|20|FF|2|002",
            ),
            byte,
            byte,
        ],
    ];
    for columns in columns {
        let row: Vec<&str> = columns.iter().map(|column| column.0).collect();
        assert_eq!(seventh(&row.join(" ")), ROW);
        for (at, (_, good, bad)) in columns.iter().enumerate() {
            let before = row[..at].join(" ");
            assert_eq!(seventh(&before), early(at as u64), "{before}");
            for field in good.split('|') {
                let line = format!("{before} {field}");
                let ended = matches!(seventh(&line), ROW | [0, 0, 2, _]);
                assert!(ended, "{line}");
            }
            for field in bad.split('|') {
                let i = at as u64 + 1;
                let after = row[at + 1..].join(" ");
                let line = format!("{before} {field}");
                assert_eq!(seventh(&line), wrong(i), "{line}");
                let line = format!("  {before}  {field}   {after} ");
                assert_eq!(seventh(&line), wrong(i), "{line}");
            }
        }
    }
}

#[test]
fn as_many_bytes_as_the_length_says() {
    for length in 0..=8 {
        let row = format!("7) 0.000 1 Tx 1FFFFFFF {length}");
        let remote = seventh(&format!("{row} RTR"));
        assert_eq!(remote, ROW);
        assert_eq!(seventh(&format!("{row} RTR RTR")), wrong(8));
        assert_eq!(seventh(&format!("{row} RTR 00")), wrong(8));
        for bytes in 0..12 {
            let line = format!("{row}{}", " 5a".repeat(bytes));
            let expected = match bytes {
                _ if bytes < length => early(6 + bytes as u64),
                _ if bytes == length => ROW,
                _ => wrong(7 + length as u64),
            };
            assert_eq!(seventh(&line), expected, "{line}");
            if bytes > 0 {
                let line = format!("{line} RTR");
                let expected = wrong(7 + bytes.min(length) as u64);
                assert_eq!(seventh(&line), expected, "{line}");
            }
        }
    }
}

#[test]
fn words_of_warnings() {
    let row = "7) 0.000 1 Warng FFFFFFFF 4 00 00 00 08";
    for words in [
        "",
        " ",
        " A",
        "  AB   RTR ",
        " A B C D E F G H",
        " BUSLIGHT Z",
    ] {
        assert_eq!(seventh(&format!("{row}{words}")), ROW);
    }
    for (words, field) in [
        (" Ab", 11),
        (" aB", 11),
        (" 00", 11),
        (" A0", 11),
        (" A A A z A", 14),
        (" A  A\tA", 12),
        (" A @", 12),
        (" A [", 12),
        (" A ;", 12),
        (" \0", 11),
        ("A", 10),
    ] {
        assert_eq!(seventh(&format!("{row}{words}")), wrong(field), "{words}");
    }
    // Error frames and data frames have none.
    assert_eq!(seventh("7) 0.000 1 Error 0001 4 00 02 00 00 A"), wrong(11));
    assert_eq!(seventh("7) 0.000 1 Rx 0001 4 00 02 00 00 A"), wrong(11));
    for many in [1_usize, 63, 64, 65, 1000, 5000] {
        let words = " A".repeat(many);
        assert_eq!(seventh(&format!("{row}{words}")), ROW);
        let (line, last) = (format!("{row}{words} b"), 11 + many as u64);
        assert_eq!(seventh(&line), wrong(last));
        let word = "Q".repeat(many);
        assert_eq!(seventh(&format!("{row} {word} {word}")), ROW);
        assert_eq!(seventh(&format!("{row} {word} {word}q A")), wrong(12));
    }
}

#[test]
fn columns_of_version_one_one() {
    let first = |line: &str| explain(line.as_bytes(), 11, 999_999);
    let row = "999999) 0.0 Rx 0123 1 0A";
    for (fields, end) in [7, 11, 14, 19, 21].into_iter().enumerate() {
        assert_eq!(first(&row[..end]), early(fields as u64 + 1));
    }
    assert_eq!(first(row), ROW);
    assert_eq!(first(&format!("{row} 00")), wrong(7));
    assert_eq!(first("999999) 0.000 1 Rx 0123 1 0A"), wrong(2));
    assert_eq!(first("999999) 0.0 1 Rx 0123 1 0A"), wrong(3));
    assert_eq!(explain(row.as_bytes(), 12, 999_999), wrong(2));
    assert_eq!(
        first("999999) 0.0 Warng FFFFFFFF 4 00 00 00 08 X y"),
        wrong(11)
    );
    assert_eq!(first("999999) 0.0 Error 0008 4 01 10"), wrong(7));
}

#[test]
fn refused_and_comments() {
    let row = "7) 0.000 1 Rx 0123 0";
    for version in [0, 1, 10, 13, 20, 256 + 12, u32::MAX] {
        for (line, number) in [(row, 7), (row, 0), ("", 1), (";", u64::MAX), ("\r", 1)] {
            assert_eq!(explain(line.as_bytes(), version, number), [21, 0, 0, 0]);
        }
    }
    for number in [1_000_000, 1 << 32 | 7, u64::MAX] {
        for line in [row, "", "x", ";$", "0) 0.000 1 Rx 0123 0"] {
            assert_eq!(explain(line.as_bytes(), 12, number), [30, 0, 0, 0]);
        }
    }
    for number in [1, 6, 8, 70, 999_999] {
        assert_eq!(explain(row.as_bytes(), 12, number), wrong(1));
    }
    let first = |line: &str| explain(line.as_bytes(), 12, 0);
    for number in [1, 7, 4117, 999_999] {
        assert_eq!(first(&format!("{number}) 0.000 1 Rx 0123 0")), ROW);
        assert_eq!(first(&format!("{number}) 0.000 17 Rx 0123 0")), wrong(3));
        assert_eq!(first(&format!("{number})")), early(1));
    }
    for number in ["0", "01", "04117", "1000000", ""] {
        assert_eq!(first(&format!("{number}) 0.000 1 Rx 0123 0")), wrong(1));
    }
    for (line, answer) in [("", early(0)), (";", ROW), ("\r", ROW), (";$", wrong(1))] {
        assert_eq!(first(line), answer, "{line}");
    }
    for line in [";", ";;", ";  ", "; a$", ";\t$", "; ;$", ";7) 0.000", ";\0"] {
        assert_eq!(seventh(line), [30, 0, 0, 0], "{line}");
    }
    for line in [";$", ";$X", ";  $X", " ;", " ; a", "x;", "$", "\t;", "\0"] {
        assert_eq!(seventh(line), wrong(1), "{line}");
    }
    for line in [
        "x\r",
        "x\n",
        "\r\n",
        " \n ",
        "7) 0.000\r",
        "7)\n0.000",
        "\ry",
        ";$\r",
    ] {
        assert_eq!(seventh(line), [30, 0, 0, 0], "{line}");
    }
    for blanks in [0, 1, 2, 63, 64, 65, 250, 251, 5000] {
        let blanks = " ".repeat(blanks);
        assert_eq!(seventh(&blanks), early(0));
        assert_eq!(seventh(&format!("{blanks}7){blanks}")), early(1));
        assert_eq!(seventh(&format!("{blanks}{row}{blanks}")), ROW);
        assert_eq!(
            seventh(&format!("{blanks}{row}{blanks}x")),
            match blanks.len() {
                0 => wrong(6),
                _ => wrong(7),
            }
        );
    }
    assert_eq!(seventh("7)\t0.000 1 Rx 0123 0"), wrong(1));
    assert_eq!(seventh("7) 0.000 1 Rx 0123 0\t"), wrong(6));
}
