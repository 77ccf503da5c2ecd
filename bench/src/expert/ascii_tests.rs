//! Lines of Telemotive ASCII: the two of the paper, each part on either side of its limits, and what comes of stamps, ends and room.

use super::{export, read_ascii, unpack, RECORD};

const LINES: &str = "29.02.2000 12:00:00.0000 CAN #1 | Rx 123 2 0a ff\r\n\
    29.02.2000 12:00:01.5002 CANExt #2 | EXTENDED Tx 18ab0001 0\r\n";
const START: u64 = 3_160_987_200_000;
/// What follows the stamp, if it is not what a test is about.
const REST: &str = "CAN #1 | Rx 123 0";
/// What an output holds before the call.
const BEFORE: u8 = 0xAA;

/// The answer, with room for all lines and one byte more; the output must hold what it held before where nothing is written.
fn answer(text: &str) -> [u64; 4] {
    read(text).0
}

/// The answer and the records.
fn read(text: &str) -> ([u64; 4], Vec<u8>) {
    let mut out = vec![BEFORE; text.split('\n').count() * RECORD + 1];
    let answer = read_ascii(text.as_bytes(), &mut out);
    let written = answer[3] as usize * RECORD;
    assert!(out[written..].iter().all(|&byte| byte == BEFORE));
    out.truncate(written);
    (answer, out)
}

/// The answer for a line that is refused.
fn at(number: u64, place: u64) -> [u64; 4] {
    [number, place, 0, 0]
}

/// The offset of each record.
fn offsets(records: &[u8]) -> Vec<u64> {
    let offset = |record: &[u8]| record[..6].iter().fold(0, |n, &b| n << 8 | u64::from(b));
    records.chunks(RECORD).map(offset).collect()
}

/// The bus of each record.
fn buses(records: &[u8]) -> Vec<u64> {
    unpacked(records, 3)
}

/// The mark of each record.
fn marks(records: &[u8]) -> Vec<u64> {
    unpacked(records, 9)
}

/// One of the numbers that unpacking gives, of each record.
fn unpacked(records: &[u8], number: usize) -> Vec<u64> {
    let records = records.chunks(RECORD);
    records.map(|record| unpack(record)[number]).collect()
}

/// The lines of records that all give one.
fn exported(start: u64, channel: u64, records: &[u8]) -> String {
    let count = records.len() / RECORD;
    let mut out = vec![BEFORE; 86 * count];
    let [number, place, bytes, lines, left_out] = export(start, channel, records, &mut out);
    assert_eq!([number, place, lines, left_out], [0, 0, count as u64, 0]);
    out.truncate(bytes as usize);
    String::from_utf8(out).unwrap()
}

/// Lines with these stamps.
fn stamped(stamps: &[&str]) -> String {
    let lines = stamps.iter().map(|stamp| format!("{stamp} {REST}\n"));
    lines.collect()
}

#[test]
fn lines_of_the_paper() {
    let (answer, records) = read(LINES);
    assert_eq!(answer, [0, 0, START, 2]);
    let first = [0, 0, 0, 0, 0, 0, 8, 0, 0, 4, 0x8C, 0x82, 0xBF, 0xC0];
    assert_eq!(records[..14], first);
    assert_eq!(records[14..RECORD], [0; 6]);
    // The record of the paper's row 2, but for its last 50 microseconds, which are 0x32: the export has cut them.
    let second = [
        0, 0, 0, 0x16, 0xE4, 0x28, 0x11, 0xE2, 0xAC, 0, 4, 0, 0, 0, 0, 0, 0, 0, 0, 0,
    ];
    assert_eq!(records[RECORD..], second);
    for channel in 0..=16 {
        assert_eq!(exported(START, channel, &records), LINES);
    }
}

#[test]
fn other_spellings() {
    let expected = read(LINES);
    for text in [
        LINES.replace("\r\n", "\n"),
        LINES.replacen("\r\n", "\n", 1),
        LINES.replace(' ', "  "),
        LINES.replace(' ', "   "),
        LINES.replace(' ', "          "),
        LINES.replace("0a ff", "0A FF"),
        LINES.replace("0a ff", "0A fF").replace("18ab", "18aB"),
        LINES.replace("2000 12", "2000     12"),
        LINES.replace(" | ", "  |   "),
    ] {
        assert_eq!(read(&text), expected, "{text}");
    }
}

#[test]
fn no_lines() {
    assert_eq!(answer(""), [0; 4]);
    assert_eq!(read_ascii(b"", &mut []), [0; 4]);
    for text in ["\n", "\r\n", "\r", " ", " \n", "\0", "x", ";\r\n", "\n\n"] {
        assert_eq!(answer(text), at(31, 1), "{text:?}");
    }
}

#[test]
fn parts_in_turn() {
    // Each part of both lines: others that may stand there, and others that may not.
    let date = (
        "29.02.2000",
        "30.12.1899|31.12.1899|01.01.1900|28.02.1900|01.03.1900|29.02.1904|29.02.1996|28.02.2100|29.02.2104|13.10.2173|31.12.2172",
        "29.12.1899|31.12.1898|30.11.1899|14.10.2173|01.11.2173|01.01.2174|13.10.9999|29.02.1900|29.02.2100|29.02.2001|30.02.2000|\
         31.04.2001|31.06.2001|31.09.2001|31.11.2001|00.01.2000|32.01.2000|01.00.2000|01.13.2000|01.01.0000|1.02.2000|29.2.2000|\
         29.02.00|029.02.2000|29.002.2000|29.02.02000|29-02-2000|29.02.200|29.02.200a|2a.02.2000|29.02.2000.|29022000|99.99.9999|\
         29:02:2000|2000.02.29|02.29.2000| 9.02.2000|+9.02.2000|\x009.02.2000",
    );
    let time = (
        "12:00:00.0000",
        "00:00:00.0000|23:59:59.9999|09:09:09.0001",
        "24:00:00.0000|12:60:00.0000|12:00:60.0000|99:99:99.9999|12:00:00.000|12:00:00.00000|12:00:00|12:00:00.|1:00:00.0000|\
         012:00:00.0000|12:0:00.0000|12:00:0.0000|12.00.00.0000|12:00:00,0000|12:00:00:0000|12-00-00.0000|12:00:00.000a|aa:00:00.0000|\
         -1:00:00.0000|12:00.0000|120000.0000",
    );
    let channel = (
        "#1",
        "#0|#2|#9|#10|#11|#15|#16",
        "#17|#18|#19|#20|#01|#00|#000|#016|#017|#010|#100|#160|#|1|0|##1|##0|#1#|#0#|#1.|#0.|#-1|#-0|#+1|#+0|#a|#A|#256|#257|# 1|# 0|\
         1#|0#|$1|$0|#1,|#0,|#o|#O|#/|#:|#\x00",
    );
    let bar = ("|", "", "I|l|!|:|/|#|\u{a6}|-");
    let direction = (
        "Rx",
        "Rx|Tx",
        "rx|RX|rX|tx|TX|R|T|x|Rxx|Rx.|xR|Rxd|RxTx|Warng|Error|RTR",
    );
    let length_2 = ("2", "2", "0|1|3|4|5|6|7|8|9|02|20|2.|a|A|-|+2|x|:|/");
    let byte = (
        "0a",
        "00|ff|FF|fF|Ff|A0|9f",
        "0|000|g0|0g|G0|0G|0x|0.|-1|@0|0`|:0|0:|/0|0/|\x000|RTR|0\t",
    );
    let standard: &[(&str, &str, &str)] = &[
        date,
        time,
        (
            "CAN",
            "CAN",
            "CANExt|can|Can|CAn|CA|CANN|CAN.|XCAN|CANE|CANEx|LIN|CANFD",
        ),
        channel,
        bar,
        direction,
        (
            "123",
            "000|7ff|7FF|7fF|001|0ff",
            "800|fff|FFF|0123|12|1|1234|00000123|12g|12G|g12|0x1|12.|-12|1:3|1/3|@12|1`2|EXTENDED",
        ),
        length_2,
        byte,
        byte,
    ];
    let extended: &[(&str, &str, &str)] = &[
        date,
        time,
        (
            "CANExt",
            "CANExt",
            "CAN|CANext|CANEXT|canext|CANEx|CANExtt|CANEx.|Ext|CANE|CANExt.",
        ),
        channel,
        bar,
        (
            "EXTENDED",
            "EXTENDED",
            "extended|Extended|EXTENDE|EXTENDEDD|EXT|EXTENDEd|XEXTENDED|EXTENDED.",
        ),
        direction,
        (
            "00000123",
            "00000000|000007ff|00000800|1fffffff|1FFFFFFF|1fffFFFF|12345678",
            "20000000|ffffffff|FFFFFFFF|80000000|123|0123|0000123|000000123|1ffffff|1fffffff0|0000012g|g0000123|0x000123|0000_123|7ff",
        ),
        length_2,
        byte,
        byte,
    ];
    for parts in [standard, extended] {
        let line: Vec<&str> = parts.iter().map(|part| part.0).collect();
        let spelled = |line: &[&str]| format!("{}\n", line.join(" "));
        assert_eq!(answer(&spelled(&line)), [0, 0, START, 1]);
        for (place, (_, good, bad)) in parts.iter().enumerate() {
            let mut other = line.clone();
            for word in good.split('|').filter(|word| !word.is_empty()) {
                other[place] = word;
                let [number, _, _, records] = answer(&spelled(&other));
                assert_eq!((number, records), (0, 1), "{other:?}");
            }
            for word in bad.split('|') {
                other[place] = word;
                assert_eq!(answer(&spelled(&other)), at(31, 1), "{other:?}");
                let text = format!("{LINES}{}", spelled(&other));
                assert_eq!(answer(&text), at(31, 3), "{other:?}");
            }
            let mut lost = line.clone();
            lost.remove(place);
            assert_eq!(answer(&spelled(&lost)), at(31, 1), "{lost:?}");
            let mut doubled = line.clone();
            doubled.insert(place, line[place]);
            assert_eq!(answer(&spelled(&doubled)), at(31, 1), "{doubled:?}");
            assert_eq!(answer(&spelled(&line[..place])), at(31, 1), "{place}");
        }
    }
}

/// Lines of this channel, in each form and with each end.
fn of_channel(channel: &str) -> String {
    let stamp = "29.02.2000 12:00:00.0000";
    format!(
        "{stamp} CAN #{channel} | Rx 123 0\r\n{stamp} CANExt #{channel} | EXTENDED Tx 00000123 0\n\
         {stamp} CAN  #{channel}  | Tx 123 1 00\n{stamp} CANExt #{channel} |  EXTENDED Rx 00000123 1 00\r\n"
    )
}

#[test]
fn channels() {
    for channel in 0..=16 {
        let text = of_channel(&channel.to_string());
        let (answer, records) = read(&text);
        assert_eq!(answer, [0, 0, START, 4]);
        assert_eq!(buses(&records), [channel; 4]);
    }
    for channel in (17..=300).chain([1 << 8, 1 << 16, 1 << 32, 1 << 63, u64::MAX]) {
        assert_eq!(answer(&of_channel(&channel.to_string())), at(31, 1));
    }
    for zeros in ["0", "00", "000"] {
        for channel in 0..=20 {
            let text = of_channel(&format!("{zeros}{channel}"));
            assert_eq!(answer(&text), at(31, 1), "{text}");
        }
    }
}

#[test]
fn bus_0_there_and_back() {
    let text: String = (0..=16).map(|bus| of_channel(&bus.to_string())).collect();
    let (answer, records) = read(&text);
    assert_eq!(answer, [0, 0, START, 4 * 17]);
    let house = text.replace("  ", " ").replace('\r', "");
    let house = house.replace('\n', "\r\n");
    for channel in 0..=16 {
        let lines = exported(START, channel, &records);
        assert_eq!(lines, house.replace("#0 ", &format!("#{channel} ")));
        let (again, others) = read(&lines);
        assert_eq!(again, answer);
        let expected = (0..=16).flat_map(|bus| [if bus == 0 { channel } else { bus }; 4]);
        assert_eq!(buses(&others), expected.collect::<Vec<u64>>());
        assert_eq!(others == records, channel == 0);
    }
}

#[test]
fn as_many_bytes_as_the_length_says() {
    for (id, digits) in [("CAN #1 |", "7ff"), ("CANExt #16 | EXTENDED", "1FFFFFFF")] {
        for length in 0..=9 {
            for bytes in 0..=10 {
                let data = " 5a".repeat(bytes);
                for end in ["\n", "\r\n"] {
                    let line = format!("30.12.1899 00:00:00.0000 {id} Tx {digits} {length}{data}");
                    let expected = match bytes == length && length <= 8 {
                        true => [0, 0, 0, 1],
                        false => at(31, 1),
                    };
                    assert_eq!(answer(&format!("{line}{end}")), expected, "{line}");
                    // A next line is not taken for data, and the data of one line not for that of another.
                    let two = format!("{line}{end}{line}{end}");
                    let expected = match expected {
                        [0, ..] => [0, 0, 0, 2],
                        refused => refused,
                    };
                    assert_eq!(answer(&two), expected, "{line}");
                }
            }
        }
    }
}

#[test]
fn data_past_the_length_is_zero() {
    let stamp = "30.12.1899 00:00:00.0000";
    let eight = format!("{stamp} CAN #1 | Rx 7ff 8 11 22 33 44 55 66 77 88\n");
    let three = format!("{stamp} CAN #1 | Rx 7ff 3 11  22 FF\r\n");
    let (_, records) = read(&format!("{eight}{three}"));
    // Six bytes of offset; 00001 000, 0 and 29 bits of ID, 1000 or 0011, then the data from bit 90 on.
    let number = |record: &[u8]| {
        record[6..18]
            .iter()
            .fold(0_u128, |n, &b| n << 8 | u128::from(b))
    };
    let head = 0b1_000 << 34 | 0x7FF << 4;
    let data = 0x1122_3344_5566_7788_u128;
    assert_eq!(number(&records), head << 54 | 8 << 54 | data >> 10);
    let data = 0x1122_FF00_0000_0000_u128;
    assert_eq!(
        number(&records[RECORD..]),
        head << 54 | 3 << 54 | data >> 10
    );
}

#[test]
fn blanks() {
    let line = "29.02.2000 12:00:00.0000 CANExt #2 | EXTENDED Tx 18ab0001 1 00";
    for end in ["\n", "\r\n"] {
        for text in [format!(" {line}{end}"), format!("{line} {end}")] {
            assert_eq!(answer(&text), at(31, 1), "{text}");
        }
        for (place, _) in line.match_indices(' ') {
            let (before, after) = (&line[..place], &line[place + 1..]);
            for other in ["", "\t", "\0", "_", "\u{b}", "\u{a0}", " \t", "\t ", " \0 "] {
                let text = format!("{before}{other}{after}{end}");
                assert_eq!(answer(&text), at(31, 1), "{text:?}");
            }
            // So many blanks that the line has 250 bytes, and one more.
            for (bytes, expected) in [
                (66, [0, 0, START, 1]),
                (249, [0, 0, START, 1]),
                (250, [0, 0, START, 1]),
                (251, at(31, 1)),
                (252, at(31, 1)),
                (300, at(31, 1)),
                (1000, at(31, 1)),
            ] {
                let blanks = " ".repeat(bytes - line.len() + 1);
                let text = format!("{before}{blanks}{after}{end}");
                assert_eq!(answer(&text), expected, "{text}");
                let more = format!("{text}{LINES}");
                let expected = match expected {
                    [0, ..] => [0, 0, START, 3],
                    refused => refused,
                };
                assert_eq!(answer(&more), expected, "{text}");
            }
        }
        for place in 0..line.len() {
            // A blank within a part, also within `#2`.
            let (before, after) = line.split_at(place);
            if !before.ends_with(' ') && !after.starts_with(' ') {
                let text = format!("{before} {after}{end}");
                assert_eq!(answer(&text), at(31, 1), "{text}");
            }
        }
    }
}

#[test]
fn ends() {
    let line = "29.02.2000 12:00:00.0000 CAN #1 | Rx 123 1 0a";
    let one = [0, 0, START, 1];
    for (end, expected) in [
        ("\n", one),
        ("\r\n", one),
        ("", at(31, 1)),
        ("\r", at(31, 1)),
        ("\n\r", at(31, 2)),
        ("\r\r\n", at(31, 1)),
        ("\r \n", at(31, 1)),
        (" \r\n", at(31, 1)),
        ("\0\n", at(31, 1)),
        ("\n\n", at(31, 2)),
        ("\r\n\n", at(31, 2)),
        ("\r\n\r\n", at(31, 2)),
        ("\n ", at(31, 2)),
        ("\n\0", at(31, 2)),
        ("\r\n29.02", at(31, 2)),
        ("\u{85}", at(31, 1)),
        ("\u{b}\n", at(31, 1)),
        ("\u{1a}", at(31, 1)),
    ] {
        assert_eq!(answer(&format!("{line}{end}")), expected, "{end:?}");
    }
    for place in 0..line.len() {
        for odd in ["\r", "\n", "\r\n"] {
            let (before, after) = line.split_at(place);
            let text = format!("{before}{odd}{after}\n");
            assert_eq!(answer(&text), at(31, 1), "{text:?}");
        }
        assert_eq!(
            answer(&line[..place]),
            if place == 0 { [0; 4] } else { at(31, 1) }
        );
    }
    let text = format!("{line}\n{line}\r\n{line}");
    assert_eq!(answer(&text), at(31, 3));
    assert_eq!(answer(&format!("{text}\n{line}\r{line}\n")), at(31, 4));
}

#[test]
fn stamps_around_the_start() {
    // The start is cut to the millisecond: 0.9 ms before the first stamp is not before it.
    let (answer_, records) = read(&stamped(&[
        "29.02.2000 12:00:00.0019",
        "29.02.2000 12:00:00.0010",
        "29.02.2000 12:00:00.0019",
        "29.02.2000 12:00:00.0020",
        "01.03.2000 12:00:00.0010",
    ]));
    assert_eq!(answer_, [0, 0, START + 1, 5]);
    assert_eq!(offsets(&records), [900, 0, 900, 1000, 86_400_000_000]);
    assert_eq!(marks(&records), [0, 1, 0, 0, 0]);
    for (second, number) in [
        ("29.02.2000 12:00:00.0009", 32),
        ("29.02.2000 12:00:00.0000", 32),
        ("29.02.2000 11:59:59.9999", 32),
        ("28.02.2000 23:59:59.9999", 32),
        ("30.12.1899 00:00:00.0000", 32),
        ("29.12.1899 23:59:59.9999", 31),
    ] {
        let text = stamped(&["29.02.2000 12:00:00.0019", second]);
        assert_eq!(answer(&text), at(number, 2), "{second}");
        // The last good stamp is not the start, and a later line does not count.
        let text = stamped(&[
            "29.02.2000 12:00:00.0019",
            "29.02.2000 13:00:00.0000",
            "29.02.2000 12:00:00.0010",
            second,
            "31.02.2000 12:00:00.0000",
        ]);
        assert_eq!(answer(&text), at(number, 4), "{second}");
    }
    assert_eq!(
        answer(&stamped(&["30.12.1899 00:00:00.0000"])),
        [0, 0, 0, 1]
    );
    assert_eq!(
        answer(&stamped(&["30.12.1899 00:00:00.0009"])),
        [0, 0, 0, 1]
    );
    assert_eq!(
        answer(&stamped(&["30.12.1899 00:00:00.0010"])),
        [0, 0, 1, 1]
    );
    let last = [0, 0, 8_639_999_999_999, 1];
    assert_eq!(answer(&stamped(&["13.10.2173 23:59:59.9999"])), last);
    assert_eq!(answer(&stamped(&["14.10.2173 00:00:00.0000"])), at(31, 1));
}

#[test]
fn marks_where_stamps_go_back() {
    // Every four of four stamps in the millisecond of the start, in which the first line may have any of them; and the same behind a first one.
    for list in 0..256 {
        let steps = [0, 2, 4, 6].map(|shift| list >> shift & 3);
        let below = |two: &[u64]| u64::from(two[1] < two[0]);
        let expected: Vec<u64> = [0].into_iter().chain(steps.windows(2).map(below)).collect();
        let near = steps.map(|step| format!("29.02.2000 12:00:00.000{step}"));
        let (answer, records) = read(&stamped(&near.each_ref().map(String::as_str)));
        assert_eq!(answer, [0, 0, START, 4]);
        assert_eq!(offsets(&records), steps.map(|step| step * 100));
        assert_eq!(marks(&records), expected, "{steps:?}");
        assert_eq!(exported(START, 0, &records).lines().count(), 4);
        // 01:00:00.0000 to 04:00:00.0000, behind midnight.
        let far = steps.map(|step| format!("01.03.2000 0{}:00:00.0000", step + 1));
        let text = format!("{LINES}{}", stamped(&far.each_ref().map(String::as_str)));
        let (answer, records) = read(&text);
        assert_eq!(answer, [0, 0, START, 6]);
        assert_eq!(marks(&records)[..3], [0, 0, 0]);
        assert_eq!(marks(&records)[3..], expected[1..], "{steps:?}");
    }
}

#[test]
fn marks_of_lines_are_checked_by_the_export() {
    let text = stamped(&[
        "29.02.2000 12:00:00.0005",
        "29.02.2000 12:00:00.0000",
        "29.02.2000 12:00:00.0000",
        "29.02.2000 12:00:00.0001",
    ]);
    let (_, records) = read(&text);
    assert_eq!(marks(&records), [0, 1, 0, 0]);
    assert_eq!(exported(START, 0, &records), text.replace('\n', "\r\n"));
    for record in 0..4 {
        let mut turned = records.clone();
        turned[record * RECORD + RECORD - 1] ^= 32;
        let mut out = [BEFORE; 4 * 86];
        let answer = export(START, 0, &turned, &mut out);
        assert_eq!(answer, [23, record as u64 + 1, 0, 0, 0]);
        assert_eq!(out, [BEFORE; 4 * 86]);
    }
}

#[test]
fn offsets_at_the_limit() {
    // 281,474,976,710,600 microseconds are 3257 days, 19:29:36.7106.
    let first = "30.12.1899 00:00:00.0000";
    let text = stamped(&[
        first,
        "02.03.1903 09:46:40.0000",
        "30.11.1908 19:29:36.7106",
    ]);
    let (answer_, records) = read(&text);
    assert_eq!(answer_, [0, 0, 0, 3]);
    let expected = [0, 100_000_000_000_000, 281_474_976_710_600];
    assert_eq!(offsets(&records), expected);
    for second in [
        "30.11.1908 19:29:36.7107",
        "01.12.1908 00:00:00.0000",
        "13.10.2173 23:59:59.9999",
    ] {
        assert_eq!(answer(&stamped(&[first, second])), at(33, 2), "{second}");
    }
    assert_eq!(
        answer(&stamped(&[first, "14.10.2173 00:00:00.0000"])),
        at(31, 2)
    );
    // What is cut from the first stamp is part of the offset.
    let first = "30.12.1899 00:00:00.0009";
    let text = stamped(&[first, "30.11.1908 19:29:36.7106"]);
    assert_eq!(answer(&text), [0, 0, 0, 2]);
    let text = stamped(&[first, "30.11.1908 19:29:36.7107"]);
    assert_eq!(answer(&text), at(33, 2));
    let first = "30.12.1899 00:00:00.0010";
    let text = stamped(&[first, "30.11.1908 19:29:36.7116"]);
    assert_eq!(answer(&text), [0, 0, 1, 2]);
    let text = stamped(&[first, "30.11.1908 19:29:36.7117"]);
    assert_eq!(answer(&text), at(33, 2));
}

#[test]
fn the_earliest_line_counts() {
    let [first, before, far] = [
        "01.01.1901 00:00:00.0000",
        "31.12.1900 00:00:00.0000",
        "01.01.1999 00:00:00.0000",
    ];
    let bad = "01.01.1901 24:00:00.0000";
    for (stamps, number, place) in [
        ([first, before, far, bad], 32, 2),
        ([first, far, before, bad], 33, 2),
        ([first, bad, far, before], 31, 2),
        ([bad, first, before, far], 31, 1),
        ([first, first, far, before], 33, 3),
        ([first, first, first, before], 32, 4),
        ([far, first, before, bad], 32, 2),
        ([before, first, bad, far], 31, 3),
    ] {
        assert_eq!(answer(&stamped(&stamps)), at(number, place));
        // Also if there is no room.
        let text = stamped(&stamps);
        assert_eq!(read_ascii(text.as_bytes(), &mut []), at(number, place));
    }
    // A line that is over 250 bytes, or not ended, is 31 whatever its stamp.
    let long = format!(
        "{}{}\n",
        stamped(&[first]),
        stamped(&[before]).trim().replacen(' ', &" ".repeat(250), 1)
    );
    assert_eq!(answer(&long), at(31, 2));
    let text = stamped(&[first, far]);
    assert_eq!(answer(text.trim_end()), at(31, 2));
}

#[test]
fn room() {
    for (room, number) in [(0, 8), (1, 8), (20, 8), (39, 8), (40, 0), (41, 0), (60, 0)] {
        let mut out = vec![BEFORE; room];
        let [given, place, start, records] = read_ascii(LINES.as_bytes(), &mut out);
        let expected = match number {
            0 => [0, 0, START, 2],
            _ => at(8, 0),
        };
        assert_eq!([given, place, start, records], expected);
        let written = records as usize * RECORD;
        assert!(out[written..].iter().all(|&byte| byte == BEFORE));
    }
}

#[test]
fn as_many_lines_as_there_may_be() {
    let line = stamped(&["29.02.2000 12:00:00.0000"]);
    let most = line.repeat(999_999);
    let mut out = vec![BEFORE; 1_000_001 * RECORD];
    let mut number = |text: &str| read_ascii(text.as_bytes(), &mut out);
    assert_eq!(number(&most), [0, 0, START, 999_999]);
    assert_eq!(number(&format!("{most}{line}")), at(34, 0));
    assert_eq!(number(&format!("{most}{line}{line}")), at(34, 0));
    assert_eq!(number(&format!("{most}x")), at(31, 1_000_000));
    assert_eq!(number(&format!("{most}{line}\n")), at(31, 1_000_001));
    let before = stamped(&["29.02.2000 11:00:00.0000"]);
    assert_eq!(number(&format!("{most}{line}{before}")), at(32, 1_000_001));
    let far = stamped(&["28.02.2010 11:00:00.0000"]);
    assert_eq!(number(&format!("{most}{far}")), at(33, 1_000_000));
    let more = format!("{most}{line}");
    assert_eq!(read_ascii(more.as_bytes(), &mut []), at(34, 0));
    assert_eq!(read_ascii(most.as_bytes(), &mut []), at(8, 0));
}

#[test]
fn as_many_bytes_as_there_may_be() {
    let line = "29.02.2000 12:00:00.0000 CAN #1 | Rx 123 0";
    let long = format!(
        "{}\r\n",
        line.replacen(' ', &" ".repeat(251 - line.len()), 1)
    );
    assert_eq!(long.len(), 252);
    // 532,610 lines of 252 bytes leave 8; so the last two have 128 and 132.
    let mut text = long.repeat(532_609);
    for bytes in [128, 132] {
        let blanks = " ".repeat(bytes - 1 - line.len() + 1);
        text += &format!("{}\n", line.replacen(' ', &blanks, 1));
    }
    assert_eq!(text.len(), 134_217_728);
    let mut out = vec![BEFORE; 532_611 * RECORD];
    let mut number = |text: &str| read_ascii(text.as_bytes(), &mut out);
    assert_eq!(number(&text), [0, 0, START, 532_611]);
    text += "\n";
    assert_eq!(number(&text), at(1, 0));
    text.replace_range(..1, "x");
    assert_eq!(number(&text), at(1, 0));
    text.pop();
    assert_eq!(number(&text), at(31, 1));
}
