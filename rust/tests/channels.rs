//! The channel that bus 0 is exported as: every one that there is, those above, and what comes back, in the plain numbers
//! of the C boundary.

use bushingowl::{
    numbers, CHANNEL_AS_BENCH, CHANNEL_AS_BUS, MOST_CHANNEL, MOST_HEADER, MOST_LINE, MOST_ROW,
    MOST_START, RECORD,
};

/// 29 February 2000, noon.
const START: u64 = 3_160_987_200_000;
/// Above the last channel. Some are a good one in their lowest 8, 32 or 63 bits.
const ABOVE: [u64; 9] = [
    MOST_CHANNEL + 1,
    100,
    256,
    (1 << 32) - 1,
    1 << 32,
    (1 << 32) + 1,
    1 << 63,
    (1 << 63) + 16,
    u64::MAX,
];

/// A data frame, received, with a standard ID and no data.
fn packed(bus: u64) -> [u8; RECORD] {
    packed_as([0, bus, 0, 0, 0x123, 0, 0, 0])
}

fn packed_as(fields: [u64; 8]) -> [u8; RECORD] {
    let mut record = [0xEE; RECORD];
    assert_eq!(numbers::pack(&fields, &mut record), [0, 0], "{fields:?}");
    record
}

/// The line of such a frame.
fn line(channel: u64) -> String {
    format!("29.02.2000 12:00:00.0000 CAN #{channel} | Rx 123 0\r\n")
}

/// Holds the export of so many data frames to these lines, and what it leaves of the output to what it held.
#[track_caller]
fn exports(channel: u64, records: &[u8], lines: &str) {
    let count = records.len() / RECORD;
    let mut out = vec![0xEE; count * MOST_LINE + 7];
    let answer = numbers::export(START, channel, records, &mut out);
    assert_eq!(answer, [0, 0, lines.len() as u64, count as u64, 0]);
    let (begin, rest) = out.split_at(lines.len());
    assert_eq!(String::from_utf8_lossy(begin), lines);
    assert!(rest.iter().all(|byte| *byte == 0xEE));
}

/// Holds a text of lines with the stamp of START to its records.
#[track_caller]
fn comes_back(text: &str, records: &[u8]) {
    let mut back = vec![0xEE; records.len()];
    let answer = numbers::read_ascii(text.as_bytes(), &mut back);
    let count = records.len() / RECORD;
    assert_eq!(answer, [0, 0, START, count as u64], "{text}");
    assert_eq!(back, records, "{text}");
}

/// Holds an export to its refusal, whatever the room, and the output to what it held.
#[track_caller]
fn is_refused(start: u64, channel: u64, records: &[u8], number: u64, place: u64) {
    for room in [0, 19, 20, 500] {
        let mut out = vec![0xEE; room];
        let answer = numbers::export(start, channel, records, &mut out);
        assert_eq!(answer, [number, place, 0, 0, 0], "{start}, {channel}");
        assert!(out.iter().all(|byte| *byte == 0xEE));
    }
}

#[test]
fn every_channel_with_every_bus() {
    for channel in 0..=16 {
        for bus in 0..=16 {
            let shown = if bus == 0 { channel } else { bus };
            exports(channel, &packed(bus), &line(shown));
            // Sent, with an extended ID and all data bytes.
            let fields = [0, bus, 1, 1, 0x18AB_0001, 8, 0x0011_2233_4455_6677, 0];
            let long = format!("29.02.2000 12:00:00.0000 CANExt #{shown} | EXTENDED Tx 18ab0001 8 00 11 22 33 44 55 66 77\r\n");
            exports(channel, &packed_as(fields), &long);
        }
        // All of them in one list, bus 0 first and last.
        let buses = || (0..=16).chain(0..=0);
        let records: Vec<u8> = buses().flat_map(packed).collect();
        let shown = buses().map(|bus| if bus == 0 { channel } else { bus });
        exports(channel, &records, &shown.map(line).collect::<String>());
    }
    assert_eq!(MOST_CHANNEL, 16);
}

#[test]
fn known_lines() {
    let records = [packed(0), packed(1), packed(16)].concat();
    let lines = "29.02.2000 12:00:00.0000 CAN #0 | Rx 123 0\r\n\
        29.02.2000 12:00:00.0000 CAN #1 | Rx 123 0\r\n\
        29.02.2000 12:00:00.0000 CAN #16 | Rx 123 0\r\n";
    exports(CHANNEL_AS_BUS, &records, lines);
    exports(CHANNEL_AS_BENCH, &records, &lines.replace("#0", "#1"));
    exports(10, &records, &lines.replace("#0", "#10"));
    exports(16, &records, &lines.replace("#0", "#16"));
}

#[test]
fn the_room_is_that_of_the_channel() {
    // Channels of two digits make the line of bus 0 a byte longer.
    for channel in 0..=16 {
        let long = line(channel);
        assert_eq!(long.len(), if channel < 10 { 44 } else { 45 });
        let mut out = vec![0xEE; long.len() - 1];
        let answer = numbers::export(START, channel, &packed(0), &mut out);
        assert_eq!(answer, [25, 0, 0, 0, 0]);
        assert!(out.iter().all(|byte| *byte == 0xEE));
        out.push(0xEE);
        let answer = numbers::export(START, channel, &packed(0), &mut out);
        assert_eq!(answer, [0, 0, long.len() as u64, 1, 0]);
        assert_eq!(out, long.as_bytes());
    }
}

#[test]
fn channels_above_the_last() {
    let remote = packed_as([0, 0, 2, 0, 0x124, 3, 0, 0]);
    let malformed = [0xFF; RECORD];
    let lists: [&[u8]; 7] = [
        // No records, one with bus 0, one without, and one that gives no line.
        &[],
        &packed(0),
        &packed(1),
        &remote,
        &[packed(1), packed(0), packed(16)].concat(),
        // 23 comes behind it, and so does 25.
        &malformed,
        &[packed(0), malformed].concat(),
    ];
    for channel in ABOVE {
        for records in lists {
            for start in [0, START, MOST_START] {
                is_refused(start, channel, records, 35, 0);
            }
        }
    }
}

#[test]
fn what_comes_before_and_behind() {
    let malformed = [packed(0), [0xFF; RECORD]].concat();
    for channel in ABOVE {
        // Bytes that are no list, first of all.
        for len in [1, 19, 21, 59] {
            is_refused(START, channel, &vec![0xFF; len], 20, 0);
            is_refused(u64::MAX, channel, &vec![0xFF; len], 20, 0);
        }
        // Then a start that is too late.
        for start in [MOST_START + 1, u64::MAX] {
            is_refused(start, channel, &[], 22, 0);
            is_refused(start, channel, &packed(0), 22, 0);
            is_refused(start, channel, &malformed, 22, 0);
        }
    }
    // With every channel that there is, the rest is refused as it was.
    for channel in 0..=16 {
        is_refused(u64::MAX, channel, &[0; 19], 20, 0);
        is_refused(MOST_START + 1, channel, &malformed, 22, 0);
        is_refused(MOST_START, channel, &malformed, 23, 2);
        let answer = numbers::export(START, channel, &packed(0), &mut [0; 20]);
        assert_eq!(answer, [25, 0, 0, 0, 0]);
        let answer = numbers::export(START, channel, &[], &mut []);
        assert_eq!(answer, [0, 0, 0, 0, 0]);
    }
}

#[test]
fn channel_0_is_bus_0() {
    let records = packed(0);
    for text in [
        "29.02.2000 12:00:00.0000 CAN #0 | Rx 123 0\r\n",
        "29.02.2000 12:00:00.0000 CAN #0 | Rx 123 0\n",
        "29.02.2000  12:00:00.0000  CAN   #0   |  Rx  123  0\n",
    ] {
        comes_back(text, &records);
    }
    exports(CHANNEL_AS_BUS, &records, &line(0));
    // As channel 1 it comes back as bus 1.
    exports(CHANNEL_AS_BENCH, &records, &line(1));
    comes_back(&line(1), &packed(1));
}

#[test]
fn every_channel_comes_back() {
    for channel in 0..=16 {
        // Bus 0 as the bus of the channel that it was exported as.
        exports(channel, &packed(0), &line(channel));
        comes_back(&line(channel), &packed(channel));
        // Every bus as itself, where bus 0 is channel 0.
        exports(CHANNEL_AS_BUS, &packed(channel), &line(channel));
    }
    // All of them in one text, as it was exported and edited.
    let records: Vec<u8> = (0..=16).flat_map(packed).collect();
    let house: String = (0..=16).map(line).collect();
    let edited = house.replace(' ', "  ").replace("\r\n", "\n");
    for text in [&house, &edited] {
        comes_back(text, &records);
    }
    exports(CHANNEL_AS_BUS, &records, &house);
}

#[test]
fn channels_that_are_none() {
    for channel in [
        "#00", "#01", "#016", "#000", "#17", "#20", "#100", "#256", "#", "#-0", "#+0", "#0x0",
        "#0.", "#0a", "#a", "##0", "0", "#0#", "#O", "# 0", "#0 0",
    ] {
        let wrong = line(0).replace("#0", channel);
        for (text, place) in [
            (wrong.clone(), 1),
            (format!("{}{wrong}{wrong}", line(0)), 2),
            (format!("{}{}{wrong}", line(0), line(16)), 3),
        ] {
            let mut out = [0xEE; 3 * RECORD];
            let answer = numbers::read_ascii(text.as_bytes(), &mut out);
            assert_eq!(answer, [31, place, 0, 0], "{text}");
            assert_eq!(out, [0xEE; 3 * RECORD]);
        }
    }
}

#[test]
fn the_version_that_carries_what_came_back() {
    // Offsets of whole 100 microseconds, the first of them behind the start.
    let at = |stamp: &str, channel| line(channel).replace("12:00:00.0000", stamp);
    let text = |first, second| at("12:00:00.0009", first) + &at("12:00:01.5002", second);
    let mut written = [0; MOST_HEADER + 2 * MOST_ROW];
    let mut write = |text: String| {
        let mut records = [0; 2 * RECORD];
        let answer = numbers::read_ascii(text.as_bytes(), &mut records);
        assert_eq!(answer, [0, 0, START, 2]);
        [11, 12].map(|version| {
            let [number, place, bytes] = numbers::write(version, START, 1, &records, &mut written);
            let text = &written[..bytes as usize];
            (number, place, String::from_utf8_lossy(text).into_owned())
        })
    };
    let refused = |place| (24, place, String::new());
    let head = |version| format!(";$FILEVERSION={version}\r\n;$STARTTIME=36585.5000000000\r\n");
    let rows = head("1.1") + "1) 0.9 Rx 0123 0\r\n2) 1500.2 Rx 0123 0\r\n";
    assert_eq!(write(text(0, 0)), [(0, 0, rows), refused(1)]);
    let rows = head("1.2") + "1) 0.900 1 Rx 0123 0\r\n2) 1500.200 16 Rx 0123 0\r\n";
    assert_eq!(write(text(1, 16)), [refused(1), (0, 0, rows)]);
    // Lines of both are carried by neither.
    assert_eq!(write(text(0, 1)), [refused(2), refused(1)]);
    assert_eq!(write(text(16, 0)), [refused(1), refused(2)]);
}

#[test]
fn two_loggers() {
    // Traces of version 1.1 have no bus: with one channel their lines are the same, with two they are not.
    let trace = b";$FILEVERSION=1.1\r\n;$STARTTIME=36585.5\r\n1) 0.0 Rx 0123 0\r\n";
    let mut records = [0; RECORD];
    let answer = numbers::read(trace, &mut records);
    assert_eq!(answer, [0, 0, 11, START, 1, 0, 1]);
    assert_eq!(records, packed(0));
    let given = [CHANNEL_AS_BENCH, 2].map(|channel| {
        exports(channel, &records, &line(channel));
        line(channel)
    });
    assert_eq!(given[0].replace("#1", "#2"), given[1]);
    comes_back(&given.concat(), &[packed(1), packed(2)].concat());
    // What has a bus is exported alike with every channel.
    let trace = b";$FILEVERSION=1.2\r\n;$STARTTIME=36585.5\r\n1) 0.000 3 Rx 0123 0\r\n";
    let answer = numbers::read(trace, &mut records);
    assert_eq!(answer, [0, 0, 12, START, 1, 0, 1]);
    for channel in 0..=16 {
        exports(channel, &records, &line(3));
    }
}
