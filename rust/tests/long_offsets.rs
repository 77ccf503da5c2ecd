//! Offsets of more than three years, up to the last that 48 bits hold and past it, in the plain numbers of the C boundary.

use bushingowl::{
    numbers, CHANNEL_AS_BENCH, CHANNEL_AS_BUS, MOST_LINE, MOST_OFFSET, MOST_START, RECORD,
};

/// 29 February 2000, noon.
const START: u64 = 3_160_987_200_000;

fn row(version: u32, number: u64, offset: &str) -> String {
    let bus = if version == 11 { "" } else { " 1" };
    format!("{number}) {offset}{bus} Rx 0123 0")
}

/// A text with rows at these offsets, as it would be written.
fn text(version: u32, offsets: &[&str]) -> String {
    let digit = version % 10;
    let head = format!(";$FILEVERSION=1.{digit}\r\n;$STARTTIME=0.0000000000\r\n");
    let rows = (1..).zip(offsets);
    rows.fold(head, |text, (number, offset)| {
        text + &row(version, number, offset) + "\r\n"
    })
}

/// The fields of such a row.
fn fields(bus: u64, offset: u64) -> [u64; 8] {
    [offset, bus, 0, 0, 0x123, 0, 0, 0]
}

fn packed(bus: u64, offset: u64) -> [u8; RECORD] {
    let mut record = [0xEE; RECORD];
    let answer = numbers::pack(&fields(bus, offset), &mut record);
    assert_eq!(answer, [0, 0], "{offset}");
    record
}

#[test]
fn rows_up_to_the_largest_offset() {
    let cases = [
        (11, "99999999999.9", 99_999_999_999_900),
        (11, "100000000000.0", 100_000_000_000_000),
        (11, "281474976710.6", 281_474_976_710_600),
        (12, "99999999999.999", 99_999_999_999_999),
        (12, "100000000000.000", 100_000_000_000_000),
        (12, "140737488355.327", (1 << 47) - 1),
        (12, "140737488355.328", 1 << 47),
        (12, "281474976710.654", MOST_OFFSET - 1),
        (12, "281474976710.655", MOST_OFFSET),
    ];
    for (version, offset, micros) in cases {
        let text = text(version, &[offset]);
        let mut record = [0xEE; RECORD];
        let answer = numbers::read(text.as_bytes(), &mut record);
        assert_eq!(answer, [0, 0, version.into(), 0, 1, 0, 1], "{offset}");
        let bus = if version == 11 { 0 } else { 1 };
        assert_eq!(record, packed(bus, micros), "{offset}");
        let mut written = vec![0xEE; text.len()];
        let answer = numbers::write(version, 0, 1, &record, &mut written);
        assert_eq!(answer, [0, 0, text.len() as u64], "{offset}");
        assert_eq!(written, text.as_bytes());
        for number in [0, 1] {
            let answer = numbers::explain(row(version, 1, offset).as_bytes(), version, number);
            assert_eq!(answer, [30, 0, 0, 0], "{offset}");
        }
    }
    // It is no whole 100 microseconds.
    let answer = numbers::write(11, 0, 1, &packed(0, MOST_OFFSET), &mut [0; 200]);
    assert_eq!(answer, [24, 1, 0]);
}

#[test]
fn rows_past_it() {
    let cases = [
        (11, "281474976710.7"),
        (11, "281474976711.0"),
        (11, "999999999999.9"),
        (11, "1000000000000.0"),
        (12, "281474976710.656"),
        (12, "281474976711.000"),
        (12, "999999999999.999"),
        (12, "1000000000000.000"),
        // 2^64 microseconds.
        (12, "18446744073709551.616"),
    ];
    for (version, offset) in cases {
        let good = if version == 11 { "0.0" } else { "0.000" };
        let texts = [
            (text(version, &[offset, good]), 3),
            (text(version, &[good, offset, offset]), 4),
        ];
        for (text, line) in texts {
            let mut out = [0xEE; 3 * RECORD];
            let answer = numbers::read(text.as_bytes(), &mut out);
            assert_eq!(answer, [7, line, 0, 0, 0, 0, 0], "{offset}");
            assert_eq!(out, [0xEE; 3 * RECORD]);
        }
        for number in [0, 1] {
            let answer = numbers::explain(row(version, 1, offset).as_bytes(), version, number);
            assert_eq!(answer, [0, 0, 1, 2], "{offset}");
        }
    }
}

#[test]
fn a_step_back_among_them() {
    let offsets = [
        "99999999999.999",
        "100000000000.000",
        "281474976710.655",
        "281474976710.654",
    ];
    let answer = numbers::read(text(12, &offsets).as_bytes(), &mut [0; 4 * RECORD]);
    assert_eq!(answer, [0, 0, 12, 0, 4, 4, 1]);
}

#[test]
fn every_bit_of_a_record() {
    let bits = (0..48).map(|bit| 1 << bit);
    let more = [99_999_999_999_999, 100_000_000_000_000, MOST_OFFSET];
    for offset in bits.chain(more) {
        let record = packed(16, offset);
        assert_eq!(record[..6], offset.to_be_bytes()[2..]);
        let answer = numbers::unpack(&record);
        assert_eq!(answer[..2], [0, 0], "{offset}");
        assert_eq!(answer[2..], fields(16, offset));
    }
    let past = (48..64).map(|bit| 1 << bit);
    for offset in past.chain([MOST_OFFSET + 2, u64::MAX]) {
        let mut out = [0xEE; RECORD];
        let answer = numbers::pack(&fields(16, offset), &mut out);
        assert_eq!(answer, [23, 1], "{offset}");
        assert_eq!(out, [0xEE; RECORD]);
    }
}

#[test]
fn the_stamps_of_an_export() {
    // 100,000,000 seconds are 1157 days and 09:46:40. The largest offset is 3257 days and 19:29:36.710655. The last start
    // lies a millisecond before 14.10.2173, and 14.09.2182 lies 3257 days behind that.
    let cases = [
        (0, 100_000_000_000_000, "02.03.1903 09:46:40.0000"),
        (0, MOST_OFFSET, "30.11.1908 19:29:36.7106"),
        (START, MOST_OFFSET, "30.01.2009 07:29:36.7106"),
        (MOST_START, MOST_OFFSET, "14.09.2182 19:29:36.7096"),
    ];
    for (start, offset, stamp) in cases {
        let line = format!("{stamp} CAN #1 | Rx 123 0\r\n");
        let mut out = [0xEE; MOST_LINE];
        let answer = numbers::export(start, CHANNEL_AS_BENCH, &packed(1, offset), &mut out);
        assert_eq!(answer, [0, 0, line.len() as u64, 1, 0], "{stamp}");
        assert_eq!(out[..line.len()], *line.as_bytes());
    }
}

#[test]
fn an_export_that_comes_back() {
    for offset in [100_000_000_000_000, MOST_OFFSET / 100 * 100] {
        let records = [packed(1, 0), packed(1, offset)].concat();
        let mut lines = [0; 2 * MOST_LINE];
        let [number, _, bytes, ..] = numbers::export(START, CHANNEL_AS_BUS, &records, &mut lines);
        assert_eq!(number, 0);
        let mut back = vec![0xEE; records.len()];
        let answer = numbers::read_ascii(&lines[..bytes as usize], &mut back);
        assert_eq!(answer, [0, 0, START, 2], "{offset}");
        assert_eq!(back, records);
    }
}
