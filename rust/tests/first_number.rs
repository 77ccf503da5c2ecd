//! Traces that start in the middle: the number of the first row, read and written.

use bushingowl::{
    numbers, pack, read, read_to_vec, write, write_to_vec, Kind, Read, Reason, Record, Refused,
    MOST_ROWS, RECORD,
};

const SELECTION: &[u8] = include_bytes!("../../samples/selection.trc");
const HEAD: &str = ";$FILEVERSION=1.1\r\n;$STARTTIME=36585.5\r\n";
const START: u64 = 3_160_987_200_000;

/// A row of version 1.1.
fn row(number: &str) -> String {
    format!("{number} 2.5 Rx 07FF 0\r\n")
}

/// The rows with these numbers behind lines 1 and 2.
fn text(numbers: &[u64]) -> String {
    let rows: Vec<String> = numbers.iter().map(|n| row(&format!("{n})"))).collect();
    format!("{HEAD}{}", rows.concat())
}

/// The packed record of such a row, so many times.
fn records(count: usize) -> Vec<u8> {
    let frame = Record {
        offset: 2500,
        bus: 0,
        kind: Kind::DataReceived,
        extended: false,
        id: 0x7FF,
        length: 0,
        data: [0; 8],
        mark: false,
    };
    let mut packed = [0; RECORD];
    pack(&frame, &mut packed).unwrap();
    packed.repeat(count)
}

fn held(first: u64, rows: usize) -> Read {
    Read {
        version: 11,
        start: START,
        rows,
        step_back: None,
        first,
    }
}

fn refused<T>(reason: Reason, place: u64) -> Result<T, Refused> {
    Err(Refused { reason, place })
}

#[test]
fn may_be_any_from_1_to_999_999() {
    for first in [1, 2, 9, 10, 4117, 99_999, 100_000, 999_998, 999_999] {
        let one = read_to_vec(text(&[first]).as_bytes());
        assert_eq!(one, Ok((held(first, 1), records(1))), "{first}");
        let two = read_to_vec(text(&[first, first + 1]).as_bytes());
        if first < 999_999 {
            assert_eq!(two, Ok((held(first, 2), records(2))), "{first}");
        } else {
            assert_eq!(two, refused(Reason::NoRow, 4));
        }
    }
}

#[test]
fn is_spelled_as_any_row_number_is() {
    for number in [
        "0)",
        "1000000)",
        "10000000)",
        "01)",
        "04117)",
        "00)",
        "+1)",
        "-1)",
        "1",
        "1 )",
        "1))",
        ")",
        "1.",
        "1:",
        "A)",
        "4,117)",
        "18446744073709551617)",
    ] {
        let text = format!("{HEAD}{}", row(number));
        let answer = read_to_vec(text.as_bytes());
        assert_eq!(answer, refused(Reason::NoRow, 3), "{number}");
    }
    let blanks = format!("{HEAD}   4117)   2.5   Rx   07ff   0  \r\n");
    let answer = read_to_vec(blanks.as_bytes());
    assert_eq!(answer, Ok((held(4117, 1), records(1))));
}

#[test]
fn is_followed_by_one_more_each() {
    // A gap, a repeat, numbers that go back or count from 1: in the second row, and in the third.
    for next in [4119, 4117, 4116, 2, 1, 0] {
        let answer = read_to_vec(text(&[4117, next]).as_bytes());
        assert_eq!(answer, refused(Reason::NoRow, 4), "{next}");
    }
    for next in [4120, 4118, 4117, 3, 1, 0] {
        let answer = read_to_vec(text(&[4117, 4118, next, 4119]).as_bytes());
        assert_eq!(answer, refused(Reason::NoRow, 5), "{next}");
    }
    let answer = read_to_vec(text(&[4117, 4118, 4119, 4120]).as_bytes());
    assert_eq!(answer, Ok((held(4117, 4), records(4))));
    // More digits than before.
    let answer = read_to_vec(text(&[9, 10, 11]).as_bytes());
    assert_eq!(answer, Ok((held(9, 3), records(3))));
    let answer = read_to_vec(text(&[99_999, 100_000]).as_bytes());
    assert_eq!(answer, Ok((held(99_999, 2), records(2))));
}

#[test]
fn is_0_without_rows() {
    for comments in ["", ";\r\n", "; 4117) 2.5 Rx 07FF 0\r\n;\r\n"] {
        let text = format!("{HEAD}{comments}");
        assert_eq!(read(text.as_bytes(), &mut []), Ok(held(0, 0)));
        let numbers = numbers::read(text.as_bytes(), &mut []);
        assert_eq!(numbers, [0, 0, 11, START, 0, 0, 0]);
    }
}

#[test]
fn is_that_of_a_row_and_not_of_a_comment() {
    let (a, b) = (row("4117)"), row("4118)"));
    for text in [
        format!("{HEAD};\r\n{a}{b}"),
        format!("{HEAD}; 1) 2.5 Rx 07FF 0\r\n;\r\n{a}; 9)\r\n{b};\r\n"),
    ] {
        let answer = read_to_vec(text.as_bytes());
        assert_eq!(answer, Ok((held(4117, 2), records(2))));
        let numbers = numbers::read(text.as_bytes(), &mut [0; 40]);
        assert_eq!(numbers, [0, 0, 11, START, 2, 0, 4117]);
    }
    let text = format!("{HEAD};\r\n{a};\r\n{a}");
    assert_eq!(read_to_vec(text.as_bytes()), refused(Reason::NoRow, 6));
}

#[test]
fn with_few_rows_up_to_the_last_number() {
    let three = text(&[999_997, 999_998, 999_999]);
    let answer = read_to_vec(three.as_bytes());
    assert_eq!(answer, Ok((held(999_997, 3), records(3))));
    // Only comments may follow.
    let more = format!("{three};\r\n");
    let answer = read_to_vec(more.as_bytes());
    assert_eq!(answer, Ok((held(999_997, 3), records(3))));
    for next in ["1000000)", "999999)", "1)", "0)"] {
        let more = format!("{three};\r\n{}", row(next));
        let answer = read_to_vec(more.as_bytes());
        assert_eq!(answer, refused(Reason::NoRow, 7), "{next}");
    }
}

#[test]
fn does_not_move_the_first_step_back() {
    let rows = "4117) 1.0 Rx 07FF 0\r\n4118) 2.0 Rx 07FF 0\r\n4119) 1.9 Rx 07FF 0\r\n";
    let trace = read_to_vec(format!("{HEAD}{rows}").as_bytes()).unwrap().0;
    // The third row, whose number is 4119.
    assert_eq!(
        (trace.first, trace.rows, trace.step_back),
        (4117, 3, Some(3))
    );
}

#[test]
fn is_written() {
    let cases = [
        (1, 1, "1) 2.5 Rx 07FF 0\r\n"),
        (4117, 2, "4117) 2.5 Rx 07FF 0\r\n4118) 2.5 Rx 07FF 0\r\n"),
        (
            9,
            3,
            "9) 2.5 Rx 07FF 0\r\n10) 2.5 Rx 07FF 0\r\n11) 2.5 Rx 07FF 0\r\n",
        ),
        (999_999, 1, "999999) 2.5 Rx 07FF 0\r\n"),
        (0, 0, ""),
    ];
    for (first, count, rows) in cases {
        let house = format!(";$FILEVERSION=1.1\r\n;$STARTTIME=36585.5000000000\r\n{rows}");
        let records = records(count);
        let written = write_to_vec(11, START, first, &records);
        assert_eq!(written, Ok(house.clone().into_bytes()));
        // One byte less than that, and as many.
        let mut out = vec![0xEE; house.len()];
        let answer = write(11, START, first, &records, &mut out[1..]);
        assert_eq!(answer, refused(Reason::NoRoom, 0));
        assert_eq!(out, vec![0xEE; house.len()]);
        let answer = write(11, START, first, &records, &mut out);
        assert_eq!(answer, Ok(house.len()));
        assert_eq!(out, house.as_bytes());
    }
}

#[test]
fn is_refused_where_it_does_not_fit() {
    let few = [
        // No records: 0 alone.
        (0, 0, true),
        (1, 0, false),
        (2, 0, false),
        (999_999, 0, false),
        (1_000_000, 0, false),
        (u64::MAX, 0, false),
        // One: 1 to 999,999.
        (0, 1, false),
        (1, 1, true),
        (999_999, 1, true),
        (1_000_000, 1, false),
        (u64::MAX, 1, false),
        // Three: the last row's number is two more.
        (0, 3, false),
        (1, 3, true),
        (999_997, 3, true),
        (999_998, 3, false),
        (999_999, 3, false),
        (u64::MAX - 2, 3, false),
        (u64::MAX - 1, 3, false),
        (u64::MAX, 3, false),
    ];
    // As many as there can be, and one less.
    let many = [
        (0, MOST_ROWS, false),
        (1, MOST_ROWS, true),
        (2, MOST_ROWS, false),
        (u64::MAX, MOST_ROWS, false),
        (0, MOST_ROWS - 1, false),
        (1, MOST_ROWS - 1, true),
        (2, MOST_ROWS - 1, true),
        (3, MOST_ROWS - 1, false),
    ];
    for (first, rows, fits) in [&few[..], &many].concat() {
        let records = records(rows);
        for version in [11, 12] {
            let answer = write(version, START, first, &records, &mut []);
            // Without room, and of a bus that version 1.2 can't carry: what comes behind 26.
            let expected = match (fits, version) {
                (false, _) => refused(Reason::WrongFirstNumber, 0),
                (true, 12) if rows > 0 => refused(Reason::NotCarried, 1),
                (true, _) => refused(Reason::NoRoom, 0),
            };
            assert_eq!(answer, expected, "{first} and {rows} rows");
        }
        match write_to_vec(11, START, first, &records) {
            Ok(text) => {
                assert!(fits, "{first} and {rows} rows");
                let again = read_to_vec(&text);
                assert!(again == Ok((held(first, rows), records)));
            }
            Err(refused) => {
                assert!(!fits, "{first} and {rows} rows");
                assert_eq!((refused.number(), refused.place), (26, 0));
            }
        }
    }
}

#[test]
fn is_passed_on_from_reading_to_writing() {
    let (trace, packed) = read_to_vec(SELECTION).unwrap();
    assert_eq!(
        (trace.first, trace.rows, trace.step_back),
        (4117, 6, Some(5))
    );
    let written = trace.write_to_vec(&packed).unwrap();
    let expected = b";$FILEVERSION=1.2\r\n\
        ;$STARTTIME=45231.4166666667\r\n\
        4117) 52318.204 1 Rx 18FEDF00 8 2E D9 1E 3F 72 1F CB 19\r\n\
        4118) 52326.950 1 Tx 0CF00300 8 25 30 BB 1D 6D 13 2C DE\r\n\
        4119) 52331.007 2 Rx 0751 4 2B 14 00 40\r\n\
        4120) 52344.611 1 Warng FFFFFFFF 4 00 00 00 08\r\n\
        4121) 52344.598 2 Tx 01D8 3 RTR\r\n\
        4122) 52360.120 1 Rx 18FEDF00 8 44 94 D6 49 3C 9D 5C 34\r\n";
    assert_eq!(written, expected);
    assert_eq!(read_to_vec(&written), Ok((trace, packed.clone())));
    let mut out = vec![0xEE; written.len()];
    let answer = trace.write(&packed, &mut out[1..]);
    assert_eq!(answer, refused(Reason::NoRoom, 0));
    assert_eq!(trace.write(&packed, &mut out), Ok(written.len()));
    assert_eq!(out, written);
    for numbers in [
        &[][..],
        &[1],
        &[2, 3],
        &[4117, 4118, 4119],
        &[999_998, 999_999],
    ] {
        let (trace, records) = read_to_vec(text(numbers).as_bytes()).unwrap();
        let written = trace.write_to_vec(&records).unwrap();
        assert_eq!(read_to_vec(&written), Ok((trace, records)));
    }
}

#[test]
fn is_kept_with_other_records_where_it_fits() {
    let (trace, _) = read_to_vec(text(&[999_998]).as_bytes()).unwrap();
    let two = text(&[999_998, 999_999]).replace("36585.5", "36585.5000000000");
    assert_eq!(trace.write_to_vec(&records(2)), Ok(two.into_bytes()));
    for count in [0, 3] {
        let answer = trace.write_to_vec(&records(count));
        assert_eq!(answer, refused(Reason::WrongFirstNumber, 0));
        let answer = trace.write(&records(count), &mut [0; 300]);
        assert_eq!(answer, refused(Reason::WrongFirstNumber, 0));
    }
    let (trace, _) = read_to_vec(text(&[]).as_bytes()).unwrap();
    let answer = trace.write_to_vec(&records(1));
    assert_eq!(answer, refused(Reason::WrongFirstNumber, 0));
}
