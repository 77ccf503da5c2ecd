//! What is wrong with a refused line, whatever its number.

use bushingowl::{
    fault_of_ascii, fault_of_record, fault_of_trace, pack, read, read_ascii, read_to_vec, write,
    Fault, Kind, Reason, Record, Refused, LINE_LIMIT, MOST_TEXT, RECORD,
};

const HEAD: &str = ";$FILEVERSION=1.2\r\n;$STARTTIME=36585.5\r\n";

/// The fault of a text that is refused with this number. No room is needed for it.
#[track_caller]
fn fault(text: &[u8], number: u64) -> Fault<'_> {
    let refused = read(text, &mut []).unwrap_err();
    let shown = String::from_utf8_lossy(text);
    assert_eq!(refused.number(), number, "{shown}");
    let fault = fault_of_trace(text, refused, &mut []).unwrap_or_else(|| panic!("{shown}"));
    assert_eq!(fault.line, refused.place);
    fault
}

/// Holds why a text is refused with this number, and what of its line is wrong.
#[track_caller]
fn holds(text: &[u8], number: u64, why: &str, wrong: &[u8]) {
    let fault = fault(text, number);
    assert_eq!(fault.why, why);
    let shown = String::from_utf8_lossy(&fault.bytes[fault.place.clone()]);
    assert_eq!(shown, String::from_utf8_lossy(wrong), "{why}");
}

#[test]
fn of_a_line_that_is_not_ended() {
    for (end, why) in [
        ("", "the file ends within it"),
        ("\n", "it ends with LF alone"),
        ("\n\r\n", "it ends with LF alone"),
        ("\r", "it ends with CR alone, and there the file ends"),
        ("\r;", "it ends with CR alone"),
        ("\r\r\n", "it ends with CR alone"),
        ("\r;\n", "it ends with CR alone"),
    ] {
        for (before, line, number) in [("", "x", 1), (HEAD, "1) 0.0", 3)] {
            let text = format!("{before}{line}{end}");
            let fault = fault(text.as_bytes(), 2);
            assert_eq!((fault.why.as_str(), fault.line), (why, number), "{end:?}");
            assert_eq!(fault.bytes, line.as_bytes());
            assert_eq!(fault.place, line.len()..line.len());
            assert_eq!(fault.expected, "CR LF");
        }
    }
}

#[test]
fn of_a_line_that_is_too_long() {
    for (length, why) in [(251, "it has 251 bytes"), (12_345, "it has 12,345 bytes")] {
        let line = format!(";{}", "x".repeat(length - 1));
        let text = format!("{HEAD}{line}\r\n;\r\n");
        let fault = fault(text.as_bytes(), 3);
        assert_eq!((fault.why.as_str(), fault.line), (why, 3));
        assert_eq!(fault.bytes, line.as_bytes());
        assert_eq!(fault.place, LINE_LIMIT..length);
        assert_eq!(fault.expected, "at most 250 bytes before CR LF");
    }
}

#[test]
fn of_line_1_tells_a_wrong_version_from_what_stands_before_it() {
    let good = "version \"1.1\" is good, and what stands before it is not";
    let cases: [(&[u8], &str, &[u8]); 10] = [
        (b"", "the file is empty", b""),
        (b"\r\n", "no version was found", b""),
        (b"hello\r\n", "no version was found", b"hello"),
        (
            b"\xEF\xBB\xBF;$FILEVERSION=1.1\r\n",
            "a byte order mark stands before it",
            b"\xEF\xBB\xBF",
        ),
        (b"\xFF\xFE;\r\n", "the file is UTF-16", b"\xFF\xFE"),
        (b"\xFE\xFF;\r\n", "the file is UTF-16", b"\xFE\xFF"),
        (
            b";$FILEVERSION=1.3\r\n",
            "version \"1.3\" was found",
            b"1.3",
        ),
        (
            b";$FILEVERSION=1.1 1.2\r\n",
            "version \"1.1 1.2\" was found",
            b"1.1 1.2",
        ),
        (b"x;$FILEVERSION=1.1\r\n", good, b"x;$FILEVERSION="),
        (b" ; $fileversion=1.1\r\n", good, b" ; $fileversion="),
    ];
    for (text, why, wrong) in cases {
        holds(text, 4, why, wrong);
        assert_eq!(
            fault(text, 4).expected,
            ";$FILEVERSION=1.1 or ;$FILEVERSION=1.2"
        );
    }
}

#[test]
fn of_line_2_tells_a_wrong_start_from_what_stands_before_it() {
    let good = "start \"0.5\" is good, and what stands before it is not";
    let expected = ";$STARTTIME= with days of 1 to 5 digits, a point and 1 to 10 digits, up to 99999.9999999942";
    for (line, why, wrong) in [
        ("", "there is none", ""),
        ("\r\n", "there is none", ""),
        ("hello\r\n", "no start was found", "hello"),
        (";$STARTTIME=0,5\r\n", "start \"0,5\" was found", "0,5"),
        (";$STARTTIME=\r\n", "start \"\" was found", ""),
        (
            ";$STARTTIME=99999.9999999943\r\n",
            "start \"99999.9999999943\" was found",
            "99999.9999999943",
        ),
        ("$STARTTIME=0.5\r\n", good, "$STARTTIME="),
        ("x;$StartTime=0.5\r\n", good, "x;$StartTime="),
    ] {
        let text = format!(";$FILEVERSION=1.1\r\n{line}");
        holds(text.as_bytes(), 5, why, wrong.as_bytes());
        assert_eq!(fault(text.as_bytes(), 5).expected, expected);
    }
    // The last start that is named there is the last one that is taken.
    let last = ";$FILEVERSION=1.1\r\n;$STARTTIME=99999.9999999942\r\n";
    assert_eq!(
        read_to_vec(last.as_bytes()).unwrap().0.start,
        bushingowl::MOST_START
    );
}

#[test]
fn of_a_comment_with_a_dollar() {
    let text = format!("{HEAD};\r\n;  $COLUMNS=N,$\r\n");
    let fault = fault(text.as_bytes(), 6);
    assert_eq!((fault.line, fault.place), (4, 3..4));
    assert_eq!(fault.bytes, b";  $COLUMNS=N,$");
    assert_eq!(fault.why, "only lines 1 and 2 may have it there");
    assert_eq!(
        fault.expected,
        "a comment with another letter first, or a row"
    );
}

#[test]
fn of_a_row_and_of_ascii_are_those_of_the_explanations() {
    let text = format!("{HEAD}1) 0.000 1 Rx 0123 0\r\n2) 0.000 1 Rx 0123 9\r\n");
    let text = text.as_bytes();
    let refused = read(text, &mut []).unwrap_err();
    let row = bushingowl::explain_refusal(text, refused).unwrap();
    let fault = fault_of_trace(text, refused, &mut [0; RECORD]).unwrap();
    assert_eq!(
        (fault.line, fault.bytes, fault.place),
        (4, row.bytes, row.place())
    );
    assert_eq!(
        (fault.why, fault.expected),
        (row.to_string(), row.expected())
    );
    // Room is needed for the rows before.
    assert_eq!(fault_of_trace(text, refused, &mut [0; RECORD - 1]), None);
    let text = b"29.02.2000 12:00:00.0000 CAN #1 | Rx 123 0\n29.02.2000 12:00:00.0000 CAN #17 | Rx 123 0\n";
    let refused = read_ascii(text, &mut []).unwrap_err();
    let line = bushingowl::explain_ascii_refusal(text, refused).unwrap();
    let fault = fault_of_ascii(text, refused).unwrap();
    assert_eq!(
        (fault.line, fault.bytes, fault.place),
        (2, line.bytes, line.place())
    );
    assert_eq!(
        (fault.why, fault.expected),
        (line.to_string(), line.expected())
    );
}

#[test]
fn of_what_is_too_long_have_no_line() {
    let text = vec![b';'; MOST_TEXT + 1];
    let refused = read(&text, &mut []).unwrap_err();
    assert_eq!(fault_of_trace(&text, refused, &mut []), None);
    assert_eq!(fault_of_ascii(&text, refused), None);
}

/// Every refusal, at places that a text has and at such that none has.
fn refusals() -> impl Iterator<Item = Refused> {
    let places = [0, 1, 2, 3, 4, 5, 6, 999_999, u64::MAX - 1, u64::MAX];
    let at = move |reason| places.map(|place| Refused { reason, place });
    Reason::ALL.into_iter().flat_map(at)
}

/// Short texts, good and broken in many ways.
fn texts() -> Vec<Vec<u8>> {
    let good = [
        format!("{HEAD};c\r\n1) 0.000 1 Rx 0123 1 0A\r\n2) 0.000 1 Error 0001 4 00 02 00 00\r\n"),
        "29.02.2000 12:00:00.0000 CAN #1 | Rx 123 0\r\n29.02.2000 11:59:59.0000 CAN #1 | Rx 123 0\n".to_string(),
    ];
    let pieces: [&[u8]; 10] = [
        b"\r",
        b"\n",
        b"$",
        b";$",
        b" ",
        b"\xFF\xFE",
        b"\xEF\xBB\xBF",
        b"9",
        b"",
        &[b'x'; 251],
    ];
    let mut texts = vec![];
    for good in good.map(String::into_bytes) {
        for at in 0..=good.len() {
            let (before, behind) = good.split_at(at);
            texts.push(before.to_vec());
            for piece in pieces {
                texts.push([before, piece, behind.get(1..).unwrap_or_default()].concat());
            }
        }
    }
    texts
}

#[test]
fn are_told_of_just_the_refusal_that_a_text_gets() {
    let mut told = [0; 36];
    for text in texts() {
        let records = &mut [0; 4 * RECORD];
        let (of_trace, of_ascii) = (read(&text, records).err(), read_ascii(&text, records).err());
        let shown = String::from_utf8_lossy(&text);
        for refused in refusals() {
            let faults = [
                (fault_of_trace(&text, refused, records), of_trace, 2..8),
                (fault_of_ascii(&text, refused), of_ascii, 31..34),
            ];
            for (fault, got, numbers) in faults {
                let gets = got == Some(refused) && numbers.contains(&refused.number());
                assert_eq!(fault.is_some(), gets, "{refused}: {shown}");
                let Some(fault) = fault else { continue };
                told[refused.number() as usize] += 1;
                assert_eq!(fault.line, refused.place);
                assert!(fault.bytes.get(fault.place.clone()).is_some(), "{fault:?}");
                let line = text
                    .split(|byte| *byte == b'\n')
                    .nth(fault.line as usize - 1);
                assert!(line.unwrap().starts_with(fault.bytes), "{fault:?}");
            }
        }
    }
    for number in [2, 3, 4, 5, 6, 7, 31, 32] {
        assert!(told[number] > 0, "{number}");
    }
}

/// Lists with one record that the version can't carry, with that version and with why.
fn not_carried() -> Vec<(u32, Vec<u8>, &'static str)> {
    let record = |offset, bus| Record {
        offset,
        bus,
        kind: Kind::DataReceived,
        extended: false,
        id: 0x7FF,
        length: 0,
        data: [0; 8],
        mark: false,
    };
    let list = |records: &[Record]| {
        let mut packed = vec![0; records.len() * RECORD];
        for (record, packed) in records.iter().zip(packed.chunks_mut(RECORD)) {
            pack(record, packed).unwrap();
        }
        packed
    };
    let (of_11, of_12) = (record(100, 0), record(100, 16));
    let (parts, bus, no_bus) = (record(1_500_250, 0), record(1_500_250, 2), record(100, 0));
    let of_parts = "its offset is 1500.250 ms, and version 1.1 has no parts of 0.1 ms";
    let of_bus = "it has bus 2, and version 1.1 has no buses";
    let of_no_bus = "it has no bus, and version 1.2 needs one from 1 to 16";
    vec![
        (11, list(&[parts]), of_parts),
        (11, list(&[of_11, of_11, parts]), of_parts),
        (11, list(&[bus]), of_bus),
        (11, list(&[of_11, bus, parts]), of_bus),
        (12, list(&[no_bus]), of_no_bus),
        (12, list(&[of_12, no_bus]), of_no_bus),
    ]
}

#[test]
fn of_a_record_that_the_version_cannot_carry() {
    for (version, records, why) in not_carried() {
        let refused = write(version, 5, 4117, &records, &mut []).unwrap_err();
        let said = fault_of_record(version, &records, refused);
        assert_eq!(said.as_deref(), Some(why));
        for other in refusals().filter(|other| *other != refused) {
            assert_eq!(fault_of_record(version, &records, other), None, "{other}");
        }
        for version in [0, 10, 13, u32::MAX] {
            assert_eq!(fault_of_record(version, &records, refused), None);
        }
        for records in [&[][..], &records[1..], &[0xFF; RECORD]] {
            assert_eq!(fault_of_record(version, records, refused), None);
        }
    }
}
