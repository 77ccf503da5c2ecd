//! What is wrong with a line that is no row. The field numbers come from the rules of the columns, counted by hand.

use bushingowl::{
    explain, explain_refusal, explain_refusal_with, pack, read, write_to_vec, Column, Explanation,
    Kind, Reason, Record, Refused, RowExplanation, RowFault, RowReason, MOST_ROWS, MOST_TEXT,
    RECORD,
};

const SMALL: &[u8] = include_bytes!("../../samples/small.trc");
const WRONG_ROW: &[u8] = include_bytes!("../../samples/wrong-row.trc");
const CUT_OFF: &[u8] = include_bytes!("../../samples/cut-off.trc");
const PAST_THE_LIMIT: &[u8] = include_bytes!("../../samples/past-the-limit.trc");

fn wrong(field: u64) -> Result<Explanation, Refused> {
    Ok(Explanation {
        reason: RowReason::WrongField,
        field,
    })
}

fn early(field: u64) -> Result<Explanation, Refused> {
    Ok(Explanation {
        reason: RowReason::EndedEarly,
        field,
    })
}

fn refused(reason: Reason) -> Result<Explanation, Refused> {
    Err(Refused { reason, place: 0 })
}

/// Lines 1 and 2 of a text.
fn head(version: u32) -> String {
    let digit = version % 10;
    format!(";$FILEVERSION=1.{digit}\r\n;$STARTTIME=36585.5\r\n")
}

/// What is said of a text that is refused with 7.
fn explained(text: &[u8]) -> RowExplanation<'_> {
    let refused = read(text, &mut []).unwrap_err();
    assert_eq!(refused.number(), 7);
    explain_refusal(text, refused).unwrap()
}

/// Row 1 of a text.
fn row_1(version: u32) -> &'static str {
    match version {
        11 => "1) 0.0 Rx 0123 0\r\n",
        _ => "1) 0.000 1 Rx 0123 0\r\n",
    }
}

/// Holds lines that are not row 2 of this version to the reason, the field and the words.
fn hold(version: u32, reason: RowReason, cases: &[(&str, u64, &str)]) {
    hold_behind(
        &[&head(version), row_1(version)].concat(),
        version,
        2,
        reason,
        cases,
    );
}

/// Holds lines to the reason, the field and the words, behind lines after which this number is expected.
fn hold_behind(
    before: &str,
    version: u32,
    number: u64,
    reason: RowReason,
    cases: &[(&str, u64, &str)],
) {
    for (line, field, words) in cases {
        let field = *field;
        let answer = explain(line.as_bytes(), version, number);
        assert_eq!(answer, Ok(Explanation { reason, field }), "{line}");
        let text = format!("{before}{line}\r\n");
        let said = explained(text.as_bytes());
        let place = before.lines().count() as u64 + 1;
        assert_eq!(
            (said.line, said.version, said.number),
            (place, version, number)
        );
        assert_eq!(said.to_string(), *words, "{line}");
        let given = match said.fault {
            RowFault::WrongField { field, .. } => (RowReason::WrongField, field),
            RowFault::EndedEarly { field, .. } => (RowReason::EndedEarly, field),
            RowFault::NoNumberLeft => panic!("{line}"),
        };
        assert_eq!(given, (reason, field), "{line}");
    }
}

#[test]
fn a_wrong_field_of_version_12() {
    #[rustfmt::skip]
    let cases = [
        ("3) 0.000 1 Rx 0123 0", 1, r#"field 1 (row number) is wrong: "3)" instead of "2)""#),
        ("02) 0.000 1 Rx 0123 0", 1, r#"field 1 (row number) is wrong: "02)" instead of "2)""#),
        ("2 ) 0.000 1 Rx 0123 0", 1, r#"field 1 (row number) is wrong: "2" instead of "2)""#),
        (" ;", 1, r#"field 1 (row number) is wrong: ";" instead of "2)""#),
        ("2) 0.0 1 Rx 0123 0", 2, r#"field 2 (offset) is wrong: "0.0""#),
        ("2) 00.000 1 Rx 0123 0", 2, r#"field 2 (offset) is wrong: "00.000""#),
        ("2) 281474976710.656 1 Rx 0123 0", 2, r#"field 2 (offset) is wrong: "281474976710.656""#),
        ("2) 281474976710.656", 2, r#"field 2 (offset) is wrong: "281474976710.656""#),
        ("2) 1000000000000.000 1 Rx 0123 0", 2, r#"field 2 (offset) is wrong: "1000000000000.000""#),
        ("2) 0.000 0 Rx 0123 0", 3, r#"field 3 (bus) is wrong: "0""#),
        ("2) 0.000 17 Rx 0123 0", 3, r#"field 3 (bus) is wrong: "17""#),
        ("2) 0.000 Rx 0123 0", 3, r#"field 3 (bus) is wrong: "Rx""#),
        ("2) 0.000 16 rx 0123 0", 4, r#"field 4 (type) is wrong: "rx""#),
        ("2) 0.000 16 Warnng FFFFFFFF 4 00 00 00 08", 4, r#"field 4 (type) is wrong: "Warnng""#),
        ("2) 0.000 1 Rx 123 0", 5, r#"field 5 (ID) is wrong: "123""#),
        ("2) 0.000 1 Tx 0800 0", 5, r#"field 5 (ID) is wrong: "0800""#),
        ("2) 0.000 1 Tx 20000000 0", 5, r#"field 5 (ID) is wrong: "20000000""#),
        ("2) 0.000 1 Warng FFFFFFF 4 00 00 00 08", 5, r#"field 5 (ID) is wrong: "FFFFFFF""#),
        ("2) 0.000 1 Error 00000001 4 00 02 00 00", 5, r#"field 5 (ID) is wrong: "00000001""#),
        ("2) 0.000 1 Error 0003 4 00 02 00 00", 5, r#"field 5 (ID) is wrong: "0003""#),
        ("2) 0.000 1 Rx 07FF 9", 6, r#"field 6 (length) is wrong: "9""#),
        ("2) 0.000 1 Rx 1FFFFFFF 02 00 00", 6, r#"field 6 (length) is wrong: "02""#),
        ("2) 0.000 1 Warng ffffFFFF 3 00 00 00", 6, r#"field 6 (length) is wrong: "3""#),
        ("2) 0.000 1 Error 0008 5 00 02 00 00", 6, r#"field 6 (length) is wrong: "5""#),
        ("2) 0.000 1 Rx 0123 0 0A", 7, r#"field 7 (RTR or nothing) is wrong: "0A""#),
        ("2) 0.000 1 Rx 0123 1 A", 7, r#"field 7 (RTR or data byte 1 of 1) is wrong: "A""#),
        ("2) 0.000 1 Rx 0123 2 rtr", 7, r#"field 7 (RTR or data byte 1 of 2) is wrong: "rtr""#),
        ("2) 0.000 1 Rx 0123 2 0A RTR", 8, r#"field 8 (data byte 2 of 2) is wrong: "RTR""#),
        ("2) 0.000 1 Tx 0123 8 0 1 2", 7, r#"field 7 (RTR or data byte 1 of 8) is wrong: "0""#),
        ("2) 0.000 1 Tx 0123 8 00 11 22 33 44 55 66 7G", 14, r#"field 14 (data byte 8 of 8) is wrong: "7G""#),
        ("2) 0.000 1 Rx 0123 2 0A FF 00", 9, r#"field 9 is one too many: "00""#),
        ("2) 0.000 1 Rx 0123 3 RTR 00", 8, r#"field 8 is one too many: "00""#),
        ("2) 0.000 1 Rx 0123 0 RTR RTR", 8, r#"field 8 is one too many: "RTR""#),
        ("2) 0.000 1 Warng FFFFFFFF 4 RTR", 7, r#"field 7 (data byte 1 of 4) is wrong: "RTR""#),
        ("2) 0.000 1 Warng FFFFFFFF 4 00 00 00 WORD", 10, r#"field 10 (data byte 4 of 4) is wrong: "WORD""#),
        ("2) 0.000 1 Warng FFFFFFFF 4 00 00 00 08 Ab", 11, r#"field 11 (word) is wrong: "Ab""#),
        ("2) 0.000 1 Warng FFFFFFFF 4 00 00 00 08 AB RTR 08", 13, r#"field 13 (word) is wrong: "08""#),
        ("2) 0.000 1 Error 0001 4 02 02 00 00", 7, r#"field 7 (data byte 1 of 4) is wrong: "02""#),
        ("2) 0.000 1 Error 0001 4 RTR", 7, r#"field 7 (data byte 1 of 4) is wrong: "RTR""#),
        ("2) 0.000 1 Error 0001 4 01 10 00 00", 8, r#"field 8 (data byte 2 of 4) is wrong: "10""#),
        ("2) 0.000 1 Error 0001 4 01 1C 0", 9, r#"field 9 (data byte 3 of 4) is wrong: "0""#),
        ("2) 0.000 1 Error 0001 4 01 1C FF )", 10, r#"field 10 (data byte 4 of 4) is wrong: ")""#),
        ("2) 0.000 1 Error 0001 4 01 1C FF 00 WORD", 11, r#"field 11 is one too many: "WORD""#),
    ];
    hold(12, RowReason::WrongField, &cases);
}

#[test]
fn a_wrong_field_of_version_11() {
    #[rustfmt::skip]
    let cases = [
        ("0) 0.0 Rx 0123 0", 1, r#"field 1 (row number) is wrong: "0)" instead of "2)""#),
        ("2) 0.000 Rx 0123 0", 2, r#"field 2 (offset) is wrong: "0.000""#),
        ("2) 281474976710.7 Rx 0123 0", 2, r#"field 2 (offset) is wrong: "281474976710.7""#),
        ("2) 0.0 1 Rx 0123 0", 3, r#"field 3 (type) is wrong: "1""#),
        ("2) 0.0 Warng FFFF 4 00 00 00 08", 4, r#"field 4 (ID) is wrong: "FFFF""#),
        ("2) 0.0 Rx 0123 A", 5, r#"field 5 (length) is wrong: "A""#),
        ("2) 0.0 Rx 0123 0 00", 6, r#"field 6 (RTR or nothing) is wrong: "00""#),
        ("2) 0.0 Tx 0123 4 000", 6, r#"field 6 (RTR or data byte 1 of 4) is wrong: "000""#),
        ("2) 0.0 Tx 0123 4 00 00 00 0X", 9, r#"field 9 (data byte 4 of 4) is wrong: "0X""#),
        ("2) 0.0 Tx 0123 4 00 00 00 00 00", 10, r#"field 10 is one too many: "00""#),
        ("2) 0.0 Warng FFFFFFFF 4 00 00 00 08 BUSHEAVy", 10, r#"field 10 (word) is wrong: "BUSHEAVy""#),
        ("2) 0.0 Error 0002 4 01 1D 00 00", 7, r#"field 7 (data byte 2 of 4) is wrong: "1D""#),
    ];
    hold(11, RowReason::WrongField, &cases);
}

#[test]
fn a_row_of_version_12_that_ended_early() {
    #[rustfmt::skip]
    let cases = [
        ("", 0, r#"the line is empty: row number "2)" was expected"#),
        ("   ", 0, r#"the line is empty: row number "2)" was expected"#),
        ("2)", 1, "the row ended early after field 1 (row number): offset was expected next"),
        ("2) 0.000 ", 2, "the row ended early after field 2 (offset): bus was expected next"),
        ("2) 281474976710.655", 2, "the row ended early after field 2 (offset): bus was expected next"),
        (" 2)  0.000  1", 3, "the row ended early after field 3 (bus): type was expected next"),
        ("2) 0.000 1 Rx", 4, "the row ended early after field 4 (type): ID was expected next"),
        ("2) 0.000 1 Warng FFFFFFFF", 5, "the row ended early after field 5 (ID): length was expected next"),
        ("2) 0.000 1 Rx 0123 2", 6, "the row ended early after field 6 (length): RTR or data byte 1 of 2 was expected next"),
        ("2) 0.000 1 Rx 0123 2 0A", 7, "the row ended early after field 7 (data byte 1 of 2): data byte 2 of 2 was expected next"),
        ("2) 0.000 1 Tx 0123 8 00 11 22 33 44 55 66", 13, "the row ended early after field 13 (data byte 7 of 8): data byte 8 of 8 was expected next"),
        ("2) 0.000 1 Warng FFFFFFFF 4", 6, "the row ended early after field 6 (length): data byte 1 of 4 was expected next"),
        ("2) 0.000 1 Warng FFFFFFFF 4 00 00 00", 9, "the row ended early after field 9 (data byte 3 of 4): data byte 4 of 4 was expected next"),
        ("2) 0.000 1 Error 0001 4 01", 7, "the row ended early after field 7 (data byte 1 of 4): data byte 2 of 4 was expected next"),
    ];
    hold(12, RowReason::EndedEarly, &cases);
}

#[test]
fn a_row_of_version_11_that_ended_early() {
    #[rustfmt::skip]
    let cases = [
        ("", 0, r#"the line is empty: row number "2)" was expected"#),
        ("2)", 1, "the row ended early after field 1 (row number): offset was expected next"),
        ("2) 0.0", 2, "the row ended early after field 2 (offset): type was expected next"),
        ("2) 281474976710.6", 2, "the row ended early after field 2 (offset): type was expected next"),
        ("2) 0.0 Error", 3, "the row ended early after field 3 (type): ID was expected next"),
        ("2) 0.0 Error 0004", 4, "the row ended early after field 4 (ID): length was expected next"),
        ("2) 0.0 Error 0004 4", 5, "the row ended early after field 5 (length): data byte 1 of 4 was expected next"),
        ("2) 0.0 Tx 0123 1", 5, "the row ended early after field 5 (length): RTR or data byte 1 of 1 was expected next"),
        ("2) 0.0 Tx 0123 3 00 00", 7, "the row ended early after field 7 (data byte 2 of 3): data byte 3 of 3 was expected next"),
    ];
    hold(11, RowReason::EndedEarly, &cases);
}

#[test]
fn a_first_row_of_any_number() {
    let before = format!("{}; a selection\r\n;\r\n", head(12));
    #[rustfmt::skip]
    let wrong_fields = [
        ("0) 0.000 1 Rx 0123 0", 1, r#"field 1 (row number) is wrong: "0)" instead of a number from 1 to 999999 and ")""#),
        ("1000000) 0.000 1 Rx 0123 0", 1, r#"field 1 (row number) is wrong: "1000000)" instead of a number from 1 to 999999 and ")""#),
        ("04117) 0.000 1 Rx 0123 0", 1, r#"field 1 (row number) is wrong: "04117)" instead of a number from 1 to 999999 and ")""#),
        ("4117 0.000 1 Rx 0123 0", 1, r#"field 1 (row number) is wrong: "4117" instead of a number from 1 to 999999 and ")""#),
        ("4117 ) 0.000 1 Rx 0123 0", 1, r#"field 1 (row number) is wrong: "4117" instead of a number from 1 to 999999 and ")""#),
        ("4117)) 0.000 1 Rx 0123 0", 1, r#"field 1 (row number) is wrong: "4117))" instead of a number from 1 to 999999 and ")""#),
        (")", 1, r#"field 1 (row number) is wrong: ")" instead of a number from 1 to 999999 and ")""#),
        (" ;", 1, r#"field 1 (row number) is wrong: ";" instead of a number from 1 to 999999 and ")""#),
        ("4117) 0.0 1 Rx 0123 0", 2, r#"field 2 (offset) is wrong: "0.0""#),
        ("999999) 0.000 17 Rx 0123 0", 3, r#"field 3 (bus) is wrong: "17""#),
        ("1) 0.000 1 Rx 0123 9", 6, r#"field 6 (length) is wrong: "9""#),
        ("2) 0.000 1 Rx 0123 1 0A FF", 8, r#"field 8 is one too many: "FF""#),
    ];
    hold_behind(&before, 12, 0, RowReason::WrongField, &wrong_fields);
    #[rustfmt::skip]
    let ended_early = [
        ("", 0, r#"the line is empty: a row number from 1 to 999999 and ")" was expected"#),
        ("   ", 0, r#"the line is empty: a row number from 1 to 999999 and ")" was expected"#),
        ("1)", 1, "the row ended early after field 1 (row number): offset was expected next"),
        (" 4117) 0.000", 2, "the row ended early after field 2 (offset): bus was expected next"),
        ("999999) 0.000 1 Rx 0123 1", 6, "the row ended early after field 6 (length): RTR or data byte 1 of 1 was expected next"),
    ];
    hold_behind(&before, 12, 0, RowReason::EndedEarly, &ended_early);
    let of_version_11 = [(
        "4117) 0.000 1 Rx 0123 0",
        2,
        r#"field 2 (offset) is wrong: "0.000""#,
    )];
    hold_behind(&head(11), 11, 0, RowReason::WrongField, &of_version_11);
}

#[test]
fn a_row_in_the_middle() {
    let before = format!(
        "{};\r\n4117) 0.0 Rx 0123 0\r\n; x\r\n4118) 0.0 Rx 0123 0\r\n",
        head(11)
    );
    #[rustfmt::skip]
    let cases = [
        // A gap, a repeat, a number by count.
        ("4120) 0.0 Rx 0123 0", 1, r#"field 1 (row number) is wrong: "4120)" instead of "4119)""#),
        ("4118) 0.0 Rx 0123 0", 1, r#"field 1 (row number) is wrong: "4118)" instead of "4119)""#),
        ("3) 0.0 Rx 0123 0", 1, r#"field 1 (row number) is wrong: "3)" instead of "4119)""#),
        ("4119) 0.0 Rx 0123 9", 5, r#"field 5 (length) is wrong: "9""#),
    ];
    hold_behind(&before, 11, 4119, RowReason::WrongField, &cases);
    let empty = [(
        "",
        0,
        r#"the line is empty: row number "4119)" was expected"#,
    )];
    hold_behind(&before, 11, 4119, RowReason::EndedEarly, &empty);
}

#[test]
fn nothing_to_explain() {
    let lines = [
        "1) 0.000 1 Rx 0123 2 0A FF",
        "  1)  281474976710.655 16 Tx 1fffffff 8 RTR ",
        "1) 0.000 1 Rx 0123 0",
        "1) 0.000 1 Warng ffffffff 4 00 00 00 08 AB RTR",
        "1) 0.000 1 Error 0008 4 01 1C 00 FF",
        ";",
        ";  a comment",
        "; \t$",
        "1) 0.000 17 Rx 0123 0\r",
        "x\n",
        "\r\n",
    ];
    for line in lines {
        for number in [0, 1] {
            let answer = explain(line.as_bytes(), 12, number);
            assert_eq!(answer, refused(Reason::Unexplained), "{line}");
        }
    }
    // What is a row of one version and number is none of another.
    assert_eq!(explain(lines[0].as_bytes(), 12, 2), wrong(1));
    assert_eq!(explain(lines[0].as_bytes(), 11, 1), wrong(2));
    assert_eq!(explain(lines[0].as_bytes(), 11, 0), wrong(2));
    // With $ first it is no comment.
    for number in [0, 1] {
        assert_eq!(explain(b";$x", 12, number), wrong(1));
        assert_eq!(explain(b"; $x", 12, number), wrong(1));
    }
}

#[test]
fn numbers_and_versions_at_their_limits() {
    let row = |number: u64| format!("{number}) 0.0 Rx 0123 0");
    for number in [1, 9, 10, 4117, 999_999] {
        let row = row(number);
        // The number, and 0 for any.
        for expected in [number, 0] {
            let answer = explain(row.as_bytes(), 11, expected);
            assert_eq!(answer, refused(Reason::Unexplained));
            let answer = explain(&row.as_bytes()[..row.len() - 1], 11, expected);
            assert_eq!(answer, early(4));
        }
        // Its neighbours, but for 0 and what no row may have.
        for other in [number - 1, number + 1] {
            if other != 0 && other != 1_000_000 {
                assert_eq!(explain(row.as_bytes(), 11, other), wrong(1));
            }
        }
    }
    // No row has these numbers, so that they are wrong where any is expected.
    for number in [0, 1_000_000, u64::MAX] {
        assert_eq!(explain(row(number).as_bytes(), 11, 0), wrong(1));
    }
    assert_eq!(explain(b"", 11, 0), early(0));
    assert_eq!(explain(b"x", 11, 0), wrong(1));
    for number in [1_000_000, 1_000_001, u64::MAX] {
        for line in [row(number), "".to_string(), "x".to_string()] {
            let answer = explain(line.as_bytes(), 11, number);
            assert_eq!(answer, refused(Reason::Unexplained));
        }
    }
    for version in [0, 1, 10, 13, 20, u32::MAX] {
        for number in [0, 1, u64::MAX] {
            let answer = explain(b"\r", version, number);
            assert_eq!(answer, refused(Reason::NoVersion));
        }
    }
}

#[test]
fn lines_of_any_length() {
    let long = |part: &str| part.repeat(100_000 / part.len());
    let warning = "1) 0.000 1 Warng FFFFFFFF 4 00 00 00 08 ";
    let blanks = long(" ");
    let unexplained = refused(Reason::Unexplained);
    let cases = [
        // As many blanks as one likes, and words.
        (format!("1){blanks}0.000 1 Rx 0123 0"), unexplained),
        (format!("1){blanks}0.000 1 Rx 0123 1"), early(6)),
        (format!("{blanks}0)"), wrong(1)),
        (blanks, early(0)),
        (format!("{warning}{}", long("A")), unexplained),
        (format!("{warning}{}a", long("Z")), wrong(11)),
        (format!("{warning}a{}", long("Z")), wrong(11)),
        (format!("{warning}{}", long("WORD ")), unexplained),
        (
            format!("{warning}{}@", long("WORD ")),
            wrong(10 + 20_000 + 1),
        ),
        (format!("{}1)", long("0")), wrong(1)),
        // No other field is long.
        (long("1"), wrong(1)),
        (format!("1) {}.000 1 Rx 0123 0", long("1")), wrong(2)),
        (format!("1) 0.000 {} Rx 0123 0", long("1")), wrong(3)),
        (format!("1) 0.000 1 {} 0123 0", long("Rx")), wrong(4)),
        (format!("1) 0.000 1 Rx {} 0", long("0")), wrong(5)),
        (format!("1) 0.000 1 Rx 0123 {}", long("0")), wrong(6)),
        (format!("1) 0.000 1 Rx 0123 1 {}", long("A")), wrong(7)),
        (
            format!("1) 0.000 1 Error 0001 4 00 02 00 00 {}", long("A")),
            wrong(11),
        ),
        (format!(";{}", long("$")), wrong(1)),
        (format!("; {}", long("x$")), unexplained),
        (format!("{}\n", long("x")), unexplained),
    ];
    for (line, answer) in cases {
        assert_eq!(explain(line.as_bytes(), 12, 1), answer, "{}", &line[..60]);
        assert_eq!(explain(line.as_bytes(), 12, 0), answer, "{}", &line[..60]);
    }
    // The first row may have a number that row 1 may not.
    let line = format!("{}2){}", long(" "), long(" "));
    assert_eq!(explain(line.as_bytes(), 12, 1), wrong(1));
    assert_eq!(explain(line.as_bytes(), 12, 0), early(1));
}

#[test]
fn a_long_line_takes_no_more_stack() {
    let line = format!(
        "1) 0.0 Warng FFFFFFFF 4 00 00 00 08 {}a",
        "A ".repeat(5_000_000)
    );
    let small = std::thread::Builder::new().stack_size(64 * 1024);
    let thread = small.spawn(move || explain(line.as_bytes(), 11, 1));
    assert_eq!(thread.unwrap().join().unwrap(), wrong(9 + 5_000_000 + 1));
}

#[test]
fn the_line_of_a_refusal() {
    let said = explained(WRONG_ROW);
    let fault = RowFault::EndedEarly {
        field: 6,
        column: Some(Column::Length),
        next: Column::FirstOrRemote { of: 1 },
    };
    let expected = RowExplanation {
        line: 4,
        bytes: b"2) 1500.250 2 Tx 18AB0001 1",
        version: 12,
        number: 2,
        fault,
    };
    assert_eq!(said, expected);
    let words =
        "the row ended early after field 6 (length): RTR or data byte 1 of 1 was expected next";
    assert_eq!(said.to_string(), words);
}

#[test]
fn comments_count_as_lines_and_not_as_rows() {
    let text = format!(
        "{};\r\n1) 0.0 Rx 0123 0\r\n; 2)\r\n\
         2) 0.0 Warng FFFFFFFF 4 00 00 00 08 WORD\r\n;\r\n  4) 0.0 Rx 0123 0\r\nx",
        head(11)
    );
    let fault = RowFault::WrongField {
        field: 1,
        column: Column::Number,
        bytes: b"4)",
    };
    let expected = RowExplanation {
        line: 8,
        bytes: b"  4) 0.0 Rx 0123 0",
        version: 11,
        number: 3,
        fault,
    };
    assert_eq!(explained(text.as_bytes()), expected);
}

#[test]
fn the_place_in_the_line() {
    #[rustfmt::skip]
    let cases = [
        ("3) 0.000 1 Rx 0123 0", 0..2),
        ("   02) 0.000 1 Rx 0123 0", 3..6),
        ("2)  0.0  1 Rx 0123 0", 4..7),
        ("2) 0.000 1 Rx 0123 9 9", 19..20),
        ("2) 0.000 1 Rx 0123 0   0A  ", 23..25),
        ("2) 0.000 1 Warng FFFFFFFF 4 00 00 00 08 AB A1", 43..45),
        // Fields with the same bytes.
        ("2) 0.000 1 1 1", 11..12),
        ("2) 0.000 1 Rx 0123 1 00 00", 24..26),
        // A tab is no blank.
        ("2)\t0.000 1 Rx 0123 0", 0..8),
        // Where it ended early.
        ("2)", 2..2),
        ("  2)  0.000  ", 11..11),
        ("2) 0.000 1 Rx 0123 2 0A ", 23..23),
        ("", 0..0),
        ("   ", 0..0),
    ];
    for (line, place) in cases {
        let text = format!("{}{}{line}\r\n;\r\n", head(12), row_1(12));
        let said = explained(text.as_bytes());
        assert_eq!(said.bytes, line.as_bytes());
        assert_eq!(said.place(), place, "{line}");
    }
}

#[test]
fn made_by_hand_it_has_a_place_and_words() {
    let (column, next) = (Column::Id, Column::Data { byte: 0, of: 255 });
    #[rustfmt::skip]
    let faults = [
        RowFault::WrongField { field: 0, column, bytes: b"x" },
        RowFault::WrongField { field: 3, column: next, bytes: b"x" },
        RowFault::WrongField { field: u64::MAX, column, bytes: b"x" },
        RowFault::EndedEarly { field: u64::MAX, column: None, next },
        RowFault::NoNumberLeft,
    ];
    for fault in faults {
        for bytes in [&b""[..], b"  ", b" 1) 0.0 "] {
            let said = RowExplanation {
                line: 0,
                bytes,
                version: u32::MAX,
                number: u64::MAX,
                fault,
            };
            assert!(bytes.get(said.place()).is_some());
            assert!(!said.expected().is_empty() && !said.to_string().is_empty());
        }
    }
}

#[test]
fn bytes_in_words() {
    let long = "0".repeat(40);
    let cases = [
        (&b"\t"[..], r#""\x09""#.to_string()),
        (b"\0\x7F\x80\xFF", r#""\x00\x7F\x80\xFF""#.to_string()),
        (b"!\"\\'~", r#""!\x22\x5C'~""#.to_string()),
        ("ü".as_bytes(), r#""\xC3\xBC""#.to_string()),
        (long.as_bytes(), format!("\"{long}\"")),
    ];
    for (field, words) in cases {
        let text = [head(12).as_bytes(), b"1) ", field, b" \r\n"].concat();
        let said = explained(&text);
        let column = Column::Offset;
        let expected = RowFault::WrongField {
            field: 2,
            column,
            bytes: field,
        };
        assert_eq!(said.fault, expected);
        let words = format!("field 2 (offset) is wrong: {words}");
        assert_eq!(said.to_string(), words);
    }
    let text = format!("{}1) {long}1\r\n", head(12));
    let words = format!("field 2 (offset) is wrong: \"{long}\"...");
    assert_eq!(explained(text.as_bytes()).to_string(), words);
    let instead = [
        ("", "a number from 1 to 999999 and \")\""),
        (row_1(12), "\"2)\""),
    ];
    for (row, instead) in instead {
        let text = format!("{}{row}{long}1)\r\n", head(12));
        let words = format!("field 1 (row number) is wrong: \"{long}\"... instead of {instead}");
        assert_eq!(explained(text.as_bytes()).to_string(), words);
    }
}

#[test]
fn only_the_refusal_7_of_this_text() {
    let no_row = |place| Refused {
        reason: Reason::NoRow,
        place,
    };
    for reason in Reason::ALL {
        for place in [0, 1, 2, 3, 4, 5, 6, u64::MAX] {
            let said = explain_refusal(WRONG_ROW, Refused { reason, place });
            assert_eq!(said.is_some(), reason == Reason::NoRow && place == 4);
        }
    }
    for text in [CUT_OFF, PAST_THE_LIMIT, b"", b"\r\n\r\n\r\n", b"\n\n\n"] {
        let own = read(text, &mut []).unwrap_err();
        assert_eq!(explain_refusal(text, own), None);
        for place in 0..8 {
            assert_eq!(explain_refusal(text, no_row(place)), None);
        }
    }
    for place in [0, 3, 5, 6] {
        assert_eq!(explain_refusal(SMALL, no_row(place)), None);
    }
    // Lines that are refused for something else: not ended, too long, a comment with $ first.
    let long = format!("{}\r\n", "x".repeat(251));
    for line in [
        "x",
        "x\r",
        "x\n",
        "x\rx\r\n",
        &long,
        "; $x\r\n",
        "1) 0.000 1 Rx 0123 0\r\n",
    ] {
        let text = format!("{}{line}", head(12));
        assert_eq!(explain_refusal(text.as_bytes(), no_row(3)), None, "{line}");
    }
    let mut above = vec![0; MOST_TEXT + 1];
    above[..WRONG_ROW.len()].copy_from_slice(WRONG_ROW);
    assert_eq!(explain_refusal(&above, no_row(4)), None);
    assert!(explain_refusal(&above[..MOST_TEXT], no_row(4)).is_some());
}

#[test]
fn with_room_that_is_lent() {
    let row = |number| format!("{number}) 0.0 Rx 0123 0\r\n");
    for count in [0, 1, 2, 100] {
        let before: String = (1..=count).map(row).collect();
        let text = format!("{}{before};\r\nx\r\n{before}", head(11));
        let text = text.as_bytes();
        let own = read(text, &mut []).unwrap_err();
        let said = explain_refusal(text, own);
        assert!(said.is_some());
        // As much as the rows before the line have, whatever it held; more; less.
        let room = count * RECORD;
        for room in [room, room + 1, room + 100] {
            assert_eq!(explain_refusal_with(text, own, &mut vec![0xEE; room]), said);
        }
        for room in 0..room {
            assert_eq!(explain_refusal_with(text, own, &mut vec![0xEE; room]), None);
        }
        for reason in Reason::ALL {
            for place in [0, own.place - 1, own.place, own.place + 1] {
                let refused = Refused { reason, place };
                let said = explain_refusal_with(text, refused, &mut vec![0; room]);
                assert_eq!(said.is_some(), refused == own);
            }
        }
    }
}

#[test]
fn after_the_last_row() {
    let record = Record {
        offset: 0,
        bus: 0,
        kind: Kind::DataReceived,
        extended: false,
        id: 0,
        length: 0,
        data: [0; 8],
        mark: false,
    };
    let mut packed = [0; RECORD];
    pack(&record, &mut packed).unwrap();
    // All rows that there can be, three and one: each with the last number.
    for (first, rows) in [(1, MOST_ROWS), (999_997, 3), (999_999, 1)] {
        let mut text = write_to_vec(11, 0, first, &packed.repeat(rows)).unwrap();
        text.extend(b";\r\n");
        let end = text.len();
        for line in ["1000000) 0.0 Rx 0000 0", "999999) 0.0 Rx 0000 0", "", "x"] {
            text.truncate(end);
            text.extend(line.as_bytes());
            text.extend(b"\r\n");
            let said = explained(&text);
            let expected = RowExplanation {
                line: rows as u64 + 4,
                bytes: line.as_bytes(),
                version: 11,
                number: 1_000_000,
                fault: RowFault::NoNumberLeft,
            };
            assert_eq!(said, expected);
            let words = "row number 999999 stands before it, and no row may follow";
            assert_eq!(said.to_string(), words);
            assert_eq!(said.place(), 0..line.len());
            assert_eq!(said.expected(), "a comment, or the end of the file");
        }
    }
}

/// Holds what is said to the line: the field is the one that is counted, and stands in its place.
fn holds_its_place(said: &RowExplanation, line: &[u8]) {
    assert_eq!(said.bytes, line);
    let place = said.place();
    let fields: Vec<&[u8]> = line
        .split(|byte| *byte == b' ')
        .filter(|field| !field.is_empty())
        .collect();
    match said.fault {
        RowFault::WrongField { field, bytes, .. } => {
            assert_eq!(fields[field as usize - 1], bytes);
            assert_eq!(line[place], *bytes);
        }
        RowFault::EndedEarly { field, .. } => {
            assert_eq!(fields.len() as u64, field);
            assert!(place.is_empty());
            assert_eq!(line[..place.end], *line.trim_ascii_end());
        }
        RowFault::NoNumberLeft => panic!(),
    }
}

/// Every byte of a text changed in turn: a refusal 7 is always explained, and nothing else is.
#[test]
fn whatever_the_bytes_are() {
    let rows = "1) 0.0 Rx 0123 2 0A FF\r\n; x\r\n2) 1.5 Tx 18AB0001 1 RTR\r\n\
        3) 1.5 Warng FFFFFFFF 4 00 00 00 08 BUSHEAVY\r\n4) 2.5 Error 0001 4 01 02 00 00\r\n";
    let text = [head(11).as_bytes(), rows.as_bytes()].concat();
    let mut sevens = 0;
    for at in 0..text.len() {
        for byte in [
            0, b'\t', b'\n', b'\r', b' ', b'$', b')', b'.', b'0', b'8', b';', b'A', b'a', 0xFF,
        ] {
            let mut text = text.clone();
            text[at] = byte;
            let own = read(&text, &mut []).unwrap_err();
            let said = explain_refusal(&text, own);
            assert_eq!(said.is_some(), own.number() == 7);
            let Some(said) = said else { continue };
            sevens += 1;
            assert!(said.to_string().is_ascii() && said.expected().is_ascii());
            let line = text
                .split(|byte| *byte == b'\n')
                .nth(own.place as usize - 1);
            holds_its_place(&said, line.unwrap().strip_suffix(b"\r").unwrap());
        }
    }
    assert!(sevens > 1000, "{sevens}");
}
