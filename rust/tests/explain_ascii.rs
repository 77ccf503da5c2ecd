//! What is wrong with a line of Telemotive ASCII that is refused. The numbers of the parts and the places are counted by
//! hand.

use bushingowl::{
    explain_ascii_refusal, read_ascii, AsciiExplanation, AsciiFault, AsciiPart, Reason, Refused,
    MOST_ROWS, MOST_TEXT, RECORD,
};
use std::ops::Range;

const GOOD: &str = "29.02.2000 12:00:00.0000 CAN #1 | Rx 123 2 0a ff\r\n";
const NO_SUCH_DATE: &[u8] = include_bytes!("../../samples/no-such-date.asc");
const SMALL: &[u8] = include_bytes!("../../samples/small.txt");

/// What is said of a text that is refused.
fn explained(text: &[u8]) -> AsciiExplanation<'_> {
    let refused = read_ascii(text, &mut []).unwrap_err();
    explain_ascii_refusal(text, refused).unwrap()
}

/// Holds lines behind a good one, with either end, to the words and the place.
#[track_caller]
fn hold(cases: &[(&str, Range<usize>, &str)]) {
    for (line, place, words) in cases {
        for behind in ["\r\n", "\n", "\r\nx", "\nx\n"] {
            let text = format!("{GOOD}{line}{behind}");
            let said = explained(text.as_bytes());
            assert_eq!((said.line, said.bytes), (2, line.as_bytes()));
            assert_eq!(said.to_string(), *words, "{line}");
            assert_eq!(said.place(), *place, "{line}");
        }
    }
}

#[test]
fn a_wrong_part() {
    #[rustfmt::skip]
    hold(&[
        ("30.02.2000 12:00:00.0000 CAN #1 | Rx 123 0", 0..10, r#"part 1 (date) is wrong: "30.02.2000""#),
        ("; a comment", 0..1, r#"part 1 (date) is wrong: ";""#),
        ("  ; a comment ", 2..3, r#"part 1 (date) is wrong: ";""#),
        ("29.02.2000  24:00:00.0000 CAN #1 | Rx 123 0", 12..25, r#"part 2 (time) is wrong: "24:00:00.0000""#),
        ("29.02.2000 CAN #1 | Rx 123 0", 11..14, r#"part 2 (time) is wrong: "CAN""#),
        ("29.02.2000 12:00:00.0000 CANEXT #1", 25..31, r#"part 3 (message type) is wrong: "CANEXT""#),
        ("29.02.2000 12:00:00.0000 CAN # 1 | Rx 123 0", 29..30, r##"part 4 (channel) is wrong: "#""##),
        ("29.02.2000 12:00:00.0000 CANExt #17", 32..35, r##"part 4 (channel) is wrong: "#17""##),
        ("29.02.2000 12:00:00.0000 CAN #1 Rx 123 0", 32..34, r#"part 5 (bar) is wrong: "Rx""#),
        ("29.02.2000 12:00:00.0000 CAN #1 | EXTENDED Rx 123 0", 34..42, r#"part 6 (direction) is wrong: "EXTENDED""#),
        ("29.02.2000 12:00:00.0000 CANExt #1 | Rx 00000123 0", 37..39, r#"part 6 (EXTENDED) is wrong: "Rx""#),
        ("29.02.2000 12:00:00.0000 CANExt #1 | EXTENDED rx 00000123 0", 46..48, r#"part 7 (direction) is wrong: "rx""#),
        ("29.02.2000 12:00:00.0000 CAN #1 | Rx 800 0", 37..40, r#"part 7 (ID) is wrong: "800""#),
        ("29.02.2000 12:00:00.0000 CANExt #1 | EXTENDED Rx 123 0", 49..52, r#"part 8 (ID) is wrong: "123""#),
        ("29.02.2000 12:00:00.0000 CAN #1 | Rx 123 9", 41..42, r#"part 8 (length) is wrong: "9""#),
        ("29.02.2000 12:00:00.0000 CANExt #1 | EXTENDED Rx 00000123 /", 58..59, r#"part 9 (length) is wrong: "/""#),
        ("29.02.2000 12:00:00.0000 CAN #1 | Rx 123 2 0a f", 46..47, r#"part 10 (data byte 2 of 2) is wrong: "f""#),
        ("29.02.2000 12:00:00.0000 CAN #1 | Rx 123 2 RTR", 43..46, r#"part 9 (data byte 1 of 2) is wrong: "RTR""#),
        // One too many; parts with the same bytes.
        ("29.02.2000 12:00:00.0000 CAN #1 | Rx 123 2 0a ff ff ff", 49..51, r#"part 11 is one too many: "ff""#),
        ("29.02.2000 12:00:00.0000 CAN #1 | Rx 123 0   ; ", 45..46, r#"part 9 is one too many: ";""#),
        // A tab is no blank, and a CR within a line is part of a part.
        ("29.02.2000\t12:00:00.0000", 0..24, r#"part 1 (date) is wrong: "29.02.2000\x0912:00:00.0000""#),
        ("29.02.2000\r12:00:00.0000 CAN", 0..24, r#"part 1 (date) is wrong: "29.02.2000\x0D12:00:00.0000""#),
    ]);
}

#[test]
fn a_line_that_ended_early() {
    #[rustfmt::skip]
    hold(&[
        ("", 0..0, "the line is empty: date was expected"),
        ("   ", 0..0, "the line is empty: date was expected"),
        ("29.02.2000", 10..10, "the line ended early after part 1 (date): time was expected next"),
        (" 29.02.2000  ", 13..13, "the line ended early after part 1 (date): time was expected next"),
        ("29.02.2000 12:00:00.0000 CAN", 28..28, "the line ended early after part 3 (message type): channel was expected next"),
        ("29.02.2000 12:00:00.0000 CAN #1 |", 33..33, "the line ended early after part 5 (bar): direction was expected next"),
        ("29.02.2000 12:00:00.0000 CANExt #1 |", 36..36, "the line ended early after part 5 (bar): EXTENDED was expected next"),
        ("29.02.2000 12:00:00.0000 CANExt #1 | EXTENDED", 45..45, "the line ended early after part 6 (EXTENDED): direction was expected next"),
        ("29.02.2000 12:00:00.0000 CAN #1 | Rx 123", 40..40, "the line ended early after part 7 (ID): length was expected next"),
        ("29.02.2000 12:00:00.0000 CAN #1 | Rx 123 2", 42..42, "the line ended early after part 8 (length): data byte 1 of 2 was expected next"),
        ("29.02.2000 12:00:00.0000 CANExt #1 | EXTENDED Rx 00000123 2 0a", 62..62, "the line ended early after part 10 (data byte 1 of 2): data byte 2 of 2 was expected next"),
    ]);
}

#[test]
fn a_blank_at_an_end() {
    let words = "a blank stands before the first part or behind the last";
    let line = "29.02.2000 12:00:00.0000 CAN #1 | Rx 123 0";
    hold(&[
        (&format!(" {line}"), 0..1, words),
        (&format!("   {line}"), 0..3, words),
        (&format!("{line} "), 42..43, words),
        (&format!("{line}   "), 42..45, words),
        (&format!("  {line} "), 0..2, words),
    ]);
}

#[test]
fn a_line_that_is_not_ended() {
    let words = "the line is not ended by CR LF or LF";
    let long = "x".repeat(1000);
    for line in [
        "x",
        "29.02.2000",
        "x\rx",
        "x\r",
        "\r",
        " ",
        GOOD.trim(),
        &long,
    ] {
        let text = format!("{GOOD}{GOOD}{line}");
        let said = explained(text.as_bytes());
        assert_eq!((said.line, said.bytes), (3, line.as_bytes()));
        assert_eq!(said.fault, AsciiFault::NotEnded);
        let end = line.len();
        assert_eq!((said.place(), said.to_string().as_str()), (end..end, words));
    }
}

#[test]
fn a_line_that_is_too_long() {
    let long = "x".repeat(1000);
    let words = "the line has more than 250 bytes";
    hold(&[
        (&long, 250..1000, words),
        (&long[..251], 250..251, words),
        (&" ".repeat(251), 250..251, words),
    ]);
    let words = format!("part 1 (date) is wrong: \"{}\"...", &long[..40]);
    hold(&[(&long[..250], 0..250, &words), (&long[..41], 0..41, &words)]);
}

#[test]
fn bytes_in_words() {
    let text = b"29.02.2000 12\t\"\\\xFF\0\n";
    let said = explained(text);
    let fault = AsciiFault::WrongPart {
        number: 2,
        part: AsciiPart::Time,
        bytes: b"12\t\"\\\xFF\0",
    };
    assert_eq!((said.line, said.fault), (1, fault));
    let words = r#"part 2 (time) is wrong: "12\x09\x22\x5C\xFF\x00""#;
    assert_eq!(said.to_string(), words);
    // Of CR CR LF the first CR is part of the line.
    let said = explained(b"29.02.2000 12:00:00.0000 CAN #1 | Rx 123 0\r\r\n");
    let words = r#"part 8 (length) is wrong: "0\x0D""#;
    assert_eq!((said.place(), said.to_string().as_str()), (41..43, words));
}

#[test]
fn a_stamp_that_can_not_stand_there() {
    let at = |stamp: &str| format!("{stamp} CAN #1 | Rx 123 0\n");
    let before = at("29.02.2000 12:00:00.0019") + &at("29.02.2000   12:00:00.0009");
    let said = explained(before.as_bytes());
    assert_eq!((said.line, said.fault), (2, AsciiFault::BeforeStart));
    assert_eq!(said.place(), 0..26);
    let words = "its stamp lies before the start, that of line 1 cut to the millisecond";
    assert_eq!(said.to_string(), words);

    let behind = at("30.12.1899 00:00:00.0009") + GOOD + &at("30.11.1908 19:29:36.7107");
    let said = explained(behind.as_bytes());
    assert_eq!((said.line, said.fault), (2, AsciiFault::TooFarBehindStart));
    let words =
        "its stamp lies more than 281474976710655 microseconds behind the start, that of line 1 \
        cut to the millisecond";
    assert_eq!((said.place(), said.to_string().as_str()), (0..24, words));
}

#[test]
fn a_sample() {
    let said = explained(NO_SUCH_DATE);
    let fault = AsciiFault::WrongPart {
        number: 1,
        part: AsciiPart::Date,
        bytes: b"31.11.2023",
    };
    assert_eq!(said.fault, fault);
    assert_eq!(said.bytes[said.place()], *b"31.11.2023");
}

#[test]
fn only_the_refusals_of_this_text() {
    let at = |stamp: &str| format!("{stamp} CAN #1 | Rx 123 0\n");
    let before = at("29.02.2000 12:00:00.0019") + &at("29.02.2000 12:00:00.0009");
    let behind = at("30.12.1899 00:00:00.0009") + &at("30.11.1908 19:29:36.7107");
    let no_line = format!("{GOOD}x\r\n");
    for text in [&before, &behind, &no_line, &before[..60]] {
        let own = read_ascii(text.as_bytes(), &mut []).unwrap_err();
        for reason in Reason::ALL {
            for place in [0, 1, 2, 3, u64::MAX] {
                let refused = Refused { reason, place };
                let said = explain_ascii_refusal(text.as_bytes(), refused);
                assert_eq!(said.is_some(), refused == own);
            }
        }
    }
}

/// What is good, and what is refused without a line.
#[test]
fn no_line_to_explain() {
    let more = GOOD.repeat(MOST_ROWS + 1);
    let above = vec![b'\n'; MOST_TEXT + 1];
    for (text, number) in [(SMALL, 8), (b"", 0), (more.as_bytes(), 34), (&above, 1)] {
        let own = read_ascii(text, &mut []).err();
        assert_eq!(own.map_or(0, |own| own.number()), number);
        let of_lines = [31, 32, 33].map(|number| Reason::of(number).unwrap());
        let places = [0, 1, 2, 3].into_iter();
        let refusals = places.flat_map(|place| of_lines.map(|reason| Refused { reason, place }));
        for refused in refusals.chain(own) {
            assert_eq!(explain_ascii_refusal(text, refused), None);
        }
    }
}

#[test]
fn behind_as_many_lines_as_there_may_be() {
    let text = GOOD.repeat(MOST_ROWS + 1) + "\n";
    let said = explained(text.as_bytes());
    assert_eq!(
        (said.line, said.fault),
        (MOST_ROWS as u64 + 2, AsciiFault::Empty)
    );
}

#[test]
fn made_by_hand_it_has_a_place_and_words() {
    let (part, next) = (AsciiPart::Data { byte: 0, of: 255 }, AsciiPart::Bar);
    #[rustfmt::skip]
    let faults = [
        AsciiFault::NotEnded,
        AsciiFault::TooLong,
        AsciiFault::WrongPart { number: 0, part, bytes: b"x" },
        AsciiFault::WrongPart { number: u64::MAX, part, bytes: b"x" },
        AsciiFault::OneTooMany { number: 3, bytes: b"x" },
        AsciiFault::BlankBefore,
        AsciiFault::BlankBehind,
        AsciiFault::Empty,
        AsciiFault::EndedEarly { number: u64::MAX, part, next },
        AsciiFault::BeforeStart,
        AsciiFault::TooFarBehindStart,
    ];
    for fault in faults {
        for bytes in [&b""[..], b"  ", b" x ", b" x y z"] {
            let said = AsciiExplanation {
                line: 0,
                bytes,
                fault,
            };
            assert!(bytes.get(said.place()).is_some(), "{said:?}");
            assert!(!said.expected().is_empty() && !said.to_string().is_empty());
        }
    }
}

/// Every byte of a text changed in turn: a refusal 31, 32 or 33 is always explained, and nothing else is.
#[test]
fn whatever_the_bytes_are() {
    let text = "29.02.2000 12:00:00.0000 CAN #1 | Rx 123 2 0a ff\r\n\
        29.02.2000 12:00:00.0001 CANExt #16 | EXTENDED Tx 18ab0001 1 00\n";
    let mut explanations = 0;
    for at in 0..text.len() {
        for byte in *b"\0\t\n\r #./0189:ACEFRTXacefx|\xFF" {
            let mut text = text.as_bytes().to_vec();
            text[at] = byte;
            let Err(own) = read_ascii(&text, &mut [0; 2 * RECORD]) else {
                continue;
            };
            let said = explain_ascii_refusal(&text, own);
            assert_eq!(said.is_some(), matches!(own.number(), 31..=33));
            let Some(said) = said else { continue };
            explanations += 1;
            assert_eq!(said.line, own.place);
            assert!(said.to_string().is_ascii() && said.expected().is_ascii());
            let wrong = &said.bytes[said.place()];
            match said.fault {
                AsciiFault::WrongPart { bytes, .. } => assert_eq!(wrong, bytes),
                AsciiFault::OneTooMany { bytes, .. } => assert_eq!(wrong, bytes),
                AsciiFault::BlankBefore | AsciiFault::BlankBehind => assert_eq!(wrong, b" "),
                AsciiFault::BeforeStart | AsciiFault::TooFarBehindStart => {
                    assert_eq!(wrong.len(), 24)
                }
                _ => assert_eq!(wrong, b""),
            }
        }
    }
    assert!(explanations > 2000, "{explanations}");
}
