//! `owl explain`: the refused line, what is wrong in it, what was expected, and what to do about it.

use crate::common::traces::{rows, sample, trace};
use crate::common::{Ran, Scratch};
use bushingowl::{Reason, Refused};

#[track_caller]
fn explained(lines: &str) -> Ran {
    let scratch = Scratch::new();
    scratch.put("a.trc", trace(lines));
    scratch.owl("explain a.trc").ended(1).quietly()
}

/// Where the carets stand under the printed line, which is the one with these bytes, and how many they are.
#[track_caller]
fn carets(ran: &Ran, line: &str) -> (usize, usize) {
    let lines = ran.lines();
    let at = lines.iter().position(|printed| printed.contains(line));
    let at = at.unwrap_or_else(|| panic!("no line {line}: {ran}"));
    let begin = lines[at].find(line).unwrap();
    let under = lines[at + 1];
    let first = under.find('^').unwrap_or_else(|| panic!("no caret: {ran}"));
    let count = under[first..]
        .chars()
        .take_while(|mark| *mark == '^')
        .count();
    assert_eq!(under.matches('^').count(), count, "{ran}");
    assert!(first >= begin, "{ran}");
    (first - begin, count)
}

#[test]
fn marks_the_wrong_field() {
    let good = "1) 0.000 1 Rx 0123 0\r\n";
    for (row, wrong) in [
        ("2) 1500.250 2 Tx 18AB0001 9", "9"),
        ("2) 1500.250 17 Tx 18AB0001 0", "17"),
        ("2) 1500.250 2 Txx 18AB0001 0", "Txx"),
        ("2)   1500.25  2 Tx 18AB0001 0", "1500.25"),
        ("3) 1500.250 2 Tx 18AB0001 0", "3)"),
        ("2) 1500.250 2 Tx 18AB0001 2 00 zz", "zz"),
        ("2) 1500.250 2 Tx 18AB0001 1 00 FE", "FE"),
    ] {
        let ran = explained(&format!("{good}{row}\r\n"));
        assert!(ran.out().contains("line 4 is no row (refusal 7)"), "{ran}");
        let expected = (row.rfind(wrong).unwrap(), wrong.len());
        assert_eq!(carets(&ran, row), expected, "{ran}");
    }
}

#[test]
fn marks_the_end_of_a_row_that_ended_early() {
    let row = "2) 1500.250 2 Tx 18AB0001 1";
    let ran = explained(&format!("1) 0.000 1 Rx 0123 0\r\n{row}\r\n"));
    let (at, _) = carets(&ran, row);
    assert!(at >= row.len(), "{ran}");
    assert!(ran.out().contains("data byte 1 of 1"), "{ran}");
}

#[test]
fn says_the_number_of_the_line_and_what_was_expected() {
    let ran = explained("1) 0.000 1 Rx 0123 0\r\n7) 0.000 1 Rx 0123 0\r\n");
    let printed = ran
        .lines()
        .into_iter()
        .find(|line| line.contains("7) 0.000 1"))
        .unwrap();
    assert!(printed.split("7)").next().unwrap().contains('4'), "{ran}");
    assert!(
        ran.out()
            .contains("field 1 (row number) is wrong: \"7)\" instead of \"2)\""),
        "{ran}"
    );
    assert!(ran.out().to_lowercase().contains("expected"), "{ran}");
}

#[test]
fn of_each_refusal_gives_reason_line_carets_and_what_to_do() {
    for broken in crate::common::traces::broken() {
        let scratch = Scratch::new();
        scratch.put(broken.name, &broken.text);
        let ran = scratch
            .owl(&format!("explain {}", broken.name))
            .ended(1)
            .quietly();
        let lines = ran.lines();
        assert_eq!(lines[0], format!("{}: {}", broken.name, broken.reason));
        assert!(ran.out().contains('^'), "{ran}");
        let [.., why, expected, to_do] = lines[..] else {
            panic!("{ran}");
        };
        assert_eq!(why, broken.detail);
        assert!(expected.starts_with("expected: "), "{ran}");
        assert_eq!(to_do, what_to_do(broken.number), "{ran}");
    }
}

/// The last line of a refusal with this number.
fn what_to_do(number: u64) -> String {
    let reason = Reason::of(number).unwrap();
    let remedy = Refused { reason, place: 1 }.remedy();
    format!("what to do: {}", remedy.unwrap())
}

#[test]
fn of_a_sample_prints_what_the_readme_has() {
    let scratch = Scratch::new();
    scratch.put("samples/wrong-row.trc", sample("wrong-row.trc"));
    let ran = scratch
        .owl("explain samples/wrong-row.trc")
        .ended(1)
        .quietly();
    let mut printed = String::from("\n\n");
    for line in ran.lines() {
        let indent = if line.is_empty() { "" } else { "    " };
        printed += &format!("{indent}{line}\n");
    }
    let readme = include_str!(concat!(env!("CARGO_MANIFEST_DIR"), "/../README.md"));
    assert!(readme.contains(&(printed + "\n")), "{ran}");
}

#[test]
fn shows_bytes_that_cannot_be_seen() {
    let scratch = Scratch::new();
    let text = [&trace("1)\t0.000 1 Rx 0123 0")[..], b" \x1B[31m\xFF\r\n"].concat();
    scratch.put("a.trc", text);
    let ran = scratch.owl("explain a.trc").ended(1).quietly();
    assert!(ran.out().contains("\\x09"), "{ran}");
    assert!(!ran.out().contains(['\t', '\x1B', '\r']), "{ran}");
}

#[test]
fn keeps_carets_under_a_field_behind_bytes_that_cannot_be_seen() {
    let ran = explained("1)\t0.000 1 Rx 0123 0\r\n");
    assert_eq!(carets(&ran, "1)\\x090.000 1 Rx 0123 0"), (0, 11), "{ran}");
}

#[test]
fn cuts_a_line_that_is_very_long() {
    let row = format!("1) 0.000 1 Rx 0123 {}\r\n", "9".repeat(5_000_000));
    let ran = explained(&row);
    assert!(ran.out().contains("(refusal 3)"), "{}", ran.out.len());
    assert!(ran.out.len() < 2_000, "{}", ran.out.len());
}

#[test]
fn says_that_a_good_file_is_good() {
    let scratch = Scratch::new();
    scratch.put("a.trc", rows(3));
    scratch.sample("edited.asc");
    for words in ["explain a.trc", "explain edited.asc --ascii"] {
        let ran = scratch.owl(words).ended(0).quietly();
        assert_eq!(ran.lines().len(), 1, "{ran}");
        assert!(
            ran.out().contains(words.split(' ').nth(1).unwrap()),
            "{ran}"
        );
    }
}

#[test]
fn of_ascii_marks_the_wrong_part() {
    let scratch = Scratch::new();
    scratch.sample("no-such-date.asc");
    let ran = scratch
        .owl("explain --ascii no-such-date.asc")
        .ended(1)
        .quietly();
    assert!(ran.out().contains("(refusal 31)"), "{ran}");
    let line = "31.11.2023 10:00:00.3631 CAN #2 | Rx 7a6 4 5b de aa 2c";
    assert_eq!(carets(&ran, line), (0, 10), "{ran}");
    assert_eq!(*ran.lines().last().unwrap(), what_to_do(31), "{ran}");
}

#[test]
fn of_ascii_that_goes_back() {
    let scratch = Scratch::new();
    let line = "29.02.2000 12:00:00.0000 CAN #1 | Rx 123 0\r\n";
    scratch.put("a.asc", format!("{line}{}", line.replace("12:", "11:")));
    let ran = scratch.owl("explain --ascii a.asc").ended(1).quietly();
    assert!(ran.out().contains("(refusal 32)"), "{ran}");
    let (at, count) = carets(&ran, &line.trim_end().replace("12:", "11:"));
    assert!(at + count <= 24, "{ran}");
    assert_eq!(*ran.lines().last().unwrap(), what_to_do(32), "{ran}");
}

#[test]
fn of_what_cannot_be_read() {
    let scratch = Scratch::new();
    scratch.folder("folder");
    for name in ["none.trc", "folder", "folder/none"] {
        let ran = scratch
            .owl(&format!("explain {name}"))
            .ended(2)
            .complaining();
        ran.failure_of(name);
    }
}
