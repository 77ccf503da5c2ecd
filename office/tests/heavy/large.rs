//! The limits of size: 134,217,728 bytes, and 999,999 rows.

use crate::common::traces::{export, trace};
use crate::common::Scratch;
use bushingowl::{MOST_LINE, MOST_ROWS, MOST_TEXT, RECORD};

/// What each job may hold, and 8 MiB for the program.
const JOB: usize = MOST_TEXT + 1 + MOST_ROWS * (RECORD + MOST_LINE);
const PROGRAM: usize = 8 << 20;

/// A good trace of just so many bytes: a row behind every comment.
fn of_size(size: usize) -> Vec<u8> {
    let mut text = trace("");
    let comment = format!(";{}\r\n", "x".repeat(249));
    let mut number = 1;
    while size - text.len() > 600 {
        text.extend(comment.as_bytes());
        text.extend(format!("{number}) {number}.000 1 Rx 0123 2 0A FF\r\n").bytes());
        number += 1;
    }
    while size > text.len() {
        let left = size - text.len();
        // What is left must be enough for a comment.
        let length = if left > 252 {
            left.min(252 * 2) / 2
        } else {
            left
        };
        text.extend(format!(";{}\r\n", "y".repeat(length - 3)).bytes());
    }
    assert_eq!(text.len(), size);
    text
}

/// A good trace with as many rows as there can be, each as long as it can be.
fn of_all_rows() -> Vec<u8> {
    let mut text = trace("");
    for number in 1..=MOST_ROWS {
        let row =
            format!("{number}) 281474976710.655 16 Rx 1FFFFFFF 8 00 11 22 33 44 55 66 77\r\n");
        text.extend(row.bytes());
    }
    text
}

#[test]
fn are_taken_and_held_within_the_bound() {
    let scratch = Scratch::new();
    let (largest, longest) = (of_size(MOST_TEXT), of_all_rows());
    scratch.put("a.trc", &largest);
    scratch.put("b.trc", &longest);
    scratch.put("c.trc", &largest);
    scratch.put("d.trc", &longest);
    let ran = scratch.owl("convert . --jobs 2 --json").ended(0).quietly();
    assert!(scratch.bytes("a.asc") == export(&largest).unwrap());
    assert!(scratch.bytes("d.asc") == export(&longest).unwrap());
    let (files, summary) = ran.objects();
    assert_eq!(files[0].number("bytes_read"), MOST_TEXT as f64);
    assert_eq!(files[1].number("rows"), MOST_ROWS as f64);
    assert_eq!(
        files[1].number("bytes_written"),
        (MOST_ROWS * MOST_LINE) as f64
    );
    let peak = summary.number("peak_bytes");
    println!("{peak} bytes at most");
    assert!(peak <= (2 * JOB + PROGRAM) as f64, "{peak}");
    assert_eq!(
        scratch.names_but("", ".trc"),
        ["a.asc", "b.asc", "c.asc", "d.asc"]
    );
}

#[test]
fn are_limits() {
    let scratch = Scratch::new();
    let text = [&of_size(MOST_TEXT)[..], b";"].concat();
    scratch.put("a.trc", text);
    let more = [&of_all_rows()[..], b"1000000) 0.000 1 Rx 0123 0\r\n"].concat();
    scratch.put("b.trc", more);
    let ran = scratch.owl("convert . --jobs 1").ended(1).quietly();
    assert_eq!(
        ran.lines()[..3],
        [
            "./a.trc: the text has more than 134,217,728 bytes (refusal 1)",
            "./b.trc: line 1000002 is no row (refusal 7): row number 999999 stands before it, and no row may follow",
            "2 files: 0 converted, 2 refused",
        ]
    );
    let (files, _) = scratch.owl("check a.trc --json").ended(1).objects();
    assert_eq!(
        (files[0].number("refusal"), files[0].number("place")),
        (1.0, 0.0)
    );
    assert_eq!(scratch.names(""), ["a.trc", "b.trc"]);
    let ran = scratch.owl("explain a.trc").ended(1).quietly();
    assert_eq!(
        ran.lines(),
        [
            "a.trc: the text has more than 134,217,728 bytes (refusal 1)",
            "what to do: cut it: each part of a trace with the two first lines, its rows with the numbers that they have",
        ]
    );
}

#[test]
fn of_lines_that_come_back_are_limits() {
    let scratch = Scratch::new();
    let line = "29.02.2000 12:00:00.0000 CAN #1 | Rx 123 0\n";
    scratch.put("a.asc", line.repeat(MOST_ROWS + 1));
    let ran = scratch.owl("explain --ascii a.asc").ended(1).quietly();
    assert_eq!(
        ran.lines(),
        [
            "a.asc: there are more than 999,999 lines (refusal 34)",
            "what to do: cut it: each part with at most 999,999 lines",
        ]
    );
}

#[test]
fn do_not_make_owl_read_what_has_no_end() {
    let scratch = Scratch::new();
    let ran = scratch.shell("timeout 20 \"$OWL\" check /dev/zero --json");
    let (files, _) = ran.ended(1).objects();
    assert_eq!(files[0].number("refusal"), 1.0);
}
