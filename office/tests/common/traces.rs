//! Traces, good and broken, and what the library itself makes of them.

use bushingowl::{Refused, CHANNEL_AS_BENCH};
use std::path::Path;

pub const HEAD: &str = ";$FILEVERSION=1.2\r\n;$STARTTIME=36585.5\r\n";

/// A file of the folder `samples`.
pub fn sample(name: &str) -> Vec<u8> {
    let samples = concat!(env!("CARGO_MANIFEST_DIR"), "/../samples");
    std::fs::read(Path::new(samples).join(name)).unwrap()
}

/// Lines behind the two first ones of version 1.2.
pub fn trace(lines: &str) -> Vec<u8> {
    format!("{HEAD}{lines}").into_bytes()
}

/// A good trace with so many rows, a millisecond apart.
pub fn rows(count: usize) -> Vec<u8> {
    let mut text = HEAD.to_string();
    for number in 1..=count {
        text += &format!("{number}) {number}.000 1 Rx 0123 2 0A FF\r\n");
    }
    text.into_bytes()
}

/// What `convert` must write.
pub fn export(text: &[u8]) -> Result<Vec<u8>, Refused> {
    export_as(text, CHANNEL_AS_BENCH)
}

pub fn export_as(text: &[u8], channel: u64) -> Result<Vec<u8>, Refused> {
    let (trace, records) = bushingowl::read_to_vec(text)?;
    let (_, lines) = bushingowl::export_to_vec(trace.start, channel, &records)?;
    Ok(lines)
}

/// A trace that is refused, with the words that the report has for it.
#[derive(Clone)]
pub struct Broken {
    pub name: &'static str,
    pub text: Vec<u8>,
    pub number: u64,
    pub place: u64,
    pub reason: &'static str,
    /// What stands behind the reason.
    pub detail: &'static str,
}

const NO_VERSION: &str = "line 1 is no ;$FILEVERSION=1.1 or 1.2 (refusal 4)";
const NO_START: &str = "line 2 is no ;$STARTTIME= up to day 99,999 (refusal 5)";

/// Refusals 2 to 7, each in several ways. Of 1, see `large.rs`.
pub fn broken() -> Vec<Broken> {
    [ends(), heads(), comments(), no_rows()].concat()
}

fn ends() -> Vec<Broken> {
    let not_ended = |name, lines, detail| Broken {
        name,
        text: trace(lines),
        number: 2,
        place: 4,
        reason: "line 4 is not ended by CR LF (refusal 2)",
        detail,
    };
    vec![
        not_ended("lf.trc", ";\r\n;a\n;\r\n", "it ends with LF alone"),
        not_ended("cr.trc", ";\r\n;a\r;\r\n", "it ends with CR alone"),
        not_ended("end.trc", ";\r\n1) 0.0", "the file ends within it"),
    ]
}

fn heads() -> Vec<Broken> {
    let version = |name, text: &str, detail| Broken {
        name,
        text: text.into(),
        number: 4,
        place: 1,
        reason: NO_VERSION,
        detail,
    };
    let start = |name, line: &str, detail| Broken {
        name,
        text: format!(";$FILEVERSION=1.1\r\n{line}").into(),
        number: 5,
        place: 2,
        reason: NO_START,
        detail,
    };
    let (late, digits) = (";$STARTTIME=99999.9999999999\r\n", ";$STARTTIME=36585\r\n");
    #[rustfmt::skip]
    let heads = vec![
        version("version-1.3.trc", ";$FILEVERSION=1.3\r\n", "version \"1.3\" was found"),
        version("version-2.1.trc", "; $FILEVERSION=2.1\r\n;$STARTTIME=1.5\r\n", "version \"2.1\" was found"),
        version("version-none.trc", "; a comment\r\n", "no version was found"),
        version("empty.trc", "", "the file is empty"),
        start("start-late.trc", late, "start \"99999.9999999999\" was found"),
        start("start-none.trc", "", "there is none"),
        start("start-digits.trc", digits, "start \"36585\" was found"),
    ];
    heads
}

fn comments() -> Vec<Broken> {
    vec![
        Broken {
            name: "long.trc",
            text: trace(&format!(";{}\r\n", "x".repeat(250))),
            number: 3,
            place: 3,
            reason: "line 3 has more than 250 bytes (refusal 3)",
            detail: "it has 251 bytes",
        },
        Broken {
            name: "dollar.trc",
            text: trace(";\r\n;  $COLUMNS=N,O,T\r\n"),
            number: 6,
            place: 4,
            reason: "line 4 is a comment with $ first (refusal 6)",
            detail: "only lines 1 and 2 may have it there",
        },
    ]
}

fn no_rows() -> Vec<Broken> {
    let no_row = |name, line: &str, detail| Broken {
        name,
        text: trace(&format!("1) 0.000 1 Rx 0123 0\r\n{line}\r\n")),
        number: 7,
        place: 4,
        reason: "line 4 is no row (refusal 7)",
        detail,
    };
    vec![
        no_row(
            "length.trc",
            "2) 1500.250 2 Tx 18AB0001 9",
            "field 6 (length) is wrong: \"9\"",
        ),
        no_row(
            "early.trc",
            "2) 1500.250 2 Tx 18AB0001 1",
            "the row ended early after field 6 (length): RTR or data byte 1 of 1 was expected next",
        ),
        no_row(
            "number.trc",
            "3) 0.000 1 Rx 0123 0",
            "field 1 (row number) is wrong: \"3)\" instead of \"2)\"",
        ),
        no_row(
            "blank.trc",
            "",
            "the line is empty: row number \"2)\" was expected",
        ),
    ]
}
