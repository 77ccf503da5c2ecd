//! Odd names: blanks, newlines, quotes, dashes, bytes that are no UTF-8, and very long ones.

use crate::common::traces::{rows, sample, trace};
use crate::common::{Ran, Scratch};
use std::ffi::{OsStr, OsString};
use std::os::unix::ffi::{OsStrExt, OsStringExt};
use std::path::Path;

/// Names without their ending, and as they are shown.
const ODD: [(&[u8], &str); 14] = [
    (b"a b", "a b"),
    (b" ", " "),
    (b"a\nb", "a\\x0Ab"),
    (b"tab\t", "tab\\x09"),
    (b"\x1B[31mred\x7F", "\\x1B[31mred\\x7F"),
    (b"a\"b", "a\"b"),
    (b"it's", "it's"),
    (b"*?$HOME`x`", "*?$HOME`x`"),
    (b"a: b (refusal 7)", "a: b (refusal 7)"),
    (b"\xC3\xA4\xE2\x82\xAC", "ä€"),
    (b"\xFF\xFE", "\\xFF\\xFE"),
    (b"caf\xE9", "caf\\xE9"),
    (b"\xC2\x85next", "\\xC2\\x85next"),
    (b"cut\xE2\x82", "cut\\xE2\\x82"),
];

fn with_ending(name: &[u8], ending: &str) -> OsString {
    OsString::from_vec([name, ending.as_bytes()].concat())
}

fn owl_on(scratch: &Scratch, words: &str, name: &OsStr) -> Ran {
    scratch.owl_with(words.split(' ').map(OsStr::new).chain([name]))
}

#[test]
fn are_taken_as_they_are() {
    for (name, _) in ODD {
        let scratch = Scratch::new();
        let (from, to) = (with_ending(name, ".trc"), with_ending(name, ".asc"));
        scratch.put(&from, sample("small.trc"));
        owl_on(&scratch, "convert", &from).ended(0).quietly();
        assert_eq!(scratch.bytes(&to), sample("small.txt"), "{name:?}");
        assert_eq!(scratch.names("").len(), 2);
    }
}

#[test]
fn are_found_in_folders() {
    let scratch = Scratch::new();
    for (name, _) in ODD {
        scratch.put(Path::new("week\n").join(with_ending(name, ".trc")), rows(1));
    }
    scratch
        .owl_with(["convert", "week\n", "-o", "o u t"])
        .ended(0)
        .quietly();
    for (name, _) in ODD {
        assert!(scratch.has(Path::new("o u t").join(with_ending(name, ".asc"))));
    }
}

#[test]
fn are_shown_on_one_line() {
    for (name, shown) in ODD {
        let scratch = Scratch::new();
        let from = with_ending(name, ".trc");
        scratch.put(&from, trace("1) 0.000 1 Rx 0123 9\r\n"));
        let ran = owl_on(&scratch, "check", &from).ended(1).quietly();
        let line =
            format!("{shown}.trc: line 3 is no row (refusal 7): field 6 (length) is wrong: \"9\"");
        assert_eq!(ran.lines()[0], line);
        let none = with_ending(name, ".none");
        let ran = owl_on(&scratch, "check", &none).ended(2);
        ran.failure_of(&format!("{shown}.none"));
        assert_eq!(ran.err().lines().count(), 1, "{ran}");
    }
}

fn hex(bytes: &[u8]) -> String {
    bytes.iter().map(|byte| format!("{byte:02x}")).collect()
}

#[test]
fn are_whole_in_json() {
    for (name, _) in ODD {
        let scratch = Scratch::new();
        let from = with_ending(name, ".trc");
        scratch.put(&from, rows(1));
        let ran = owl_on(&scratch, "convert --json", &from).ended(0).quietly();
        let (files, _) = ran.objects();
        assert_eq!(
            files[0].text("file"),
            String::from_utf8_lossy(from.as_bytes())
        );
        let output = with_ending(name, ".asc");
        assert_eq!(
            files[0].text("output"),
            String::from_utf8_lossy(output.as_bytes())
        );
        let utf8 = from.to_str().is_some();
        assert_eq!(files[0].has("file_hex"), !utf8, "{ran}");
        if !utf8 {
            assert_eq!(
                files[0].text("file_hex").to_lowercase(),
                hex(from.as_bytes())
            );
        }
    }
}

#[test]
fn are_whole_in_json_of_refusals_and_failures() {
    for (name, _) in ODD {
        let scratch = Scratch::new();
        let (bad, none) = (with_ending(name, ".trc"), with_ending(name, ".none"));
        scratch.put(&bad, "");
        for (name, status, ended) in [(&bad, "refused", 1), (&none, "failed", 2)] {
            let ran = owl_on(&scratch, "convert --json", name).ended(ended);
            let (files, _) = ran.objects();
            assert_eq!(files[0].text("status"), status);
            assert_eq!(
                files[0].text("file"),
                String::from_utf8_lossy(name.as_bytes())
            );
            assert_eq!(files[0].has("file_hex"), name.to_str().is_none(), "{ran}");
        }
    }
}

#[test]
fn with_dashes_stand_behind_two_of_them() {
    for name in ["-a.trc", "--force", "-", "--", "--jobs=0", "-o", "-h"] {
        let scratch = Scratch::new();
        scratch.put(name, rows(1));
        scratch.owl_with(["convert", "--", name]).ended(0).quietly();
        assert_eq!(scratch.names("").len(), 2, "{name}");
        scratch
            .owl_with(["show", "--csv", "--", name])
            .ended(0)
            .quietly();
        scratch.owl_with(["explain", "--", name]).ended(0).quietly();
        scratch
            .owl_with(["check", &format!("./{name}")])
            .ended(0)
            .quietly();
    }
}

#[test]
fn with_dashes_may_be_those_of_the_folder_of_outputs() {
    let scratch = Scratch::new();
    scratch.put("a.trc", rows(1));
    scratch
        .owl("convert a.trc --output=-out")
        .ended(0)
        .quietly();
    assert_eq!(scratch.names("./-out"), ["a.asc"]);
}

#[test]
fn of_255_bytes_fit_where_the_ending_is_replaced() {
    let scratch = Scratch::new();
    let long = "x".repeat(251);
    scratch.put(format!("{long}.trc"), rows(1));
    scratch
        .owl_with(["convert", &format!("{long}.trc")])
        .ended(0)
        .quietly();
    assert!(scratch.has(format!("{long}.asc")));
}

#[test]
fn of_255_bytes_may_not_fit() {
    for (words, long) in [
        ("convert", "x".repeat(255)),
        ("write --version 1.2", "x".repeat(251) + ".trc"),
        ("back", "x".repeat(255)),
    ] {
        let scratch = Scratch::new();
        let text = if words == "back" {
            sample("edited.asc")
        } else {
            rows(1)
        };
        scratch.put(&long, &text);
        scratch.put("a.trc", &text);
        let ran = scratch.owl(&format!("{words} {long} a.trc")).ended(2);
        assert!(ran.failure_of(&long).contains("too long"), "{ran}");
        assert_eq!(scratch.names("").len(), 3, "{ran}");
    }
}

#[test]
fn that_are_too_long_or_empty_are_no_files() {
    let scratch = Scratch::new();
    for name in ["x".repeat(256), "x/".repeat(3000), String::new()] {
        let ran = scratch.owl_with(["convert", &name]).ended(2);
        assert_eq!(ran.err().lines().count(), 1, "{ran}");
    }
}
