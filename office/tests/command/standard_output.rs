//! Standard output that is closed early, which is no failure, and one that can't be written, which is.

use crate::common::traces::{export, rows, trace};
use crate::common::{Ran, Scratch};
use std::io::{BufRead, BufReader};

/// Takes so many lines of what is printed, and then no more.
fn closed_behind(scratch: &Scratch, words: &str, lines: usize) -> Ran {
    let mut owl = scratch.start(words);
    let mut reader = BufReader::new(owl.stdout.take().unwrap());
    for _ in 0..lines {
        reader.read_line(&mut String::new()).unwrap();
    }
    drop(reader);
    Ran::of(owl.wait_with_output().unwrap())
}

#[test]
fn may_be_closed_early() {
    let scratch = Scratch::new();
    scratch.put("a.trc", rows(100_000));
    for form in ["", "--csv", "--json"] {
        for lines in [0, 1, 1_000] {
            closed_behind(&scratch, &format!("show a.trc {form}"), lines)
                .ended(0)
                .quietly();
        }
    }
    for words in ["--help", "convert --help", "--version", "explain a.trc"] {
        closed_behind(&scratch, words, 0).ended(0).quietly();
    }
}

#[test]
fn may_be_closed_by_head() {
    let scratch = Scratch::new();
    scratch.put("a.trc", rows(100_000));
    let ran = scratch
        .shell("\"$OWL\" show a.trc --csv | head -1")
        .quietly();
    assert_eq!(ran.lines().len(), 1);
    assert!(ran.out().starts_with("row,stamp,"), "{ran}");
}

#[test]
fn closed_early_stops_no_conversion() {
    for words in ["convert week --json --jobs 1", "convert week"] {
        let scratch = Scratch::new();
        for number in 0..50 {
            scratch.put(format!("week/{number}.trc"), rows(500));
        }
        closed_behind(&scratch, words, 0).ended(0).quietly();
        assert_eq!(scratch.names_but("week", ".trc").len(), 50);
    }
}

#[test]
fn closed_early_keeps_the_status() {
    let scratch = Scratch::new();
    scratch.put("bad.trc", trace("x\r\n"));
    for number in 0..200 {
        scratch.put(format!("week/{number}.trc"), "");
    }
    closed_behind(&scratch, "check week", 0).ended(1).quietly();
    closed_behind(&scratch, "check week --json", 0)
        .ended(1)
        .quietly();
    closed_behind(&scratch, "explain bad.trc", 0)
        .ended(1)
        .quietly();
    closed_behind(&scratch, "check week none.trc", 0)
        .ended(2)
        .failure_of("none.trc");
}

#[test]
fn that_is_full_is_a_failure() {
    let scratch = Scratch::new();
    scratch.put("a.trc", rows(3));
    scratch.put("large.trc", rows(100_000));
    scratch.put("bad.trc", trace("x\r\n"));
    for words in [
        "show a.trc",
        "show a.trc --csv",
        "show large.trc --json",
        "explain a.trc",
        "explain bad.trc",
        "check a.trc",
        "check bad.trc --json",
        "convert a.trc bad.trc",
        "--help",
        "show --help",
        "--version",
    ] {
        println!("{words}");
        let ran = scratch
            .shell(&format!("exec \"$OWL\" {words} >/dev/full"))
            .ended(2)
            .complaining();
        assert!(ran.err().contains("No space left on device"), "{ran}");
    }
    assert!(scratch.bytes("a.asc") == export(&rows(3)).unwrap());
}

#[test]
fn that_is_full_stops_no_conversion() {
    let scratch = Scratch::new();
    for number in 0..20 {
        scratch.put(format!("week/{number:02}-bad.trc"), "");
        scratch.put(format!("week/{number:02}.trc"), rows(1));
    }
    for form in ["", "--json"] {
        scratch
            .shell(&format!(
                "exec \"$OWL\" convert week {form} --jobs 1 --force >/dev/full"
            ))
            .ended(2);
        assert_eq!(scratch.names_but("week", ".trc").len(), 20);
        for name in scratch.names_but("week", ".trc") {
            std::fs::remove_file(scratch.path("week").join(name)).unwrap();
        }
    }
}
