//! The summary: counts in words, and as JSON sums of what the objects of the files say.

use crate::common::json::Json;
use crate::common::traces::{rows, sample, trace};
use crate::common::Scratch;

/// Two files to be converted, one that is there, three that are refused and one that can't be read.
fn week() -> Scratch {
    let scratch = Scratch::new();
    for name in ["a", "b", "c"] {
        scratch.put(format!("week/{name}.trc"), sample("small.trc"));
    }
    scratch.put("week/c.asc", sample("small.txt"));
    for name in ["d", "e"] {
        scratch.put(format!("week/{name}.trc"), trace(";\n"));
    }
    scratch.put("week/f.trc", trace("x\r\n"));
    scratch
}

#[test]
fn counts_what_was_done() {
    let ran = week().owl("convert week").ended(1).quietly();
    let summary = ran.lines()[3..].join("\n");
    assert_eq!(
        summary,
        "6 files: 2 converted, 1 already there, 3 refused\n9 rows, 6 lines, 3 left out, 3 steps back\nrefused by number: 2 in 2 files, 7 in 1 file"
    );
}

#[test]
fn counts_what_could_not_be_done() {
    let ran = week().owl("convert week none.trc").ended(2);
    let line = ran.lines()[3].to_string();
    assert_eq!(
        line,
        "7 files: 2 converted, 1 already there, 3 refused, 1 could not be done"
    );
    ran.failure_of("none.trc");
}

#[test]
fn keeps_the_first_count_though_it_is_0() {
    let scratch = week();
    for (words, line) in [
        ("convert week/d.trc", "1 file: 0 converted, 1 refused"),
        ("check week/d.trc", "1 file: 0 good, 1 refused"),
        (
            "write --version 1.2 week/d.trc",
            "1 file: 0 written, 1 refused",
        ),
        ("back week/d.trc", "1 file: 0 written, 1 refused"),
        ("convert week/c.trc", "1 file: 0 converted, 1 already there"),
    ] {
        let ran = scratch.owl(words);
        assert!(ran.lines().contains(&line), "{words}: {ran}");
    }
    let ran = scratch.owl("convert none.trc").ended(2);
    assert_eq!(ran.lines()[0], "1 file: 0 converted, 1 could not be done");
}

#[test]
fn separates_thousands() {
    let scratch = Scratch::new();
    scratch.put("a.trc", rows(12_345));
    let ran = scratch.owl("convert a.trc").ended(0);
    assert_eq!(ran.lines()[0], "1 file: 1 converted");
    assert!(
        ran.lines()[1].starts_with("12,345 rows, 12,345 lines"),
        "{ran}"
    );
    for number in 0..1_001 {
        scratch.put(format!("many/{number}.trc"), "");
    }
    let ran = scratch.owl("check many").ended(1);
    assert!(
        ran.out().contains("\n1,001 files: 0 good, 1,001 refused\n"),
        "{ran}"
    );
    assert!(
        ran.out()
            .ends_with("\nrefused by number: 4 in 1,001 files\n"),
        "{ran}"
    );
}

/// The sum of what the objects say of this.
fn sum<'a>(files: impl IntoIterator<Item = &'a Json>, key: &str) -> f64 {
    let said = files.into_iter().filter(|file| file.has(key));
    said.map(|file| file.number(key)).sum()
}

#[test]
fn sums_the_objects_up() {
    let ran = week().owl("convert week none.trc --json --jobs 2").ended(2);
    let (files, summary) = ran.objects();
    assert_eq!(files.len(), 7);
    assert_eq!(summary.number("files"), 7.0);
    for (status, count) in [
        ("done", 2.0),
        ("there", 1.0),
        ("refused", 3.0),
        ("failed", 1.0),
    ] {
        let listed = files.iter().filter(|file| file.text("status") == status);
        assert_eq!(listed.count() as f64, count, "{status}: {ran}");
        assert_eq!(summary.number(status), count, "{status}: {ran}");
    }
    for key in ["rows", "lines", "left_out", "steps_back", "bytes_read"] {
        assert_eq!(summary.number(key), sum(&files, key), "{key}: {ran}");
    }
    assert_eq!(summary.number("rows"), 9.0);
    let done = files.iter().filter(|file| file.text("status") == "done");
    assert_eq!(summary.number("bytes_written"), sum(done, "bytes_written"));
    assert_eq!(summary.number("bytes_written"), 222.0);
    assert_eq!(
        summary.get("refused_by_number"),
        &Json::of(r#"{"2":2,"7":1}"#)
    );
}

#[test]
fn says_time_and_memory() {
    let (_, summary) = week()
        .owl("convert week --json --jobs 2")
        .ended(1)
        .objects();
    assert_eq!(summary.number("jobs"), 2.0);
    let (seconds, library) = (summary.number("seconds"), summary.number("library_seconds"));
    assert!(seconds > 0.0 && seconds < 60.0, "{seconds}");
    assert!(
        (0.0..=2.0 * seconds + 0.002).contains(&library),
        "{library} of {seconds}"
    );
    let peak = summary.number("peak_bytes");
    assert!(peak > 100_000.0, "{peak}");
}

#[test]
fn says_failures_in_objects_and_on_standard_error() {
    let scratch = Scratch::new();
    scratch.put("a.trc", rows(1));
    let ran = scratch.owl("convert none.trc a.trc --json").ended(2);
    let (files, _) = ran.objects();
    assert_eq!(
        (files[0].text("file"), files[0].text("status")),
        ("none.trc", "failed")
    );
    assert_eq!(files[0].text("error"), ran.failure_of("none.trc"));
    assert!(
        files[0].text("error").contains("No such file or directory"),
        "{ran}"
    );
    assert!(!files[0].text("error").contains("os error"), "{ran}");
    assert_eq!(files[1].text("status"), "done");
}

#[test]
fn of_no_files_is_valid_too() {
    let scratch = Scratch::new();
    scratch.folder("empty");
    let (files, summary) = scratch.owl("convert empty --json").ended(0).objects();
    assert!(files.is_empty());
    assert_eq!(summary.number("files"), 0.0);
    assert_eq!(summary.get("refused_by_number"), &Json::Object(vec![]));
}
