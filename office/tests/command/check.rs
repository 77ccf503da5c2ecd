//! `owl check`: good or refused, and nothing is written.

use crate::common::traces::{rows, sample};
use crate::common::Scratch;

#[test]
fn finds_the_good_samples_good() {
    let scratch = Scratch::new();
    for name in ["small.trc", "dosing.trc", "selection.trc", "version-11.trc"] {
        scratch.sample(name);
    }
    let before = scratch.names("");
    let ran = scratch.owl("check .").ended(0).quietly();
    assert_eq!(ran.lines()[0], "4 files: 4 good");
    assert_eq!(scratch.names(""), before);
}

#[test]
fn says_what_is_wrong_with_the_others() {
    let scratch = Scratch::new();
    for name in [
        "cut-off.trc",
        "past-the-limit.trc",
        "small.trc",
        "wrong-row.trc",
    ] {
        scratch.sample(name);
    }
    let ran = scratch.owl("check cut-off.trc past-the-limit.trc small.trc wrong-row.trc");
    let ran = ran.ended(1).quietly();
    let lines = ran.lines();
    assert!(lines[0].starts_with("cut-off.trc: line 5 is not ended by CR LF (refusal 2): "));
    assert!(lines[1].starts_with(
        "past-the-limit.trc: line 2 is no ;$STARTTIME= up to day 99,999 (refusal 5): "
    ));
    assert_eq!(
        lines[2],
        "wrong-row.trc: line 4 is no row (refusal 7): the row ended early after field 6 (length): RTR or data byte 1 of 1 was expected next"
    );
    assert_eq!(lines[3], "4 files: 1 good, 3 refused");
    assert_eq!(
        *lines.last().unwrap(),
        "refused by number: 2 in 1 file, 5 in 1 file, 7 in 1 file"
    );
}

#[test]
fn writes_nothing() {
    let scratch = Scratch::new();
    scratch.sample("small.trc");
    scratch.sample("wrong-row.trc");
    scratch.put(".owl-1-1.part", "of an earlier run");
    let before = scratch.names("");
    scratch.owl("check . --jobs 4 --json").ended(1).quietly();
    assert_eq!(scratch.names(""), before);
}

#[test]
fn says_it_as_json() {
    let scratch = Scratch::new();
    scratch.sample("selection.trc");
    let (files, summary) = scratch.owl("check selection.trc --json").ended(0).objects();
    assert_eq!(files.len(), 1);
    let file = &files[0];
    assert_eq!(
        (file.text("file"), file.text("status")),
        ("selection.trc", "done")
    );
    assert_eq!(file.text("version"), "1.2");
    assert_eq!((file.number("first"), file.number("rows")), (4117.0, 6.0));
    assert_eq!(file.number("steps_back"), 1.0);
    assert_eq!(
        file.number("bytes_read"),
        sample("selection.trc").len() as f64
    );
    assert_eq!(
        (summary.number("files"), summary.number("done")),
        (1.0, 1.0)
    );
    assert_eq!(summary.number("bytes_written"), 0.0);
}

#[test]
fn reads_ascii_where_it_is_told() {
    let scratch = Scratch::new();
    for name in ["edited.asc", "no-bus.asc", "no-such-date.asc"] {
        scratch.sample(name);
    }
    let ran = scratch
        .owl("check --ascii edited.asc no-bus.asc no-such-date.asc")
        .ended(1);
    let lines = ran.lines();
    assert_eq!(
        lines[0],
        "no-such-date.asc: line 3 is no line of Telemotive ASCII, or has more than 250 bytes, or is not ended (refusal 31): part 1 (date) is wrong: \"31.11.2023\""
    );
    assert_eq!(lines[1], "3 files: 2 good, 1 refused");
    assert_eq!(*lines.last().unwrap(), "refused by number: 31 in 1 file");
}

#[test]
fn takes_the_ascii_files_of_a_folder() {
    let scratch = Scratch::new();
    for name in ["a.asc", "b.ASC", "below/c.Asc"] {
        scratch.put(name, sample("edited.asc"));
    }
    scratch.put("d.trc", rows(1));
    scratch.put("e.txt", sample("edited.asc"));
    let (files, _) = scratch.owl("check . --ascii --json").ended(0).objects();
    assert_eq!(files.len(), 3);
    let (files, _) = scratch.owl("check . --json").ended(0).objects();
    assert_eq!(files.len(), 1);
}

#[test]
fn takes_one_form_for_the_other_for_broken() {
    let scratch = Scratch::new();
    scratch.sample("small.trc");
    scratch.sample("edited.asc");
    let ran = scratch.owl("check --ascii small.trc").ended(1);
    assert!(ran.line_of("small.trc").contains("(refusal 31)"), "{ran}");
    let ran = scratch.owl("check edited.asc").ended(1);
    assert!(ran.line_of("edited.asc").contains("(refusal 4)"), "{ran}");
}
