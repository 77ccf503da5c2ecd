//! Files that can't be read, and folders that can't be written to: 2, and the others are done.

use crate::common::traces::{export, rows};
use crate::common::{skip, Closed, Scratch};
use std::fs;

fn pair() -> Scratch {
    let scratch = Scratch::new();
    scratch.put("week/a.trc", rows(2));
    scratch.put("week/b.trc", rows(3));
    scratch
}

#[test]
fn a_file_that_cannot_be_read() {
    let scratch = pair();
    let _closed = Closed::with(scratch.path("week/a.trc"), 0);
    if fs::read(scratch.path("week/a.trc")).is_ok() {
        return skip("this user may read everything");
    }
    let ran = scratch.owl("convert week --json").ended(2);
    let (files, _) = ran.objects();
    assert_eq!(files[0].text("error"), "can't be read: Permission denied");
    assert_eq!(
        ran.failure_of("week/a.trc"),
        "can't be read: Permission denied"
    );
    assert_eq!(scratch.names("week"), ["a.trc", "b.asc", "b.trc"]);
}

#[test]
fn a_folder_that_cannot_be_written_to() {
    let scratch = pair();
    scratch.put("other/c.trc", rows(1));
    let _closed = Closed::with(scratch.path("week"), 0o555);
    if fs::write(scratch.path("week/x"), "").is_ok() {
        return skip("this user may write everywhere");
    }
    let ran = scratch.owl("convert week other").ended(2);
    for name in ["week/a.trc", "week/b.trc"] {
        assert!(ran.failure_of(name).contains("Permission denied"), "{ran}");
    }
    assert_eq!(scratch.names("week"), ["a.trc", "b.trc"]);
    assert!(scratch.has("other/c.asc"));
    scratch.owl("convert week -o out").ended(0).quietly();
}

#[test]
fn a_folder_that_cannot_be_listed() {
    let scratch = pair();
    scratch.put("week/below/c.trc", rows(1));
    let _closed = Closed::with(scratch.path("week/below"), 0);
    if fs::read_dir(scratch.path("week/below")).is_ok() {
        return skip("this user may list every folder");
    }
    let ran = scratch.owl("convert week").ended(2);
    assert!(
        ran.failure_of("week/below").contains("Permission denied"),
        "{ran}"
    );
    assert!(scratch.has("week/a.asc") && scratch.has("week/b.asc"));
}

#[test]
fn an_output_folder_below_a_file() {
    for folder in ["week/a.trc/out", "week/a.trc"] {
        let scratch = pair();
        let ran = scratch.owl(&format!("convert week -o {folder}")).ended(2);
        for name in ["week/a.trc", "week/b.trc"] {
            ran.failure_of(name);
        }
        assert!(scratch.bytes("week/a.trc") == rows(2));
        assert_eq!(scratch.names("week"), ["a.trc", "b.trc"]);
    }
}

#[test]
fn a_file_in_place_of_a_folder_of_outputs() {
    let scratch = pair();
    scratch.put("week/x/c.trc", rows(2));
    scratch.put("out/x", "a file");
    let ran = scratch.owl("convert week -o out").ended(2);
    assert_eq!(
        ran.failure_of("week/x/c.trc"),
        "out/x/c.asc can't be written: its folder can't be made: File exists"
    );
    assert_eq!(scratch.names("out"), ["a.asc", "b.asc", "x"]);
}

#[test]
fn an_output_folder_that_cannot_be_made() {
    let scratch = pair();
    let ran = scratch.owl("convert week -o /proc/owl --json").ended(2);
    let (files, summary) = ran.objects();
    assert_eq!((files.len(), summary.number("failed")), (2, 2.0));
    ran.failure_of("week/a.trc");
}

#[test]
fn a_file_that_fails_while_it_is_read() {
    let scratch = pair();
    let ran = scratch.owl("check /proc/self/mem week --json").ended(2);
    let (files, _) = ran.objects();
    assert_eq!(files[0].text("status"), "failed");
    assert!(
        files[0].text("error").starts_with("can't be read: "),
        "{ran}"
    );
    assert_eq!(files.len(), 3);
}

#[test]
fn a_name_below_a_file() {
    let scratch = pair();
    let ran = scratch
        .owl("convert week/a.trc/none.trc week/b.trc")
        .ended(2);
    ran.failure_of("week/a.trc/none.trc");
    assert!(scratch.bytes("week/b.asc") == export(&rows(3)).unwrap());
}

#[test]
fn standard_error_that_cannot_be_written() {
    let scratch = pair();
    scratch
        .shell("exec \"$OWL\" convert none.trc week 2>/dev/full")
        .ended(2);
    assert!(scratch.has("week/a.asc") && scratch.has("week/b.asc"));
    scratch.shell("exec \"$OWL\" convert 2>/dev/full").ended(64);
    scratch
        .shell("exec \"$OWL\" convert week none.trc 2>&-")
        .ended(2);
}

#[test]
fn memory_for_fewer_jobs() {
    let scratch = pair();
    let ran = scratch.shell("ulimit -v 300000; exec \"$OWL\" convert week --jobs 16 --json");
    let ran = ran.ended(0);
    assert_eq!(
        ran.err(),
        "owl: the system has no room for 2 jobs: 1 at work\n"
    );
    let (_, summary) = ran.objects();
    assert_eq!((summary.number("done"), summary.number("jobs")), (2.0, 1.0));
}

#[test]
fn memory_that_cannot_be_had() {
    let scratch = pair();
    let ran = scratch.shell("ulimit -v 100000; exec \"$OWL\" convert week --jobs 16");
    assert!(
        ran.err().starts_with("owl: the system has no room"),
        "{ran}"
    );
    ran.ended(2);
    let ran = scratch.shell("ulimit -v 100000; exec \"$OWL\" show week/a.trc");
    assert!(ran.err().starts_with("owl: "), "{ran}");
    ran.ended(2);
}
