//! Broken files in the midst of good ones: the good ones are converted, and each broken one is named with number, line
//! and reason.

use crate::common::traces::{broken, rows, sample, Broken};
use crate::common::{Ran, Scratch};

/// A folder with all broken traces, and good ones before, between and behind them.
fn week() -> (Scratch, Vec<Broken>) {
    let scratch = Scratch::new();
    let mut all = broken();
    all.sort_by_key(|broken| broken.name);
    for (number, broken) in all.iter().enumerate() {
        scratch.put(format!("week/{}", broken.name), &broken.text);
        // Of different sizes, so that side by side they do not end in the order in which they began.
        let name = format!("week/{}-good.trc", broken.name.trim_end_matches(".trc"));
        scratch.put(name, rows(1 + 4_000 * (number % 3)));
    }
    (scratch, all)
}

#[track_caller]
fn report_is_right(ran: &Ran, all: &[Broken]) {
    let lines = ran.lines();
    assert_eq!(lines.len(), all.len() + 3, "{ran}");
    for (line, broken) in lines.iter().zip(all) {
        let expected = format!("week/{}: {}: {}", broken.name, broken.reason, broken.detail);
        assert_eq!(*line, expected);
    }
}

#[track_caller]
fn good_ones_are_done(scratch: &Scratch, all: &[Broken]) {
    let names = scratch.names_but("week", ".trc");
    let expected: Vec<String> = all
        .iter()
        .map(|broken| format!("{}-good.asc", broken.name.trim_end_matches(".trc")))
        .collect();
    let mut sorted = expected.clone();
    sorted.sort();
    assert_eq!(names, sorted);
    for (number, name) in expected.iter().enumerate() {
        let export = crate::common::traces::export(&rows(1 + 4_000 * (number % 3))).unwrap();
        assert!(scratch.bytes(format!("week/{name}")) == export, "{name}");
    }
}

#[test]
fn are_named_in_the_order_of_the_files() {
    for jobs in ["1", "4"] {
        let (scratch, all) = week();
        let ran = scratch
            .owl(&format!("convert week --jobs {jobs}"))
            .ended(1)
            .quietly();
        report_is_right(&ran, &all);
        good_ones_are_done(&scratch, &all);
    }
}

#[test]
fn are_the_same_for_check() {
    let (scratch, all) = week();
    let ran = scratch.owl("check week --jobs 3").ended(1).quietly();
    report_is_right(&ran, &all);
    assert!(scratch.names_but("week", ".trc").is_empty());
}

#[test]
fn are_in_the_objects_as_well() {
    let (scratch, all) = week();
    let (files, summary) = scratch
        .owl("convert week --jobs 4 --json")
        .ended(1)
        .quietly()
        .objects();
    assert_eq!(files.len(), 2 * all.len());
    let refused: Vec<_> = files
        .iter()
        .filter(|file| file.text("status") == "refused")
        .collect();
    assert_eq!(refused.len(), all.len());
    for (file, broken) in refused.iter().zip(&all) {
        assert_eq!(file.text("file"), format!("week/{}", broken.name));
        assert_eq!(file.number("refusal"), broken.number as f64);
        assert_eq!(file.number("place"), broken.place as f64);
        assert_eq!(file.text("reason"), broken.reason);
        assert_eq!(file.text("detail"), broken.detail);
        assert!(!file.has("output"), "{file:?}");
    }
    assert_eq!(summary.number("refused"), all.len() as f64);
}

#[test]
fn leave_what_stands_under_the_name_of_their_output() {
    let scratch = Scratch::new();
    for broken in broken() {
        let export = broken.name.replace(".trc", ".asc");
        scratch.put(broken.name, &broken.text);
        scratch.put(&export, "of yesterday");
        scratch
            .owl(&format!("convert {} --force", broken.name))
            .ended(1)
            .quietly();
        assert_eq!(scratch.bytes(&export), b"of yesterday");
    }
}

#[test]
fn of_the_samples() {
    let scratch = Scratch::new();
    let samples = ["cut-off", "past-the-limit", "wrong-row"];
    for name in samples {
        let trace = format!("{name}.trc");
        scratch.sample(&trace);
        let ran = scratch
            .owl(&format!("convert {trace} --json"))
            .ended(1)
            .quietly();
        let (files, _) = ran.objects();
        let (number, place) = (files[0].number("refusal"), files[0].number("place"));
        let said = format!("refused {number} at line {place}\r\n");
        assert_eq!(said.as_bytes(), sample(&format!("{name}.txt")));
    }
    assert!(scratch.names_but("", ".trc").is_empty());
}
