//! The progress line: on a terminal, and nowhere else.

use crate::common::traces::rows;
use crate::common::{skip, Ran, Scratch};

fn week() -> Scratch {
    let scratch = Scratch::new();
    for number in 0..300 {
        scratch.put(format!("week/{number}.trc"), rows(2_000));
    }
    scratch
}

/// A trace that comes only after three seconds: a run with it shows how far it has come.
const SLOW: &str = "mkfifo slow.trc; { sleep 3; cat week/0.trc >slow.trc; } & ";

/// Runs a line of the shell on a terminal, and gives what was printed there. Nothing where there is no `script`.
fn on_a_terminal(scratch: &Scratch, line: &str) -> Option<Ran> {
    let mut script = scratch.command("script");
    script
        .args(["-qec", line, "/dev/null"])
        .env("OWL", crate::common::OWL);
    match script.output() {
        Ok(output) => Some(Ran::of(output)),
        Err(error) => {
            skip(&format!("script: {error}"));
            None
        }
    }
}

#[test]
fn is_none_elsewhere() {
    let scratch = week();
    let ran = scratch.owl("convert week").ended(0).quietly();
    assert!(ran.out().starts_with("300 files: 300 converted\n"), "{ran}");
    assert!(!ran.out().contains('\r'), "{ran}");
    scratch.shell("exec \"$OWL\" check week 2>errors").ended(0);
    assert_eq!(scratch.bytes("errors"), b"");
}

#[test]
fn is_on_a_terminal() {
    let scratch = week();
    let line = format!("{SLOW} \"$OWL\" convert slow.trc week --jobs 2 >printed");
    let Some(ran) = on_a_terminal(&scratch, &line) else {
        return;
    };
    let ran = ran.ended(0);
    assert!(ran.out().contains("\r\x1B[K300 of 301 files, "), "{ran}");
    assert!(ran.out().contains(" MB/s"), "{ran}");
    assert_eq!(
        String::from_utf8(scratch.bytes("printed")).unwrap(),
        "301 files: 301 converted\n602,000 rows, 602,000 lines, 0 left out, 0 steps back\n"
    );
}

#[test]
fn is_none_where_all_is_done_at_once() {
    let scratch = Scratch::new();
    scratch.put("a.trc", rows(2));
    let Some(ran) = on_a_terminal(&scratch, "\"$OWL\" check a.trc") else {
        return;
    };
    let lines = "1 file: 1 good\r\n2 rows, 0 steps back\r\n";
    assert_eq!(ran.ended(0).out(), lines);
}

#[test]
fn is_none_where_only_standard_output_is_a_terminal() {
    let scratch = week();
    let Some(ran) = on_a_terminal(&scratch, "\"$OWL\" check week 2>errors") else {
        return;
    };
    let ran = ran.ended(0);
    assert_eq!(scratch.bytes("errors"), b"");
    assert!(ran.out().starts_with("300 files: 300 good"), "{ran}");
}

#[test]
fn does_not_stay_in_the_report() {
    let scratch = week();
    scratch.put("week/bad.trc", "");
    let line = format!("{SLOW} \"$OWL\" check slow.trc week");
    let Some(ran) = on_a_terminal(&scratch, &line) else {
        return;
    };
    let ran = ran.ended(1);
    // What a line shows in the end is what stands behind its last carriage return or clearing.
    let last = |line: &str| {
        line.trim_end_matches('\r')
            .rsplit(['\r', '\x1B'])
            .next()
            .unwrap()
            .to_string()
    };
    let shown: Vec<String> = ran.out().split('\n').map(last).collect();
    let ends = |end: &str| {
        shown
            .iter()
            .any(|line| line.trim_start_matches("[K").starts_with(end))
    };
    assert!(ends("week/bad.trc: line 1 "), "{shown:?}");
    assert!(ends("302 files: 301 good, 1 refused"), "{shown:?}");
}
