//! A thousand files.

use crate::common::traces::{export, rows};
use crate::common::Scratch;

const FILES: usize = 1_000;

/// A folder of traces, every tenth of them broken.
fn season() -> Scratch {
    let scratch = Scratch::new();
    let good = rows(20);
    for number in 0..FILES {
        let broken = number % 10 == 9;
        let text = if broken {
            &good[..good.len() - 1]
        } else {
            &good
        };
        scratch.put(format!("season/{:02}/{number:04}.trc", number / 100), text);
    }
    scratch
}

#[track_caller]
fn all_are_done(scratch: &Scratch) {
    let export = export(&rows(20)).unwrap();
    for number in 0..FILES {
        let name = format!("season/{:02}/{number:04}.asc", number / 100);
        match number % 10 {
            9 => assert!(!scratch.has(&name), "{name}"),
            _ => assert!(scratch.bytes(&name) == export, "{name}"),
        }
    }
    for folder in scratch.names("season") {
        assert_eq!(scratch.names(format!("season/{folder}")).len(), 190);
    }
}

#[test]
fn one_by_one_and_side_by_side() {
    let mut printed = Vec::new();
    for jobs in ["--jobs 1", "--jobs 8", ""] {
        let scratch = season();
        let ran = scratch
            .owl(&format!("convert season {jobs}"))
            .ended(1)
            .quietly();
        all_are_done(&scratch);
        assert_eq!(ran.lines().len(), 103);
        assert_eq!(ran.lines()[100], "1,000 files: 900 converted, 100 refused");
        printed.push(ran.out().to_string());
    }
    assert_eq!(printed[0], printed[1]);
    assert_eq!(printed[0], printed[2]);
}

#[test]
fn hold_little_memory() {
    let scratch = season();
    let (_, summary) = scratch
        .owl("convert season --jobs 8 --json")
        .ended(1)
        .objects();
    assert_eq!(summary.number("rows"), 18_000.0);
    let peak = summary.number("peak_bytes");
    assert!(peak < 32e6, "{peak}");
}

#[test]
fn use_all_cores_where_nothing_is_said() {
    let scratch = season();
    let (_, summary) = scratch.owl("check season --json").ended(1).objects();
    let cores = std::thread::available_parallelism().unwrap().get();
    assert_eq!(summary.number("jobs"), cores as f64);
}
