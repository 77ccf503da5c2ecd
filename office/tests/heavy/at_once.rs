//! Several runs at once in one folder: none takes another's part for one that was left behind, and each output is written
//! once.

use crate::common::traces::{export, rows};
use crate::common::{Ran, Scratch};
use std::process::Child;
use std::thread::sleep;
use std::time::Duration;

const FILES: usize = 40;
const RUNS: u64 = 4;
const ROUNDS: u64 = 12;

/// Runs the same command several times at once, each a little later than the one before it.
fn at_once(scratch: &Scratch, words: &str, later: Duration) -> Vec<Ran> {
    let runs: Vec<Child> = (0..RUNS)
        .map(|_| {
            sleep(later);
            scratch.start(words)
        })
        .collect();
    let ran = |run: Child| Ran::of(run.wait_with_output().unwrap());
    runs.into_iter().map(ran).collect()
}

fn done(runs: &[Ran]) -> f64 {
    runs.iter().map(|ran| ran.objects().1.number("done")).sum()
}

fn rounds(words: &str, outputs_of_all: f64) {
    for round in 0..ROUNDS {
        let scratch = Scratch::new();
        for number in 0..FILES {
            scratch.put(format!("week/{number}.trc"), rows(100));
        }
        let runs = at_once(&scratch, words, Duration::from_micros(300 * round));
        let runs: Vec<Ran> = runs.into_iter().map(|ran| ran.ended(0).quietly()).collect();
        assert_eq!(done(&runs), outputs_of_all);
        let outputs = scratch.names_but("week", ".trc");
        assert_eq!(outputs.len(), FILES, "{outputs:?}");
        for name in outputs {
            let written = scratch.bytes(format!("week/{name}"));
            assert!(written == export(&rows(100)).unwrap(), "{name}");
        }
    }
}

#[test]
fn without_force_one_of_them_writes_it() {
    rounds("convert week --json", FILES as f64);
}

#[test]
fn with_force_all_of_them_do() {
    rounds("convert week --json --force", (RUNS * FILES as u64) as f64);
}
