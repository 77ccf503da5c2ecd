//! What an earlier run left half-written is removed by the next one, unless somebody still holds it.

use crate::common::traces::{export, rows};
use crate::common::{skip, Scratch};
use std::fs::{self, File};
use std::os::unix::fs::symlink;
use std::path::{Path, PathBuf};
use std::process::Child;
use std::thread::sleep;
use std::time::Duration;

const PART: &str = ".owl-12345-0.part";

fn with_a_part() -> Scratch {
    let scratch = Scratch::new();
    scratch.put("week/a.trc", rows(2));
    scratch.put(Path::new("week").join(PART), "half a li");
    scratch
}

#[test]
fn of_an_earlier_run_is_removed() {
    for words in [
        "convert week",
        "convert week/a.trc --jobs 4 --force",
        "write week/a.trc --version 1.2",
    ] {
        let scratch = with_a_part();
        scratch.put("week/.owl-1-99.part", "");
        scratch.owl(words).ended(0).quietly();
        assert_eq!(scratch.names("week").len(), 2, "{words}");
    }
}

#[test]
fn is_removed_where_outputs_go() {
    let scratch = with_a_part();
    for folder in ["out", "out/x", "out/y"] {
        scratch.put(Path::new(folder).join(PART), "half a li");
    }
    scratch.put("week/x/b.trc", rows(2));
    scratch.owl("convert week -o out").ended(0).quietly();
    assert!(scratch.has(Path::new("week").join(PART)));
    assert!(scratch.has(Path::new("out/y").join(PART)));
    assert_eq!(scratch.names("out"), ["a.asc", "x", "y"]);
    assert_eq!(scratch.names("out/x"), ["b.asc"]);
}

#[test]
fn that_is_locked_stays() {
    let scratch = with_a_part();
    let held = File::open(scratch.path("week").join(PART)).unwrap();
    held.lock().unwrap();
    scratch.owl("convert week --force").ended(0).quietly();
    assert_eq!(scratch.names("week"), [PART, "a.asc", "a.trc"]);
    assert_eq!(scratch.bytes(Path::new("week").join(PART)), b"half a li");
    held.unlock().unwrap();
    scratch.owl("convert week --force").ended(0).quietly();
    assert_eq!(scratch.names("week"), ["a.asc", "a.trc"]);
}

#[test]
fn is_known_by_its_whole_name() {
    let scratch = with_a_part();
    let others = [
        ".owl-1.part.asc",
        ".owl",
        "owl-1-1.part",
        "x.owl-1-1.part",
        ".owl-1-1.parts",
    ];
    for name in others {
        scratch.put(format!("week/{name}"), "mine");
    }
    scratch.owl("convert week").ended(0).quietly();
    for name in others {
        assert!(scratch.has(format!("week/{name}")), "{name}");
    }
    assert!(!scratch.has(Path::new("week").join(PART)));
}

#[test]
fn that_is_no_file_is_no_hindrance() {
    let scratch = with_a_part();
    scratch.put("week/.owl-2-2.part/inside", "mine");
    scratch.put("mine", "mine");
    symlink("../mine", scratch.path("week/.owl-3-3.part")).unwrap();
    scratch.owl("convert week").ended(0);
    assert!(scratch.bytes("week/a.asc") == export(&rows(2)).unwrap());
    assert_eq!(scratch.bytes("week/.owl-2-2.part/inside"), b"mine");
    assert_eq!(scratch.bytes("mine"), b"mine");
}

#[test]
fn is_synced_before_it_gets_its_name() {
    let scratch = Scratch::new();
    scratch.put("a.trc", rows(2));
    let trace = "strace -f -o calls -e trace=fsync,fdatasync,link,linkat,rename,renameat,renameat2";
    if scratch.shell(&format!("{trace} true")).status != 0 {
        return skip("strace can't be used");
    }
    for force in ["", "--force"] {
        let words = format!("{trace} \"$OWL\" convert a.trc {force}");
        scratch.shell(&words).ended(0);
        let calls = String::from_utf8(scratch.bytes("calls")).unwrap();
        let synced = calls.lines().position(|call| call.contains("sync("));
        let named = calls.lines().position(|call| call.contains("a.asc"));
        assert!(named.is_some() && synced.is_some(), "{calls}");
        assert!(synced < named, "{calls}");
    }
}

/// The name of the part that a run writes, as soon as there is one. None where it ended before one was seen.
fn part_of(scratch: &Scratch, run: &mut Child) -> Option<String> {
    let begin = format!(".owl-{}-", run.id());
    while run.try_wait().unwrap().is_none() {
        let mut names = scratch.names("week").into_iter();
        if let Some(name) = names.find(|name| name.starts_with(&begin)) {
            return Some(name);
        }
        sleep(Duration::from_micros(50));
    }
    None
}

/// Stops a run. What its threads have begun in the system goes on until then, such as giving a file its name.
fn stop(scratch: &Scratch, run: &Child) {
    scratch.shell(&format!("kill -STOP {}", run.id()));
    let tasks = format!("/proc/{}/task", run.id());
    let goes_on = |stat: &str| !stat.rsplit(") ").next().unwrap().starts_with(['T', 'Z']);
    let some_goes_on = || {
        let tasks = fs::read_dir(&tasks).into_iter().flatten().flatten();
        let stats = tasks.filter_map(|task| fs::read_to_string(task.path().join("stat")).ok());
        stats.into_iter().any(|stat| goes_on(&stat))
    };
    while some_goes_on() {
        sleep(Duration::from_millis(1));
    }
}

fn is_locked(path: PathBuf) -> bool {
    File::open(path).is_ok_and(|file| file.try_lock().is_err())
}

/// Starts a run, and stops it while it writes.
fn stopped(scratch: &Scratch) -> (Child, PathBuf) {
    for _ in 0..20 {
        let mut run = scratch.start("convert week/large.trc --force");
        let part = part_of(scratch, &mut run).map(|name| Path::new("week").join(name));
        stop(scratch, &run);
        match part {
            Some(part) if is_locked(scratch.path(&part)) => return (run, part),
            _ => go_on(scratch, run),
        }
    }
    panic!("it was always stopped too late");
}

fn go_on(scratch: &Scratch, mut run: Child) {
    scratch.shell(&format!("kill -CONT {}", run.id()));
    assert!(run.wait().unwrap().success());
}

#[test]
fn of_another_run_stays_and_is_completed() {
    let scratch = Scratch::new();
    scratch.put("week/b.trc", rows(2));
    let large = rows(400_000);
    scratch.put("week/large.trc", &large);
    let (other, part) = stopped(&scratch);
    let ran = scratch.owl("convert week/b.trc");
    let stayed = scratch.has(&part);
    go_on(&scratch, other);
    assert!(stayed);
    ran.ended(0).quietly();
    assert!(scratch.bytes("week/large.asc") == export(&large).unwrap());
    assert_eq!(
        scratch.names("week"),
        ["b.asc", "b.trc", "large.asc", "large.trc"]
    );
}
