//! What stands under the name of an output already, and outputs that meet each other or an input.

use crate::common::traces::{export, rows, sample};
use crate::common::{Ran, Scratch};
use std::fs;
use std::os::unix::fs::{symlink, MetadataExt};

fn small() -> Scratch {
    let scratch = Scratch::new();
    scratch.put("a.trc", sample("small.trc"));
    scratch
}

#[track_caller]
fn statuses(ran: &Ran) -> Vec<String> {
    let (files, _) = ran.objects();
    files
        .iter()
        .map(|file| file.text("status").to_string())
        .collect()
}

#[test]
fn with_the_same_bytes_is_there_already() {
    let scratch = small();
    scratch.put("a.asc", sample("small.txt"));
    let before = fs::metadata(scratch.path("a.asc")).unwrap();
    let ran = scratch.owl("convert a.trc").ended(0).quietly();
    assert_eq!(ran.lines()[0], "1 file: 0 converted, 1 already there");
    let after = fs::metadata(scratch.path("a.asc")).unwrap();
    assert_eq!(before.ino(), after.ino());
    assert_eq!(before.modified().unwrap(), after.modified().unwrap());
    assert_eq!(
        statuses(&scratch.owl("convert a.trc --json").ended(0)),
        ["there"]
    );
    assert_eq!(scratch.names(""), ["a.asc", "a.trc"]);
}

#[test]
fn that_is_there_has_the_same_object() {
    let scratch = small();
    let done = scratch.owl("convert a.trc --json").ended(0);
    let there = scratch.owl("convert a.trc --json").ended(0);
    assert_eq!(
        (statuses(&done), statuses(&there)),
        (vec!["done".into()], vec!["there".into()])
    );
    let said = done.lines()[0].replace("\"done\"", "\"there\"");
    let same = |line: &str| line.split(",\"bytes_written\"").next().unwrap().to_string();
    assert_eq!(same(there.lines()[0]), same(&said));
}

#[test]
fn with_other_bytes_is_kept() {
    let export = sample("small.txt");
    let longer = [&export[..], b"\n"].concat();
    let mut other = export.clone();
    other[50] ^= 1;
    for bytes in [
        &b""[..],
        b"mine",
        &export[1..],
        &export[..export.len() - 1],
        &longer,
        &other,
    ] {
        let scratch = small();
        scratch.put("a.asc", bytes);
        let ran = scratch.owl("convert a.trc --json").ended(2);
        assert_eq!(statuses(&ran), ["failed"]);
        assert!(ran.failure_of("a.trc").contains("a.asc"), "{ran}");
        assert!(scratch.bytes("a.asc") == bytes);
        assert_eq!(scratch.names(""), ["a.asc", "a.trc"]);
    }
}

#[test]
fn is_replaced_by_force() {
    let scratch = small();
    scratch.put("a.asc", "mine");
    let ran = scratch
        .owl("convert a.trc --force --json")
        .ended(0)
        .quietly();
    assert_eq!(statuses(&ran), ["done"]);
    assert_eq!(scratch.bytes("a.asc"), sample("small.txt"));
    assert_eq!(scratch.names(""), ["a.asc", "a.trc"]);
}

#[test]
fn are_kept_and_replaced_by_write_and_back_as_well() {
    for (words, from, to) in [
        ("write --version 1.2 a.trc", "a.trc", "a-1.2.trc"),
        ("back a.asc", "a.asc", "a.trc"),
    ] {
        let scratch = Scratch::new();
        let text = if from == "a.trc" {
            sample("small.trc")
        } else {
            sample("edited.asc")
        };
        scratch.put(from, text);
        scratch.put(to, "mine");
        scratch.owl(words).ended(2);
        assert_eq!(scratch.bytes(to), b"mine", "{words}");
        scratch.owl(&format!("{words} --force")).ended(0).quietly();
        assert_ne!(scratch.bytes(to), b"mine", "{words}");
        assert_eq!(
            statuses(&scratch.owl(&format!("{words} --json")).ended(0)),
            ["there"]
        );
    }
}

#[test]
fn that_is_a_folder_is_kept() {
    for force in ["", "--force"] {
        let scratch = small();
        scratch.put("a.asc/inside", "mine");
        scratch.put("b.trc", rows(1));
        let ran = scratch
            .owl(&format!("convert a.trc b.trc {force}"))
            .ended(2);
        ran.failure_of("a.trc");
        assert_eq!(scratch.names("a.asc"), ["inside"]);
        assert_eq!(scratch.names(""), ["a.asc", "a.trc", "b.asc", "b.trc"]);
    }
}

#[test]
fn that_is_an_empty_folder_is_kept() {
    for force in ["", "--force"] {
        let scratch = small();
        scratch.folder("a.asc");
        scratch
            .owl(&format!("convert a.trc {force}"))
            .ended(2)
            .failure_of("a.trc");
        assert!(scratch.path("a.asc").is_dir());
        assert_eq!(scratch.names(""), ["a.asc", "a.trc"]);
    }
}

#[test]
fn that_is_a_link_is_never_written_through() {
    for target in ["mine", "none"] {
        let scratch = small();
        scratch.put("mine", "mine");
        symlink(target, scratch.path("a.asc")).unwrap();
        scratch.owl("convert a.trc").ended(2).failure_of("a.trc");
        assert_eq!(
            fs::read_link(scratch.path("a.asc")).unwrap().to_str(),
            Some(target)
        );
        scratch.owl("convert a.trc --force").ended(0).quietly();
        assert_eq!(scratch.bytes("mine"), b"mine");
        assert!(!scratch.has("none"));
        assert_eq!(scratch.bytes("a.asc"), sample("small.txt"));
    }
}

#[test]
fn with_one_name_go_to_the_first() {
    for force in ["", "--force"] {
        for jobs in [1, 4] {
            let scratch = Scratch::new();
            scratch.put("a.trc", rows(2));
            scratch.put("a.TRC", rows(3));
            let words = format!("convert a.trc a.TRC --json --jobs {jobs} {force}");
            let ran = scratch.owl(&words).ended(2);
            assert_eq!(statuses(&ran), ["done", "failed"]);
            assert!(ran.failure_of("a.TRC").contains("a.trc"), "{ran}");
            assert!(scratch.bytes("a.asc") == export(&rows(2)).unwrap());
        }
    }
}

#[test]
fn with_one_name_below_another_folder() {
    for words in [
        "convert x/a.trc y/a.trc -o out --json",
        "convert x y -o out --json --force",
        "convert x/../x y -o ./out --json",
    ] {
        let scratch = Scratch::new();
        scratch.put("x/a.trc", rows(2));
        scratch.put("y/a.trc", rows(3));
        let ran = scratch.owl(words).ended(2);
        assert_eq!(statuses(&ran), ["done", "failed"], "{words}");
        assert!(scratch.bytes("out/a.asc") == export(&rows(2)).unwrap());
    }
}

#[test]
fn with_one_name_though_they_are_spelled_otherwise() {
    let scratch = Scratch::new();
    scratch.put("x/a.trc", rows(2));
    scratch.put("x/a.TRC", rows(3));
    let ran = scratch
        .owl("convert x/a.trc ./x/../x/a.TRC --json --force")
        .ended(2);
    assert_eq!(statuses(&ran), ["done", "failed"]);
    assert!(scratch.bytes("x/a.asc") == export(&rows(2)).unwrap());
}

#[test]
fn that_are_inputs_are_kept() {
    for force in ["", "--force"] {
        for words in ["convert a.trc a.asc --json", "convert a.asc a.trc --json"] {
            let scratch = Scratch::new();
            scratch.put("a.trc", rows(2));
            scratch.put("a.asc", rows(3));
            let ran = scratch.owl(&format!("{words} {force}")).ended(2);
            ran.failure_of("a.trc");
            assert!(scratch.bytes("a.asc") == rows(3));
            assert!(scratch.bytes("a.asc.asc") == export(&rows(3)).unwrap());
        }
    }
}

#[test]
fn that_are_inputs_by_another_spelling_are_kept() {
    let scratch = Scratch::new();
    scratch.put("x/a.trc", rows(2));
    scratch.put("x/a.asc", rows(3));
    symlink("x", scratch.path("y")).unwrap();
    for other in ["./x/a.asc", "x/../x/a.asc", "y/a.asc"] {
        let ran = scratch
            .owl(&format!("convert x/a.trc {other} --force"))
            .ended(2);
        ran.failure_of("x/a.trc");
        assert!(scratch.bytes("x/a.asc") == rows(3), "{other}");
    }
}

#[test]
fn of_write_that_are_inputs_are_kept() {
    let scratch = Scratch::new();
    scratch.put("a.trc", rows(2));
    scratch.put("a-1.2.trc", rows(3));
    let ran = scratch
        .owl("write a.trc --version 1.2 a-1.2.trc --force")
        .ended(2);
    ran.failure_of("a.trc");
    assert!(scratch.bytes("a-1.2.trc") == rows(3));
    assert!(scratch.has("a-1.2-1.2.trc"));
}

#[test]
fn may_be_read_by_whoever_may_read_new_files() {
    let scratch = small();
    scratch
        .shell("umask 022; exec \"$OWL\" convert a.trc")
        .ended(0);
    let mode = fs::metadata(scratch.path("a.asc")).unwrap().mode();
    assert_eq!(mode & 0o777, 0o644);
}
