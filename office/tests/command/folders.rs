//! Folders: which files below them are taken, in which order, and where their outputs go.

use crate::common::traces::{export, rows};
use crate::common::{Ran, Scratch};
use std::os::unix::fs::symlink;

fn files(ran: &Ran) -> Vec<String> {
    let (files, _) = ran.objects();
    files
        .iter()
        .map(|file| file.text("file").to_string())
        .collect()
}

#[test]
fn with_nothing_in_them_are_noted() {
    let scratch = Scratch::new();
    scratch.folder("empty");
    scratch.folder("deep/deeper");
    scratch.put("other/notes.txt", "no trace");
    for folder in ["empty", "deep", "other"] {
        for command in ["convert", "check"] {
            let ran = scratch.owl(&format!("{command} {folder}")).ended(0);
            assert!(
                ran.err().starts_with("owl: ") && ran.err().contains(folder),
                "{ran}"
            );
        }
    }
    let ran = scratch.owl("convert empty deep").ended(0);
    assert_eq!(ran.err().lines().count(), 2, "{ran}");
}

#[test]
fn give_the_files_with_the_ending() {
    let scratch = Scratch::new();
    let taken = ["A.TRC", "a.trc", "b.tRc", "c.d.trc"];
    for name in taken
        .into_iter()
        .chain(["trc", "x.trc~", "x.asc", "x.trc.bak", "xtrc"])
    {
        scratch.put(format!("week/{name}"), rows(1));
    }
    scratch.folder("week/folder.trc");
    let ran = scratch.owl("check week --json").ended(0).quietly();
    assert_eq!(files(&ran), taken.map(|name| format!("week/{name}")));
}

#[test]
fn give_their_files_in_the_order_of_bytes() {
    let scratch = Scratch::new();
    let names = [
        "-.trc", "1.trc", "10.trc", "2.trc", "B.trc", "a b.trc", "a.trc", "ab.trc", "z.trc",
        "ä.trc",
    ];
    for name in names.iter().rev() {
        scratch.put(format!("week/{name}"), rows(1));
    }
    for jobs in [1, 4] {
        let ran = scratch
            .owl(&format!("check week --json --jobs {jobs}"))
            .ended(0);
        assert_eq!(files(&ran), names.map(|name| format!("week/{name}")));
    }
}

#[test]
fn have_folders_among_their_files() {
    let scratch = Scratch::new();
    let names = [
        "a.trc",
        "b/x.trc",
        "b/y/z.trc",
        "b.trc",
        "b0/x.trc",
        "c.trc",
    ];
    for name in names {
        scratch.put(format!("week/{name}"), rows(1));
    }
    let ran = scratch.owl("check week --json").ended(0).quietly();
    assert_eq!(files(&ran), names.map(|name| format!("week/{name}")));
}

#[test]
fn stand_in_the_order_in_which_they_are_named() {
    let scratch = Scratch::new();
    for name in ["b/1.trc", "b/2.trc", "a/1.trc", "c.trc"] {
        scratch.put(name, rows(1));
    }
    let ran = scratch.owl("check c.trc b a --json").ended(0);
    assert_eq!(files(&ran), ["c.trc", "b/1.trc", "b/2.trc", "a/1.trc"]);
}

#[test]
fn are_gone_through_to_any_depth() {
    let scratch = Scratch::new();
    let deep = format!("week/{}", "d/".repeat(60));
    for name in [
        "week/1.trc",
        "week/2.trc",
        &format!("{deep}3.trc"),
        "week/e/4.trc",
    ] {
        scratch.put(name, rows(1));
    }
    let ran = scratch.owl("check week --json").ended(0).quietly();
    assert_eq!(
        files(&ran),
        [
            "week/1.trc",
            "week/2.trc",
            &format!("{deep}3.trc"),
            "week/e/4.trc"
        ]
    );
}

#[test]
fn keep_their_shape_below_the_folder_of_outputs() {
    let scratch = Scratch::new();
    for (number, name) in ["a.trc", "x/a.trc", "x/y/a.trc", "z/b.TRC"]
        .iter()
        .enumerate()
    {
        scratch.put(format!("in/week/{name}"), rows(number + 1));
    }
    scratch.put("single/c.trc", rows(9));
    scratch.folder("in/week/empty");
    scratch
        .owl("convert in/week/ single/c.trc -o out")
        .ended(0)
        .quietly();
    for (number, name) in ["a.asc", "x/a.asc", "x/y/a.asc", "z/b.asc"]
        .iter()
        .enumerate()
    {
        let written = scratch.bytes(format!("out/{name}"));
        assert!(written == export(&rows(number + 1)).unwrap(), "{name}");
    }
    assert_eq!(scratch.names("out"), ["a.asc", "c.asc", "x", "z"]);
    assert!(scratch.names_but("in/week/x", ".trc") == ["y"]);
}

#[test]
fn have_their_outputs_beside_the_inputs() {
    let scratch = Scratch::new();
    scratch.put("week/a.trc", rows(1));
    scratch.put("week/x/b.trc", rows(2));
    scratch.owl("convert week").ended(0).quietly();
    assert_eq!(scratch.names("week"), ["a.asc", "a.trc", "x"]);
    assert_eq!(scratch.names("week/x"), ["b.asc", "b.trc"]);
}

#[test]
fn may_hold_the_folder_of_outputs() {
    let scratch = Scratch::new();
    scratch.put("a.trc", rows(1));
    scratch.put("x/b.trc", rows(2));
    for again in [false, true] {
        let ran = scratch.owl("convert . -o x/out --json").ended(0).quietly();
        let (objects, _) = ran.objects();
        let status = if again { "there" } else { "done" };
        assert!(
            objects.iter().all(|file| file.text("status") == status),
            "{ran}"
        );
    }
    assert_eq!(scratch.names("x/out"), ["a.asc", "x"]);
}

#[test]
fn by_another_name_are_done_once() {
    let scratch = Scratch::new();
    scratch.put("week/a.trc", rows(1));
    let full = scratch.path("week/a.trc");
    for words in [
        "check week/a.trc week/a.trc --json",
        "check week week --json",
        "check week week/a.trc --json",
        "check week/a.trc week --json",
        "check ./week/a.trc week/../week/a.trc --json",
        &format!("check {} week/a.trc --json", full.display()),
    ] {
        let (objects, summary) = scratch.owl(words).ended(0).quietly().objects();
        assert_eq!(
            (objects.len(), summary.number("files")),
            (1, 1.0),
            "{words}"
        );
    }
    scratch
        .owl("convert week week/a.trc -o out")
        .ended(0)
        .quietly();
    assert_eq!(scratch.names("out"), ["a.asc"]);
}

#[test]
fn by_another_name_are_done_once_though_the_output_would_be_another() {
    for words in ["convert week week/x/a.trc", "convert week/x/a.trc week"] {
        let scratch = Scratch::new();
        scratch.put("week/x/a.trc", rows(1));
        let ran = scratch.owl(&format!("{words} -o out --json"));
        assert_eq!(files(&ran.ended(0)), ["week/x/a.trc"], "{words}");
    }
}

#[test]
fn that_are_links_are_not_followed_below() {
    let scratch = Scratch::new();
    scratch.put("week/a.trc", rows(1));
    scratch.put("other/b.trc", rows(1));
    symlink("../other", scratch.path("week/link")).unwrap();
    symlink("../other", scratch.path("week/link.trc")).unwrap();
    symlink("..", scratch.path("week/up")).unwrap();
    symlink(".", scratch.path("week/round")).unwrap();
    let ran = scratch.owl("convert week --json").ended(0);
    assert_eq!(files(&ran), ["week/a.trc"]);
    assert_eq!(scratch.names("other"), ["b.trc"]);
}

#[test]
fn that_are_links_are_followed_where_they_are_named() {
    let scratch = Scratch::new();
    scratch.put("week/a.trc", rows(1));
    symlink("week", scratch.path("link")).unwrap();
    let ran = scratch.owl("convert link --json").ended(0).quietly();
    assert_eq!(files(&ran), ["link/a.trc"]);
    assert!(scratch.has("week/a.asc"));
}

#[test]
fn give_links_to_files() {
    let scratch = Scratch::new();
    scratch.put("other/b.trc", rows(2));
    scratch.folder("week");
    symlink("../other/b.trc", scratch.path("week/a.trc")).unwrap();
    scratch.owl("convert week").ended(0).quietly();
    assert!(scratch.bytes("week/a.asc") == export(&rows(2)).unwrap());
    assert_eq!(scratch.names("other"), ["b.trc"]);
}

#[test]
fn with_links_to_nothing() {
    let scratch = Scratch::new();
    scratch.put("week/z.trc", rows(1));
    symlink("none", scratch.path("week/dangling.trc")).unwrap();
    symlink("loop.trc", scratch.path("week/loop.trc")).unwrap();
    let ran = scratch.owl("convert week").ended(2);
    ran.failure_of("week/dangling.trc");
    ran.failure_of("week/loop.trc");
    assert_eq!(scratch.names_but("week", ".trc"), ["z.asc"]);
    let ran = scratch
        .owl("convert week/dangling.trc week/loop.trc")
        .ended(2);
    ran.failure_of("week/dangling.trc");
    ran.failure_of("week/loop.trc");
}

#[test]
fn with_a_pipe_in_them_are_not_waited_for() {
    let scratch = Scratch::new();
    scratch.put("week/z.trc", rows(1));
    let made = scratch.shell("mkfifo week/pipe.trc");
    if made.status != 0 {
        return crate::common::skip("no pipe could be made");
    }
    scratch
        .shell("timeout 10 \"$OWL\" convert week; test $? -ne 124")
        .ended(0);
    assert!(scratch.has("week/z.asc"));
}
