//! The exit status: 0, 1 and 2, and which goes before which. For 64 see `usage.rs`.

use crate::common::traces::{export, rows, trace};
use crate::common::Scratch;

/// A good file of either kind, and one that is refused.
fn depot() -> Scratch {
    let scratch = Scratch::new();
    scratch.put("good.trc", rows(2));
    scratch.put("lines.txt", export(&rows(2)).unwrap());
    scratch.put("bad.trc", trace("x\r\n"));
    scratch.put("wrong.txt", "x\r\n");
    scratch.folder("empty");
    scratch
}

#[track_caller]
fn ends(words: &str, status: i32) {
    println!("{words}");
    depot().owl(words).ended(status);
}

#[test]
fn is_0_where_all_is_done() {
    for words in [
        "convert good.trc",
        "convert empty",
        "convert good.trc good.trc",
        "check good.trc",
        "check --ascii lines.txt",
        "write --version 1.2 good.trc",
        "back lines.txt",
        "explain good.trc",
        "show good.trc",
        "show --ascii lines.txt",
    ] {
        ends(words, 0);
    }
}

#[test]
fn is_1_where_some_file_is_refused() {
    for words in [
        "convert bad.trc",
        "convert bad.trc good.trc",
        "convert .",
        "convert bad.trc --json",
        "check good.trc bad.trc",
        "check --ascii wrong.txt",
        "write --version 1.2 bad.trc good.trc",
        "write good.trc --version 1.1",
        "back lines.txt wrong.txt",
        "back lines.txt --version 1.1",
        "explain bad.trc",
        "show bad.trc",
        "show --ascii wrong.txt --csv",
    ] {
        ends(words, 1);
    }
}

#[test]
fn is_2_where_something_could_not_be_done() {
    for words in [
        "convert none.trc",
        "convert none.trc good.trc",
        "convert good.trc none",
        "check none.trc",
        "check --ascii none.txt lines.txt",
        "write --version 1.2 none.trc",
        "write --version 1.2 empty",
        "back none.txt",
        "back empty",
        "explain none.trc",
        "explain empty",
        "show none.trc",
        "show empty --json",
        "convert good.trc/none.trc",
        "convert none.trc --json",
    ] {
        ends(words, 2);
    }
}

#[test]
fn is_2_before_1() {
    for words in [
        "convert bad.trc none.trc",
        "convert none.trc bad.trc",
        "convert none.trc bad.trc good.trc --jobs 4",
        "check bad.trc none.trc --json",
        "write --version 1.2 bad.trc none.trc",
        "back wrong.txt empty",
    ] {
        ends(words, 2);
    }
}

#[test]
fn of_2_leaves_the_others_done() {
    let scratch = depot();
    let ran = scratch.owl("convert none.trc bad.trc good.trc").ended(2);
    ran.failure_of("none.trc");
    ran.line_of("bad.trc");
    assert!(scratch.bytes("good.asc") == export(&rows(2)).unwrap());
}
