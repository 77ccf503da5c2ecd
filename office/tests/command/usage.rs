//! Wrong usage: 64, a word on standard error, and nothing is done.

use crate::common::{traces, Scratch};

/// A folder in which every command has something to do.
fn depot() -> Scratch {
    let scratch = Scratch::new();
    scratch.put("a.trc", traces::rows(2));
    scratch.put("b.trc", traces::rows(3));
    scratch.put("a.txt", traces::export(&traces::rows(2)).unwrap());
    scratch
}

#[track_caller]
fn wrong(words: &str) {
    wrong_with(words.split_whitespace());
}

#[track_caller]
fn wrong_with<'a>(words: impl IntoIterator<Item = &'a str>) {
    let scratch = depot();
    let words: Vec<&str> = words.into_iter().collect();
    println!("{words:?}");
    let ran = scratch.owl_with(words).ended(64).complaining();
    assert!(ran.err().starts_with("owl: "), "{ran}");
    assert_eq!(scratch.names(""), ["a.trc", "a.txt", "b.trc"], "{ran}");
}

#[test]
fn without_a_command() {
    for words in [
        "",
        "a.trc",
        "covert a.trc",
        "Convert a.trc",
        "--json convert",
    ] {
        wrong(words);
    }
}

#[test]
fn without_a_file() {
    for command in ["convert", "check", "write", "back", "explain", "show"] {
        wrong(command);
        wrong(&format!("{command} --"));
    }
    wrong("convert --force");
    wrong("show --csv");
}

#[test]
fn with_a_dash_for_standard_input() {
    for command in ["convert", "check", "write", "back", "explain", "show"] {
        wrong(&format!("{command} -"));
    }
    wrong("convert a.trc -");
}

#[test]
fn with_an_unknown_option() {
    for option in [
        "--forse", "-x", "--Force", "---force", "-f", "--out=x", "-of",
    ] {
        wrong(&format!("convert a.trc {option}"));
        wrong(&format!("convert {option} a.trc"));
    }
}

#[test]
fn with_an_option_of_another_command() {
    for words in [
        "convert a.trc --ascii",
        "convert a.trc --csv",
        "convert a.trc --version 1.2",
        "check a.trc --force",
        "check a.trc -o out",
        "check a.trc --channel 2",
        "write a.trc --channel 2",
        "write a.trc --ascii",
        "back a.txt --channel 2",
        "explain a.trc --json",
        "explain a.trc --jobs 2",
        "explain a.trc -o out",
        "show a.trc --jobs 2",
        "show a.trc --force",
        "show a.trc --channel 2",
    ] {
        wrong(words);
    }
}

#[test]
fn with_an_option_twice() {
    for words in [
        "convert a.trc --force --force",
        "convert a.trc --json --json",
        "convert a.trc -o out -o out",
        "convert a.trc -o out --output out",
        "convert a.trc --output=out -o out",
        "convert a.trc --jobs 1 --jobs=1",
        "convert --channel 1 a.trc --channel 1",
        "check a.trc --ascii --ascii",
        "write a.trc --version 1.2 --version 1.2",
        "show a.trc --csv --csv",
    ] {
        wrong(words);
    }
}

#[test]
fn without_the_value_of_an_option() {
    for words in [
        "convert a.trc -o",
        "convert a.trc --output",
        "convert a.trc --jobs",
        "convert a.trc --channel",
        "write a.trc --version",
        "back a.txt --version",
    ] {
        wrong(words);
    }
}

#[test]
fn with_a_value_where_there_is_none() {
    for words in [
        "convert a.trc --force=yes",
        "check a.trc --json=",
        "show a.trc --csv=1",
    ] {
        wrong(words);
    }
}

#[test]
fn with_no_number_of_jobs() {
    let huge = "99999999999999999999999";
    for jobs in [
        "0", "257", "-1", "x", "1.5", "", " 1", "1 ", "0x2", "٣", huge,
    ] {
        for command in ["convert", "check", "write"] {
            wrong_with([command, "a.trc", "--jobs", jobs]);
            wrong_with([command, "a.trc", &format!("--jobs={jobs}")]);
        }
        wrong_with(["back", "a.txt", "--jobs", jobs]);
    }
}

#[test]
fn with_no_channel() {
    let huge = "18446744073709551616";
    for channel in [
        "17",
        "-1",
        "x",
        "1.5",
        "",
        " 1",
        "18446744073709551615",
        huge,
    ] {
        wrong_with(["convert", "a.trc", "--channel", channel]);
    }
}

#[test]
fn with_no_version() {
    for version in ["1.3", "1", "11", "12", "1.10", "01.1", "", "2.0", "1.1 "] {
        wrong_with(["write", "a.trc", "--version", version]);
        wrong_with(["back", "a.txt", "--version", version]);
    }
}

#[test]
fn with_two_forms_at_once() {
    wrong("show a.trc --csv --json");
    wrong("show --json a.trc --csv");
}

#[test]
fn with_two_files_for_one() {
    wrong("explain a.trc b.trc");
    wrong("show a.trc b.trc");
    wrong("show a.trc a.trc");
}

#[test]
fn is_said_in_words() {
    let scratch = depot();
    for (words, said) in [
        ("covert a.trc", "covert"),
        ("convert a.trc --forse", "--forse"),
        ("convert a.trc --jobs 0", "256"),
        ("convert a.trc --channel 17", "16"),
        ("convert a.trc --output", "--output"),
        ("convert a.trc --force --force", "--force"),
        ("write a.trc --version 1.3", "1.2"),
        ("show a.trc --csv --json", "--csv"),
    ] {
        let ran = scratch.owl(words).ended(64);
        assert!(ran.err().contains(said), "{words}: {ran}");
        assert!(ran.err().lines().count() < 5, "{words}: {ran}");
    }
}

#[test]
fn shows_what_cannot_be_seen_as_its_number() {
    let scratch = depot();
    for words in [["co\x1B[31mnvert", "a.trc"], ["check", "--\x1B[31m"]] {
        let ran = scratch.owl_with(words).ended(64);
        assert!(ran.err().contains("\\x1B[31m"), "{ran}");
        assert!(!ran.err().contains('\x1B'), "{ran}");
    }
}

#[test]
fn is_none_where_the_limits_are_kept() {
    let scratch = depot();
    for words in [
        "check a.trc --jobs 1",
        "check a.trc --jobs 256",
        "check --jobs=2 a.trc",
        "convert a.trc --channel 0 -o zero",
        "convert a.trc --channel=16 -o sixteen",
        "convert --output=long a.trc --force --json",
        "write --version=1.2 a.trc -o two",
    ] {
        println!("{words}");
        scratch.owl(words).ended(0).quietly();
    }
    for folder in ["zero", "sixteen", "long"] {
        assert!(scratch.has(format!("{folder}/a.asc")), "{folder}");
    }
}
