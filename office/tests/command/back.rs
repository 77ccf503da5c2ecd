//! `owl back`: lines of Telemotive ASCII to traces.

use crate::common::traces::sample;
use crate::common::Scratch;

const LINE: &str = "29.02.2000 12:00:00.0000 CAN #1 | Rx 123 2 0a ff\r\n";
const TRACE: &str =
    ";$FILEVERSION=1.2\r\n;$STARTTIME=36585.5000000000\r\n1) 0.000 1 Rx 0123 2 0A FF\r\n";

#[test]
fn gives_a_trace() {
    let scratch = Scratch::new();
    scratch.put("a.asc", LINE);
    let ran = scratch.owl("back a.asc --version 1.2").ended(0).quietly();
    assert_eq!(ran.lines()[0], "1 file: 1 written");
    assert_eq!(scratch.bytes("a.trc"), TRACE.as_bytes());
    assert_eq!(scratch.names(""), ["a.asc", "a.trc"]);
}

#[test]
fn gives_the_samples_back() {
    for (name, version) in [("edited", 12), ("no-bus", 11)] {
        let scratch = Scratch::new();
        let from = format!("{name}.asc");
        scratch.sample(&from);
        let spelled = if version == 11 { "1.1" } else { "1.2" };
        scratch
            .owl(&format!("back {from} --version {spelled}"))
            .ended(0)
            .quietly();
        let (read, records) = bushingowl::read_ascii_to_vec(&sample(&from)).unwrap();
        let written = bushingowl::write_to_vec(version, read.start, 1, &records).unwrap();
        assert!(scratch.bytes(format!("{name}.trc")) == written, "{name}");
    }
}

#[test]
fn and_convert_give_the_samples_in_our_spelling() {
    for name in ["edited", "no-bus"] {
        let scratch = Scratch::new();
        scratch.sample(&format!("{name}.asc"));
        scratch.owl(&format!("back {name}.asc")).ended(0).quietly();
        let words = format!("convert {name}.trc --channel 0 -o out");
        scratch.owl(&words).ended(0).quietly();
        let spelled = scratch.bytes(format!("out/{name}.asc"));
        assert!(spelled == sample(&format!("{name}.txt")), "{name}");
    }
}

#[test]
fn finds_the_version_that_carries_the_lines() {
    let scratch = Scratch::new();
    scratch.sample("edited.asc");
    scratch.sample("no-bus.asc");
    scratch.owl("back edited.asc no-bus.asc").ended(0).quietly();
    assert!(scratch
        .bytes("edited.trc")
        .starts_with(b";$FILEVERSION=1.2\r\n"));
    assert!(scratch
        .bytes("no-bus.trc")
        .starts_with(b";$FILEVERSION=1.1\r\n"));
}

#[test]
fn and_convert_give_the_lines_again() {
    let scratch = Scratch::new();
    scratch.sample("dosing.txt");
    scratch.owl("back dosing.txt").ended(0).quietly();
    scratch.owl("convert dosing.trc").ended(0).quietly();
    assert!(scratch.bytes("dosing.asc") == sample("dosing.txt"));
}

#[test]
fn names_its_outputs() {
    let scratch = Scratch::new();
    for (from, to) in [
        ("a.asc", "a.trc"),
        ("b.ASC", "b.trc"),
        ("c.txt", "c.trc"),
        ("d.TxT", "d.trc"),
        ("e", "e.trc"),
        ("f.trc", "f.trc.trc"),
        ("g.asc.txt", "g.asc.trc"),
    ] {
        scratch.put(from, LINE);
        scratch.owl_with(["back", from]).ended(0).quietly();
        assert_eq!(scratch.bytes(to), TRACE.as_bytes(), "{from}");
    }
    scratch.owl("back a.asc -o out/below").ended(0).quietly();
    assert_eq!(scratch.names("out/below"), ["a.trc"]);
}

#[test]
fn names_the_wrong_part_of_a_line() {
    let scratch = Scratch::new();
    scratch.sample("no-such-date.asc");
    let ran = scratch.owl("back no-such-date.asc").ended(1).quietly();
    let line = ran.line_of("no-such-date.asc");
    assert!(
        line.ends_with("(refusal 31): part 1 (date) is wrong: \"31.11.2023\""),
        "{ran}"
    );
    assert_eq!(scratch.names(""), ["no-such-date.asc"]);
}

#[test]
fn refuses_stamps_before_the_first() {
    let scratch = Scratch::new();
    let earlier = LINE.replace("12:00", "11:59");
    scratch.put("a.asc", format!("{LINE}{earlier}"));
    let ran = scratch.owl("back a.asc").ended(1).quietly();
    assert_eq!(
        ran.line_of("a.asc"),
        "a.asc: the stamp of line 2 lies before the start, that of line 1 cut to the millisecond (refusal 32)"
    );
}

#[test]
fn refuses_lines_with_and_without_a_bus() {
    let scratch = Scratch::new();
    scratch.put("a.asc", format!("{LINE}{}", LINE.replace("#1", "#0")));
    for words in [
        "back a.asc --version 1.2",
        "back a.asc --version 1.1",
        "back a.asc",
    ] {
        let ran = scratch.owl(words).ended(1).quietly();
        let line = ran.line_of("a.asc");
        assert!(
            line.contains("(refusal 24): ") && line.contains("bus"),
            "{ran}"
        );
    }
    assert_eq!(scratch.names(""), ["a.asc"]);
}

#[test]
fn gives_no_name_to_a_folder_that_a_file_beside_it_needs() {
    let scratch = Scratch::new();
    scratch.sample("edited.asc");
    scratch.folder("edited");
    let ran = scratch.owl("back edited edited.asc").ended(2);
    assert_eq!(ran.failure_of("edited"), "is a folder");
    assert_eq!(scratch.names("."), ["edited", "edited.asc", "edited.trc"]);
}

#[test]
fn takes_no_folder() {
    let scratch = Scratch::new();
    scratch.put("week/a.asc", LINE);
    let ran = scratch.owl("back week").ended(2);
    ran.failure_of("week");
    assert_eq!(scratch.names("week"), ["a.asc"]);
}
