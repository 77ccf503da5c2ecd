//! `owl write`: traces again, in the house spelling.

use crate::common::traces::{rows, sample, trace};
use crate::common::Scratch;

const SMALL: &str = ";$FILEVERSION=1.2\r\n;$STARTTIME=36585.5000000000\r\n1) 0.000 1 Rx 0123 2 0A FF\r\n2) 1500.250 2 Tx 18AB0001 0\r\n3) 1500.249 1 Rx 0124 3 RTR\r\n";
const SELECTION: &str = ";$FILEVERSION=1.2\r\n;$STARTTIME=45231.4166666667\r\n4117) 52318.204 1 Rx 18FEDF00 8 2E D9 1E 3F 72 1F CB 19\r\n4118) 52326.950 1 Tx 0CF00300 8 25 30 BB 1D 6D 13 2C DE\r\n4119) 52331.007 2 Rx 0751 4 2B 14 00 40\r\n4120) 52344.611 1 Warng FFFFFFFF 4 00 00 00 08\r\n4121) 52344.598 2 Tx 01D8 3 RTR\r\n4122) 52360.120 1 Rx 18FEDF00 8 44 94 D6 49 3C 9D 5C 34\r\n";

#[test]
fn gives_the_house_spelling() {
    for (name, written) in [("small", SMALL), ("selection", SELECTION)] {
        let scratch = Scratch::new();
        let from = format!("{name}.trc");
        scratch.sample(&from);
        scratch
            .owl(&format!("write {from} --version 1.2"))
            .ended(0)
            .quietly();
        let to = format!("{name}-1.2.trc");
        assert_eq!(String::from_utf8(scratch.bytes(&to)).unwrap(), written);
        assert!(scratch.bytes(&from) == sample(&from));
        assert_eq!(scratch.names("").len(), 2);
    }
}

#[test]
fn gives_a_trace_without_buses_in_its_own_version() {
    let scratch = Scratch::new();
    scratch.sample("version-11.trc");
    scratch
        .owl("write version-11.trc --version 1.1")
        .ended(0)
        .quietly();
    let written = scratch.bytes("version-11-1.1.trc");
    let (read, records) = bushingowl::read_to_vec(&sample("version-11.trc")).unwrap();
    assert!(written == read.write_to_vec(&records).unwrap());
    assert!(
        written.starts_with(b";$FILEVERSION=1.1\r\n;$STARTTIME=45231.4166666667\r\n1) 18.2 Rx ")
    );
}

#[test]
fn needs_a_version() {
    let scratch = Scratch::new();
    scratch.sample("small.trc");
    let ran = scratch.owl("write small.trc").ended(64);
    assert!(
        ran.err().contains("--version 1.1 or --version 1.2"),
        "{ran}"
    );
    assert_eq!(scratch.names("."), ["small.trc"]);
}

#[test]
fn of_what_was_written_gives_the_same() {
    let scratch = Scratch::new();
    scratch.put("a.trc", SMALL);
    scratch.owl("write a.trc --version 1.2").ended(0).quietly();
    assert_eq!(scratch.bytes("a-1.2.trc"), SMALL.as_bytes());
    scratch
        .owl("write a-1.2.trc --version=1.2")
        .ended(0)
        .quietly();
    assert_eq!(scratch.bytes("a-1.2-1.2.trc"), SMALL.as_bytes());
}

#[test]
fn refuses_what_the_version_does_not_carry() {
    let scratch = Scratch::new();
    scratch.sample("small.trc");
    scratch.sample("version-11.trc");
    let before = scratch.names("");
    let ran = scratch
        .owl("write small.trc --version 1.1")
        .ended(1)
        .quietly();
    let line = ran.line_of("small.trc");
    let reason = "small.trc: the version can't carry record 1 (refusal 24): ";
    let detail = line.strip_prefix(reason).unwrap_or_else(|| panic!("{ran}"));
    assert!(detail.contains("bus"), "{ran}");
    let ran = scratch
        .owl("write version-11.trc --version 1.2")
        .ended(1)
        .quietly();
    assert!(ran.line_of("version-11.trc").contains("bus"), "{ran}");
    assert_eq!(ran.lines()[1], "1 file: 0 written, 1 refused");
    assert_eq!(scratch.names(""), before);
}

#[test]
fn refuses_a_broken_trace() {
    let scratch = Scratch::new();
    scratch.put("a.trc", trace("1) 0.000 1 Rx 0123 9\r\n"));
    scratch.put("b.trc", rows(1));
    let ran = scratch
        .owl("write a.trc b.trc --version 1.2")
        .ended(1)
        .quietly();
    assert_eq!(
        ran.line_of("a.trc"),
        "a.trc: line 3 is no row (refusal 7): field 6 (length) is wrong: \"9\""
    );
    assert_eq!(ran.lines()[1], "2 files: 1 written, 1 refused");
    assert_eq!(scratch.names(""), ["a.trc", "b-1.2.trc", "b.trc"]);
}

#[test]
fn names_its_outputs() {
    let scratch = Scratch::new();
    for (from, to) in [
        ("a.trc", "a-1.2.trc"),
        ("b.TRC", "b-1.2.trc"),
        ("c", "c-1.2.trc"),
        ("d.txt", "d.txt-1.2.trc"),
    ] {
        scratch.put(from, SMALL);
        scratch
            .owl_with(["write", "--version", "1.2", from])
            .ended(0)
            .quietly();
        assert_eq!(scratch.bytes(to), SMALL.as_bytes(), "{from}");
    }
    scratch
        .owl("write a.trc --version 1.2 -o out/below --json")
        .ended(0)
        .quietly();
    assert_eq!(scratch.names("out/below"), ["a-1.2.trc"]);
}

#[test]
fn takes_no_folder() {
    let scratch = Scratch::new();
    scratch.put("week/a.trc", SMALL);
    scratch.put("b.trc", SMALL);
    let ran = scratch.owl("write week b.trc --version 1.2").ended(2);
    ran.failure_of("week");
    assert_eq!(scratch.names("week"), ["a.trc"]);
    assert!(scratch.has("b-1.2.trc"));
}

#[test]
fn says_it_as_json() {
    let scratch = Scratch::new();
    scratch.sample("small.trc");
    let (files, summary) = scratch
        .owl("write small.trc --version 1.2 --json")
        .ended(0)
        .objects();
    let file = &files[0];
    assert_eq!(file.text("output"), "small-1.2.trc");
    assert_eq!((file.text("status"), file.text("version")), ("done", "1.2"));
    assert_eq!(file.number("bytes_written"), SMALL.len() as f64);
    assert_eq!(summary.number("bytes_written"), SMALL.len() as f64);
}
