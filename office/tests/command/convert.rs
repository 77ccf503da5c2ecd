//! `owl convert`: what it writes, byte by byte, and where.

use crate::common::traces::{export_as, rows, sample};
use crate::common::Scratch;

#[test]
fn gives_the_export_of_each_sample() {
    for name in ["small", "dosing", "selection", "version-11"] {
        let scratch = Scratch::new();
        let trace = format!("{name}.trc");
        scratch.sample(&trace);
        scratch.owl(&format!("convert {trace}")).ended(0).quietly();
        let export = sample(&format!("{name}.txt"));
        assert!(scratch.bytes(format!("{name}.asc")) == export, "{name}");
        assert!(scratch.bytes(&trace) == sample(&trace), "{name}");
        assert_eq!(scratch.names(""), [format!("{name}.asc"), trace]);
    }
}

#[test]
fn says_what_it_did() {
    let scratch = Scratch::new();
    for name in ["a.trc", "b.trc"] {
        scratch.put(name, sample("small.trc"));
    }
    let ran = scratch.owl("convert a.trc b.trc").ended(0).quietly();
    assert_eq!(
        ran.out(),
        "2 files: 2 converted\n6 rows, 4 lines, 2 left out, 2 steps back\n"
    );
}

#[test]
fn says_it_as_json() {
    let scratch = Scratch::new();
    scratch.sample("small.trc");
    let ran = scratch.owl("convert small.trc --json").ended(0).quietly();
    let file = r#"{"file":"small.trc","status":"done","output":"small.asc","version":"1.2","start":3160987200000,"first":1,"rows":3,"lines":2,"left_out":1,"steps_back":1,"first_step_back":3,"bytes_read":126,"bytes_written":111}"#;
    assert_eq!(ran.lines()[0], file);
    assert_eq!(ran.lines().len(), 2);
}

#[test]
fn says_null_where_no_row_steps_back() {
    let scratch = Scratch::new();
    scratch.put("a.trc", rows(2));
    let (files, _) = scratch.owl("convert a.trc --json").ended(0).objects();
    assert_eq!(
        files[0].get("first_step_back"),
        &crate::common::json::Json::Null
    );
    assert_eq!(files[0].number("steps_back"), 0.0);
}

#[test]
fn names_the_first_row_that_steps_back_by_its_number() {
    let scratch = Scratch::new();
    scratch.sample("selection.trc");
    let (files, _) = scratch
        .owl("convert selection.trc --json")
        .ended(0)
        .objects();
    assert_eq!(files[0].number("first"), 4117.0);
    assert_eq!(files[0].number("first_step_back"), 4121.0);
    let ran = scratch.owl("show selection.trc").ended(0);
    assert!(
        ran.lines()[0].ends_with("first step back at row 4121"),
        "{ran}"
    );
}

#[test]
fn counts_every_step_back() {
    let scratch = Scratch::new();
    let row = |number, offset| format!("{number}) {offset}.000 1 Rx 0123 0\r\n");
    let offsets = [5, 3, 5, 5, 4, 3, 9];
    let lines: String = (1..)
        .zip(offsets)
        .map(|(number, offset)| row(number, offset))
        .collect();
    scratch.put("a.trc", crate::common::traces::trace(&lines));
    let (files, summary) = scratch.owl("convert a.trc --json").ended(0).objects();
    assert_eq!(files[0].number("steps_back"), 3.0);
    assert_eq!(files[0].number("first_step_back"), 2.0);
    assert_eq!(summary.number("steps_back"), 3.0);
}

#[test]
fn writes_bus_0_as_the_channel_that_is_given() {
    let scratch = Scratch::new();
    scratch.sample("version-11.trc");
    let text = sample("version-11.trc");
    for channel in 0..=16 {
        let words = format!("convert version-11.trc --channel {channel} -o {channel}");
        scratch.owl(&words).ended(0);
        let written = scratch.bytes(format!("{channel}/version-11.asc"));
        assert!(written == export_as(&text, channel).unwrap(), "{channel}");
    }
    assert!(scratch.bytes("1/version-11.asc") == sample("version-11.txt"));
}

#[test]
fn leaves_other_buses_as_they_are() {
    let scratch = Scratch::new();
    scratch.sample("small.trc");
    scratch.owl("convert small.trc --channel 7").ended(0);
    assert_eq!(scratch.bytes("small.asc"), sample("small.txt"));
}

#[test]
fn names_its_outputs() {
    let scratch = Scratch::new();
    let names = [
        ("a.trc", "a.asc"),
        ("b.TRC", "b.asc"),
        ("c.Trc", "c.asc"),
        ("d", "d.asc"),
        ("e.txt", "e.txt.asc"),
        ("f.trc.old", "f.trc.old.asc"),
        ("g.trc.trc", "g.trc.asc"),
        ("htrc", "htrc.asc"),
        (".trc", ".asc"),
    ];
    for (trace, export) in names {
        scratch.put(trace, sample("small.trc"));
        scratch.owl_with(["convert", trace]).ended(0).quietly();
        assert_eq!(scratch.bytes(export), sample("small.txt"), "{trace}");
    }
    assert_eq!(scratch.names("").len(), 2 * names.len());
}

#[test]
fn makes_the_folder_of_outputs() {
    let scratch = Scratch::new();
    scratch.sample("small.trc");
    for folder in ["one", "two/three/four", "./five/", "six/../six"] {
        scratch
            .owl_with(["convert", "small.trc", "-o", folder])
            .ended(0)
            .quietly();
        assert_eq!(scratch.names(folder), ["small.asc"]);
    }
    assert!(!scratch.has("small.asc"));
}

#[test]
fn takes_a_trace_without_rows() {
    let scratch = Scratch::new();
    scratch.put("a.trc", crate::common::traces::HEAD);
    let ran = scratch.owl("convert a.trc --json").ended(0).quietly();
    assert_eq!(scratch.bytes("a.asc"), b"");
    let (files, _) = ran.objects();
    assert_eq!(files[0].number("rows"), 0.0);
    assert_eq!(files[0].number("first"), 0.0);
}

#[test]
fn lets_options_stand_anywhere() {
    let scratch = Scratch::new();
    scratch.sample("small.trc");
    scratch
        .owl("convert -o out small.trc --json --force")
        .ended(0)
        .quietly();
    scratch
        .owl("convert --force --json small.trc --output=out")
        .ended(0)
        .quietly();
    assert_eq!(scratch.bytes("out/small.asc"), sample("small.txt"));
}
