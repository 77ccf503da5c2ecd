//! `owl show`: the records, as text, CSV and JSON.

use crate::common::json::Json;
use crate::common::traces::{rows, sample, trace};
use crate::common::Scratch;

const CSV_HEAD: &str = "row,stamp,offset_us,bus,kind,extended,id,length,data,step_back\n";

#[test]
fn csv_of_the_small_sample() {
    let scratch = Scratch::new();
    scratch.sample("small.trc");
    let ran = scratch.owl("show small.trc --csv").ended(0).quietly();
    let rows = "1,29.02.2000 12:00:00.0000,0,1,Rx,0,0123,2,0AFF,0\n2,29.02.2000 12:00:01.5002,1500250,2,Tx,1,18AB0001,0,,0\n3,29.02.2000 12:00:01.5002,1500249,1,Rx RTR,0,0124,3,,1\n";
    assert_eq!(ran.out(), format!("{CSV_HEAD}{rows}"));
}

#[test]
fn json_of_the_small_sample() {
    let scratch = Scratch::new();
    scratch.sample("small.trc");
    let ran = scratch.owl("show small.trc --json").ended(0).quietly();
    let lines = [
        r#"{"row":1,"stamp":"29.02.2000 12:00:00.0000","offset_us":0,"bus":1,"kind":"Rx","extended":false,"id":291,"length":2,"data":"0AFF","step_back":false}"#,
        r#"{"row":2,"stamp":"29.02.2000 12:00:01.5002","offset_us":1500250,"bus":2,"kind":"Tx","extended":true,"id":413859841,"length":0,"data":"","step_back":false}"#,
        r#"{"row":3,"stamp":"29.02.2000 12:00:01.5002","offset_us":1500249,"bus":1,"kind":"Rx RTR","extended":false,"id":292,"length":3,"data":"","step_back":true}"#,
    ];
    assert_eq!(ran.lines(), lines);
    for line in lines {
        Json::of(line);
    }
}

#[test]
fn text_has_a_line_about_the_trace_and_one_for_each_record() {
    let scratch = Scratch::new();
    scratch.sample("small.trc");
    let ran = scratch.owl("show small.trc").ended(0).quietly();
    let lines = ran.lines();
    assert_eq!(lines.len(), 4, "{ran}");
    assert!(
        lines[0].contains("1.2") && lines[0].contains("3 rows"),
        "{ran}"
    );
    for (line, parts) in lines[1..].iter().zip([
        ["29.02.2000 12:00:00.0000", "Rx", "0123", "0A"],
        ["29.02.2000 12:00:01.5002", "Tx", "18AB0001", "2"],
        ["29.02.2000 12:00:01.5002", "RTR", "0124", "3"],
    ]) {
        for part in parts {
            assert!(line.contains(part), "{part}: {ran}");
        }
    }
}

#[test]
fn has_a_word_for_every_kind() {
    let scratch = Scratch::new();
    let lines = "1) 0.000 16 Rx 07FF 1 0a\r\n2) 0.000 1 Tx 00000001 0\r\n3) 0.000 1 Rx 0124 3 RTR\r\n4) 0.000 1 Tx 1FFFFFFF 8 RTR\r\n5) 1700.125 1 Error 0004 4 01 13 00 60\r\n6) 1700.125 1 Warng FFFFFFFF 4 00 00 00 08 BUSLIGHT\r\n";
    scratch.put("a.trc", trace(lines));
    let noon = "29.02.2000 12:00:00.0000";
    let ran = scratch.owl("show a.trc --csv").ended(0).quietly();
    let rows = [
        format!("1,{noon},0,16,Rx,0,07FF,1,0A,0"),
        format!("2,{noon},0,1,Tx,1,00000001,0,,0"),
        format!("3,{noon},0,1,Rx RTR,0,0124,3,,0"),
        format!("4,{noon},0,1,Tx RTR,1,1FFFFFFF,8,,0"),
        "5,29.02.2000 12:00:01.7001,1700125,1,Error,0,0004,4,01130060,0".to_string(),
    ];
    assert_eq!(ran.lines()[1..6], rows);
    let ran = scratch.owl("show a.trc --json").ended(0).quietly();
    let kinds: Vec<String> = ran
        .lines()
        .iter()
        .map(|line| Json::of(line).text("kind").into())
        .collect();
    assert_eq!(kinds, ["Rx", "Tx", "Rx RTR", "Tx RTR", "Error", "Warng"]);
}

#[test]
fn says_the_same_of_the_id_of_a_warning_in_either_form() {
    let scratch = Scratch::new();
    scratch.put(
        "a.trc",
        trace("1) 0.000 1 Warng FFFFFFFF 4 00 00 00 08\r\n"),
    );
    let csv = scratch.owl("show a.trc --csv").ended(0).quietly();
    let json = scratch.owl("show a.trc --json").ended(0).quietly();
    let id = match Json::of(json.lines()[0]).get("id") {
        Json::Null => "",
        _ => "0000",
    };
    let row = format!("1,29.02.2000 12:00:00.0000,0,1,Warng,0,{id},4,00000008,0");
    assert_eq!(csv.lines()[1], row, "{json}");
}

#[test]
fn has_no_bus_where_there_is_none() {
    let scratch = Scratch::new();
    scratch.sample("version-11.trc");
    let ran = scratch.owl("show version-11.trc --csv").ended(0).quietly();
    assert_eq!(
        ran.lines()[1],
        "1,01.11.2023 10:00:00.0182,18200,,Rx,1,18FEDF00,8,2ED91E3F721FCB19,0"
    );
    let ran = scratch.owl("show version-11.trc --json").ended(0).quietly();
    assert_eq!(Json::of(ran.lines()[0]).get("bus"), &Json::Null);
}

#[test]
fn counts_rows_as_the_trace_does() {
    let scratch = Scratch::new();
    scratch.sample("selection.trc");
    let ran = scratch.owl("show selection.trc --csv").ended(0).quietly();
    let numbers: Vec<&str> = ran.lines()[1..]
        .iter()
        .map(|line| line.split(',').next().unwrap())
        .collect();
    assert_eq!(numbers, ["4117", "4118", "4119", "4120", "4121", "4122"]);
}

#[test]
fn of_a_trace_without_rows() {
    let scratch = Scratch::new();
    scratch.put("a.trc", rows(0));
    assert_eq!(
        scratch.owl("show a.trc --csv").ended(0).quietly().out(),
        CSV_HEAD
    );
    assert_eq!(
        scratch.owl("show a.trc --json").ended(0).quietly().out(),
        ""
    );
    assert_eq!(
        scratch.owl("show a.trc").ended(0).quietly().lines().len(),
        1
    );
}

#[test]
fn of_ascii() {
    let scratch = Scratch::new();
    scratch.sample("edited.asc");
    let ran = scratch
        .owl("show edited.asc --ascii --csv")
        .ended(0)
        .quietly();
    let lines = ran.lines();
    assert_eq!(lines.len(), 7);
    assert_eq!(
        lines[1],
        "1,01.11.2023 10:00:00.0243,300,1,Tx,1,0CF00300,8,2530BB1D6D132CDE,0"
    );
    assert_eq!(lines[5], "5,01.11.2023 10:00:00.0240,0,16,Rx,0,07A6,1,5B,1");
    assert_eq!(
        scratch
            .owl("show edited.asc --ascii")
            .ended(0)
            .quietly()
            .lines()
            .len(),
        7
    );
}

#[test]
fn says_a_refusal_on_standard_error() {
    let scratch = Scratch::new();
    scratch.sample("wrong-row.trc");
    scratch.sample("no-such-date.asc");
    for form in ["", "--csv", "--json"] {
        let ran = scratch
            .owl(&format!("show wrong-row.trc {form}"))
            .ended(1)
            .complaining();
        assert!(ran.err().contains("line 4 is no row (refusal 7)"), "{ran}");
        let words = format!("show no-such-date.asc --ascii {form}");
        let ran = scratch.owl(&words).ended(1).complaining();
        assert!(ran.err().contains("(refusal 31)"), "{ran}");
    }
}

#[test]
fn of_what_cannot_be_read() {
    let scratch = Scratch::new();
    scratch.folder("folder");
    for name in ["none.trc", "folder", "folder/none"] {
        for form in ["", "--csv", "--json"] {
            let ran = scratch
                .owl(&format!("show {name} {form}"))
                .ended(2)
                .complaining();
            ran.failure_of(name);
        }
    }
}

#[test]
fn shows_the_same_stamps_as_the_export() {
    let scratch = Scratch::new();
    scratch.sample("dosing.trc");
    let ran = scratch.owl("show dosing.trc --json").ended(0).quietly();
    let records: Vec<Json> = ran.lines().into_iter().map(Json::of).collect();
    let frames = records
        .iter()
        .filter(|record| matches!(record.text("kind"), "Rx" | "Tx"));
    let stamps: Vec<&str> = frames.map(|record| record.text("stamp")).collect();
    let export = String::from_utf8(sample("dosing.txt")).unwrap();
    let exported: Vec<&str> = export.lines().map(|line| &line[..24]).collect();
    assert_eq!(stamps, exported);
}
