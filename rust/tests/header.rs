//! The constants of `include/bushingowl.h` are those of this crate, and so are the lengths of its answers and the bits of a
//! record.

use bushingowl::{
    numbers, Kind, Reason, RowReason, CHANNEL_AS_BENCH, CHANNEL_AS_BUS, LEAST_LINE, LEAST_ROW,
    MOST_CHANNEL, MOST_HEADER, MOST_LINE, MOST_OFFSET, MOST_ROW, MOST_ROWS, MOST_START, MOST_TEXT,
    RECORD,
};

const HEADER: &str = include_str!("../../include/bushingowl.h");

/// What the header defines this name as.
fn defined(name: &str) -> &'static str {
    let start = format!("#define BUSHINGOWL_{name} ");
    let mut lines = HEADER.lines().filter_map(|line| line.strip_prefix(&start));
    let value = lines.next().unwrap_or_else(|| panic!("no {name}"));
    assert_eq!(lines.next(), None, "{name} twice");
    value
}

/// What the header declares as parameters of this function.
fn parameters(function: &str) -> &'static str {
    let start = format!("\nvoid bo_{function}(");
    let (_, behind) = HEADER.split_once(&start).unwrap();
    behind.split_once(");").unwrap().0
}

#[test]
fn sizes_and_channels_are_the_same() {
    let sizes = [
        ("RECORD", RECORD),
        ("MOST_TEXT", MOST_TEXT),
        ("MOST_ROWS", MOST_ROWS),
        ("LEAST_ROW", LEAST_ROW),
        ("MOST_HEADER", MOST_HEADER),
        ("MOST_ROW", MOST_ROW),
        ("MOST_LINE", MOST_LINE),
        ("LEAST_LINE", LEAST_LINE),
    ];
    let channels = [
        ("MOST_CHANNEL", MOST_CHANNEL),
        ("CHANNEL_AS_BUS", CHANNEL_AS_BUS),
        ("CHANNEL_AS_BENCH", CHANNEL_AS_BENCH),
    ];
    let sizes = sizes.map(|(name, size)| (name, size as u64));
    for (name, number) in sizes.into_iter().chain(channels) {
        assert_eq!(defined(name), number.to_string(), "{name}");
    }
}

#[test]
fn limits_are_the_same() {
    let start = "((uint64_t)99999 * 86400000 + 86399999)";
    assert_eq!(defined("MOST_START"), start);
    assert_eq!(MOST_START, 99_999 * 86_400_000 + 86_399_999);
    assert_eq!(defined("MOST_OFFSET"), "(((uint64_t)1 << 48) - 1)");
    assert_eq!(MOST_OFFSET, (1 << 48) - 1);
}

#[test]
fn refusals_are_the_same() {
    let (_, table) = HEADER.split_once(" * REFUSALS\n").unwrap();
    let (table, _) = table.split_once(" * Of several, ").unwrap();
    // The numbers have a column of their own; a line that goes on has none.
    let column = table.lines().filter_map(|line| line.get(2..7));
    let mut listed: Vec<u64> = column.filter_map(|no| no.trim().parse().ok()).collect();
    // They stand in the order in which they are given: 26 and 35 before 23.
    assert_eq!(listed[8..16], [20, 21, 22, 26, 35, 23, 24, 25]);
    listed.sort();
    assert_eq!(listed, Reason::ALL.map(Reason::number));
}

#[test]
fn kinds_are_the_same() {
    let kinds = [
        ("DATA_RECEIVED", Kind::DataReceived),
        ("DATA_SENT", Kind::DataSent),
        ("REMOTE_RECEIVED", Kind::RemoteReceived),
        ("REMOTE_SENT", Kind::RemoteSent),
        ("WARNING", Kind::Warning),
        ("ERROR_FRAME", Kind::ErrorFrame),
    ];
    for (name, kind) in kinds {
        assert_eq!(defined(name), kind.number().to_string(), "{name}");
    }
}

#[test]
fn reasons_are_the_same() {
    let reasons = [
        ("WRONG_FIELD", RowReason::WrongField),
        ("ENDED_EARLY", RowReason::EndedEarly),
    ];
    assert_eq!(reasons.len(), RowReason::ALL.len());
    for (name, reason) in reasons {
        assert_eq!(defined(name), reason.number().to_string(), "{name}");
        assert_eq!(RowReason::of(reason.number()), Some(reason));
    }
    for number in [0, 3, u64::MAX] {
        assert_eq!(RowReason::of(number), None);
    }
}

#[test]
fn answers_have_as_many_numbers() {
    let lengths = [
        ("read", numbers::read(b"", &mut []).len()),
        ("write", numbers::write(0, 0, 0, b"", &mut []).len()),
        ("export", numbers::export(0, 0, b"", &mut []).len()),
        ("read_ascii", numbers::read_ascii(b"", &mut []).len()),
        ("unpack", numbers::unpack(b"").len()),
        ("pack", numbers::pack(&[0; 8], &mut []).len()),
        ("explain", numbers::explain(b"", 0, 0).len()),
    ];
    for (name, length) in lengths {
        let answer = format!("uint64_t answer[{length}]");
        assert!(parameters(name).ends_with(&answer), "{name}");
    }
}

/// How many bits the header gives to each field of a record, and to the zeros behind them.
fn widths() -> Vec<usize> {
    let (_, table) = HEADER.split_once(" *   bits  field\n").unwrap();
    let (table, _) = table.split_once(" *\n").unwrap();
    let widths = table
        .lines()
        .filter_map(|line| line.split_whitespace().nth(1));
    widths.map(|bits| bits.parse().unwrap()).collect()
}

#[test]
fn a_record_has_the_same_bits() {
    let fields = [1 << 47, 16, 1, 1, 0x1234_5678, 8, 0x0123_4567_89AB_CDEF, 1];
    let given = format!("const uint64_t fields[{}], ", fields.len());
    assert!(parameters("pack").starts_with(&given));
    let mut record = [0xEE; RECORD];
    assert_eq!(numbers::pack(&fields, &mut record), [0, 0]);
    assert_eq!(numbers::unpack(&record)[2..], fields);
    // Each value with as many digits as it has bits, behind them zeros.
    assert_eq!(widths().len(), fields.len() + 1);
    let values = fields.into_iter().chain([0]).zip(widths());
    let bits = values.map(|(value, bits)| format!("{value:0bits$b}"));
    let packed = record.map(|byte| format!("{byte:08b}"));
    assert_eq!(bits.collect::<String>(), packed.concat());
}
