//! Refusals are told in the words of `words.txt`, with the limits of the crate in them.

use bushingowl::{
    export_to_vec, milliseconds, pack, separated, Kind, Reason, Record, Refused, CHANNEL_AS_BUS,
    LINE_LIMIT, MOST_CHANNEL, MOST_OFFSET, MOST_ROWS, MOST_START, MOST_TEXT, RECORD,
};

/// The words of this name, if there are any.
fn words(name: &str) -> Option<String> {
    let text = std::fs::read_to_string(concat!(env!("CARGO_MANIFEST_DIR"), "/../words.txt"));
    let begin = format!("{name}: ");
    let found = text.unwrap();
    let found = found.lines().find_map(|line| line.strip_prefix(&begin));
    found.map(str::to_string)
}

/// The words of this name with the place and the limits.
fn filled_in(name: &str, place: u64) -> Option<String> {
    let mut words = words(name)?;
    for (name, value) in [
        ("place", place.to_string()),
        ("most_text", separated(MOST_TEXT as u64)),
        ("most_rows", separated(MOST_ROWS as u64)),
        ("most_offset", separated(MOST_OFFSET)),
        ("most_channel", MOST_CHANNEL.to_string()),
        ("line_limit", LINE_LIMIT.to_string()),
    ] {
        words = words.replace(&format!("{{{name}}}"), &value);
    }
    Some(words)
}

#[test]
fn each_reason_has_its_words() {
    for reason in Reason::ALL {
        for place in [1, 4117] {
            let number = reason.number();
            let words = filled_in(&format!("refusal_{number}"), place).unwrap();
            let said = Refused { reason, place }.to_string();
            assert_eq!(said, format!("{words} (refusal {number})"));
        }
    }
}

#[test]
fn each_refusal_of_a_file_has_its_remedy() {
    let mut with_one = vec![];
    for reason in Reason::ALL {
        let number = reason.number();
        let remedy = Refused { reason, place: 1 }.remedy();
        assert_eq!(remedy, filled_in(&format!("remedy_{number}"), 1));
        with_one.extend(remedy.map(|_| number));
    }
    assert_eq!(with_one, [1, 2, 3, 4, 5, 6, 7, 31, 32, 33, 34]);
}

/// The day of an export of one frame at this start.
fn date(start: u64) -> String {
    let frame = Record {
        offset: 0,
        bus: 0,
        kind: Kind::DataReceived,
        extended: false,
        id: 0,
        length: 0,
        data: [0; 8],
        mark: false,
    };
    let mut packed = [0; RECORD];
    pack(&frame, &mut packed).unwrap();
    let (_, line) = export_to_vec(start, CHANNEL_AS_BUS, &packed).unwrap();
    String::from_utf8_lossy(&line[..10]).into_owned()
}

/// The limits that stand in the words themselves.
#[test]
fn limits_are_those_of_the_crate() {
    let last_day = MOST_START / 86_400_000;
    let last_offset = milliseconds(MOST_OFFSET);
    for (name, limit) in [
        ("refusal_5", format!("day {}", separated(last_day))),
        ("refusal_20", format!("not {RECORD} for each record")),
        ("refusal_22", format!("day {}", separated(last_day))),
        ("start_expected", format!("up to {last_day}.9999999942")),
        ("any_number", format!("to {MOST_ROWS} and")),
        ("row_no_number_left", format!("number {MOST_ROWS} ")),
        (
            "in_offset_11",
            format!("up to {}", &last_offset[..last_offset.len() - 2]),
        ),
        ("in_offset_12", format!("up to {last_offset}")),
        ("in_bus", format!("from 1 to {MOST_CHANNEL},")),
        ("carried_no_bus", format!("from 1 to {MOST_CHANNEL}")),
        ("in_part_channel", format!("from #0 to #{MOST_CHANNEL}")),
        (
            "in_part_date",
            format!("from {} to {}", date(0), date(MOST_START)),
        ),
    ] {
        let words = words(name).unwrap();
        let (_, behind) = words
            .split_once(&limit)
            .unwrap_or_else(|| panic!("no {limit}: {words}"));
        assert!(
            !behind.starts_with(|next: char| next.is_ascii_digit()),
            "{words}"
        );
    }
}
