//! The largest inputs, and those one past them.

use super::runs::Runs;
use super::{Checked, Difference};
use crate::inputs::marks::turned;
use crate::inputs::numbers::Numbers;
use crate::inputs::records::{record, Fields};
use crate::inputs::spelling::Spelled;
use crate::inputs::style::Style;
use crate::inputs::{LAST_CHANNEL, LAST_START};

const LONGEST_TEXT: usize = 134_217_728;
const MOST_ROWS: usize = 999_999;
/// The most bytes of a line with its end.
const LONGEST_LINE: usize = 252;
const KIND: &str = "size limits";

pub fn limits(runs: &mut Runs) -> Checked {
    for version in [11, 12] {
        let rows: Vec<Fields> = (0..MOST_ROWS)
            .map(|_| record(&mut runs.random, version))
            .collect();
        let from_two = spelled(runs, version, rows[1..].to_vec(), 2);
        let most = spelled(runs, version, rows, 1);
        let none = spelled(runs, version, Vec::new(), 0);
        lists(runs, version as u32, &most.records(), &from_two.records())?;
        last_mark(runs, version as u32, &most.records())?;
        rows_past_the_last(runs, &most, &["1000000", "999999", "000000", "0", "1"])?;
        rows_past_the_last(runs, &from_two, &["1000000"])?;
        texts(runs, most)?;
        texts(runs, none)?;
    }
    Ok(())
}

/// These rows, numbered from the first number on.
pub fn spelled(runs: &mut Runs, version: u64, rows: Vec<Fields>, first: u64) -> Spelled {
    let (numbers, style) = (Numbers::from_first(first), Style::plain());
    Spelled::of(&mut runs.random, version, rows, &numbers, &style)
}

/// As many records as there may be, one byte more, and one record more. They can't be numbered from any number but 1 on; one fewer can
/// from 2 on.
fn lists(runs: &mut Runs, version: u32, records: &[u8], one_fewer: &[u8]) -> Checked {
    for more in [0, 1, 20] {
        let number = if more == 0 { 0 } else { 20 };
        let list = [records, &vec![0; more]].concat();
        let written = runs.write(KIND, version, LAST_START, 1, &list)?;
        expect("records written", number, 0, &written)?;
        for (channel, past) in [(LAST_CHANNEL, 0), (LAST_CHANNEL + 1, 35)] {
            let number = if more == 0 { past } else { 20 };
            let (exported, _) = runs.export(KIND, LAST_START, channel, &list, more == 0)?;
            expect("records exported", number, 0, &exported)?;
        }
    }
    for (first, list, number) in [
        (0, records, 26),
        (2, records, 26),
        (2, one_fewer, 0),
        (3, one_fewer, 26),
    ] {
        let written = runs.write(KIND, version, LAST_START, first, list)?;
        expect("records written from a number on", number, 0, &written)?;
    }
    Ok(())
}

/// The mark of the last record that there may be, turned.
fn last_mark(runs: &mut Runs, version: u32, records: &[u8]) -> Checked {
    let list = turned(records, MOST_ROWS - 1);
    let written = runs.write(KIND, version, LAST_START, 1, &list)?;
    expect("the last mark written", 23, MOST_ROWS as u64, &written)?;
    let (exported, _) = runs.export(KIND, LAST_START, LAST_CHANNEL, &list, false)?;
    expect("the last mark exported", 23, MOST_ROWS as u64, &exported)
}

/// Rows up to the last number, and one more, with each of these numbers.
fn rows_past_the_last(runs: &mut Runs, most: &Spelled, numbers: &[&str]) -> Checked {
    runs.read(KIND, &most.text, Some((most.answer(), &most.records())))?;
    let lines = most.text.iter().filter(|&&b| b == b'\n').count() as u64;
    let fields = match most.version {
        11 => "0.0 Rx 0123 0",
        _ => "0.000 1 Rx 0123 0",
    };
    for number in numbers {
        let row = format!("{number}) {fields}\r\n");
        let text = [&most.text, row.as_bytes()].concat();
        let read = runs.read(KIND, &text, None)?;
        expect("one row more", 7, lines + 1, &read)?;
    }
    Ok(())
}

/// A text of as many bytes as it may have, and of one more.
fn texts(runs: &mut Runs, spelled: Spelled) -> Checked {
    let (known, records) = (spelled.answer(), spelled.records());
    let mut text = spelled.text;
    fill_up(&mut text);
    runs.read(KIND, &text, Some((known, &records)))?;
    for more in b"\n;" {
        text.push(*more);
        let read = runs.read(KIND, &text, None)?;
        expect("one byte more", 1, 0, &read)?;
        text.pop();
    }
    Ok(())
}

/// Adds comments until the text is just as long as it may be.
fn fill_up(text: &mut Vec<u8>) {
    while text.len() < LONGEST_TEXT {
        let room = LONGEST_TEXT - text.len();
        let len = match room {
            0..=LONGEST_LINE => room,
            // The last comment needs three bytes.
            253 | 254 => room - 3,
            _ => LONGEST_LINE,
        };
        let end = text.len() + len;
        text.push(b';');
        text.resize(end - 2, b'-');
        text.extend(b"\r\n");
    }
}

pub fn expect(what: &str, number: u64, place: u64, answer: &[u64]) -> Checked {
    if answer[..2] == [number, place] {
        return Ok(());
    }
    Err(Difference {
        what: format!("{what}: {number} at {place} is expected, {answer:?} was given"),
        input: "a limit".to_string(),
    })
}
