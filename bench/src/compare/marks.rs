//! Marks at random: texts that often go back, lists in which marks are true or some are false, and single records with any mark.

use super::ascii::{how_many, spelled};
use super::inputs::RECORDS;
use super::limits::expect;
use super::runs::Runs;
use super::{shown, Checked, Difference};
use crate::inputs::ascii::wavering_stamp;
use crate::inputs::channels::good_channel;
use crate::inputs::marks::{other_marks, true_marks, wavering, List};
use crate::inputs::numbers::{good_first, Numbers};
use crate::inputs::random::Random;
use crate::inputs::records::{marked, packed, record, Fields};
use crate::inputs::spelling::Spelled;
use crate::inputs::style::Style;
use crate::inputs::{LAST_START, RECORD};
use bushingowl::MOST_LINE;

pub fn one_of_marks(runs: &mut Runs) -> Checked {
    match runs.random.below(10) {
        0 | 1 => trace(runs),
        2 | 3 => spelled(runs, "ascii: lines that go back", wavering_stamp),
        4 | 5 => list(runs, ["write: true marks", "export: true marks"], good),
        6 | 7 => list(runs, ["write: false marks", "export: false marks"], bad),
        8 => {
            let kinds = [
                "write: bad among false marks",
                "export: bad among false marks",
            ];
            list(runs, kinds, malformed)
        }
        _ => (0..RECORDS).try_for_each(|_| single(runs)),
    }
}

/// A trace whose offsets often go back.
fn trace(runs: &mut Runs) -> Checked {
    let random = &mut runs.random;
    let version = random.pick(&[11, 12]);
    let count = how_many(random);
    let rows = wavering(random, version, count);
    let numbers = Numbers::from_first(good_first(random, count));
    let style = Style::new(random);
    let spelled = Spelled::of(random, version, rows, &numbers, &style);
    let known = (spelled.answer(), &*spelled.records());
    runs.read("read: trace that goes back", &spelled.text, Some(known))?;
    Ok(())
}

/// A list of rows that often go back.
fn list(
    runs: &mut Runs,
    kinds: [&'static str; 2],
    make: fn(&mut Random, &[Fields]) -> List,
) -> Checked {
    let random = &mut runs.random;
    let version = random.pick(&[11, 12]);
    let count = how_many(random);
    let rows = wavering(random, version, count);
    let list = make(random, &rows);
    written_and_exported(runs, kinds, version as u32, &list)
}

fn good(random: &mut Random, rows: &[Fields]) -> List {
    List::new(random, rows, &true_marks(rows), &[])
}

fn bad(random: &mut Random, rows: &[Fields]) -> List {
    let marks = other_marks(random, rows);
    List::new(random, rows, &marks, &[])
}

/// One record or two are malformed, before a false mark, behind it or with it.
fn malformed(random: &mut Random, rows: &[Fields]) -> List {
    let marks = other_marks(random, rows);
    let any = random.below(rows.len() + 1);
    let malformed = [random.below(rows.len() + 1), any];
    List::new(random, rows, &marks, &malformed)
}

/// Writes and exports records that the version can carry. It is known whether 23 is given, and where.
pub fn written_and_exported(
    runs: &mut Runs,
    [write, export]: [&'static str; 2],
    version: u32,
    list: &List,
) -> Checked {
    let (random, records) = (&mut runs.random, &*list.records);
    let rows = records.len() / RECORD;
    let start = random.number() % (LAST_START + 1);
    let (first, channel) = (good_first(random, rows), good_channel(random));
    let (number, place) = list.bad.map_or((0, 0), |place| (23, place));
    let written = runs.write(write, version, start, first, records)?;
    expect("a list with marks", number, place, &written).map_err(|difference| Difference {
        input: shown(records),
        ..difference
    })?;
    if number == 0 {
        runs.export(export, start, channel, records, true)?;
        return Ok(());
    }
    let known = ([number, place, 0, 0, 0], Vec::new());
    for room in [0, rows * MOST_LINE] {
        runs.export_into(export, start, channel, records, room, &known)?;
    }
    Ok(())
}

/// A single record with any mark, and with any bits at its end.
fn single(runs: &mut Runs) -> Checked {
    let random = &mut runs.random;
    let version = random.pick(&[11, 12]);
    let row = record(random, version);
    let (any, bit, small) = (random.number(), random.below(64), random.below(20) as u64);
    let mark = random.pick(&[0, 1, 0, 1, 2, small, 1 << bit, any]);
    let end = random.below(64) as u8;
    pack_with(runs, "pack: any mark", &row, mark)?;
    unpack_with(runs, "unpack: any end", &row, end)
}

/// Packs a row with a mark. It is refused if that is above 1.
pub fn pack_with(runs: &mut Runs, kind: &'static str, row: &Fields, mark: u64) -> Checked {
    let fields = marked(row, mark);
    let answer = runs.pack(kind, &fields)?;
    if (answer == [23, 1]) == (mark > 1) {
        return Ok(());
    }
    Err(Difference {
        what: format!("library and expert agree, but: {answer:?} with mark {mark}"),
        input: format!("{fields:?}"),
    })
}

/// Unpacks the record of a row with these six bits at its end. The first of them is its mark, and the others must be 0.
pub fn unpack_with(runs: &mut Runs, kind: &'static str, row: &Fields, end: u8) -> Checked {
    let mut record = packed(&marked(row, 0));
    record[RECORD - 1] |= end;
    let answer = runs.unpack(kind, &record)?;
    let mark = u64::from(end >> 5);
    let known = match end {
        0b00_0000 | 0b10_0000 => answer[..2] == [0, 0] && answer[2..] == marked(row, mark),
        _ => answer == [23, 1, 0, 0, 0, 0, 0, 0, 0, 0],
    };
    if known {
        return Ok(());
    }
    Err(Difference {
        what: format!("library and expert agree, but: {answer:?} with {end:06b} at the end"),
        input: shown(&record),
    })
}
