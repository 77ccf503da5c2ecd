//! Every list of four records, by how their offsets stand to each other, with every mark; every end of a record, and every mark of fields.

use super::ascii::text_of;
use super::limits::{expect, spelled};
use super::marks::{pack_with, unpack_with, written_and_exported};
use super::runs::Runs;
use super::Checked;
use crate::inputs::ascii::Line;
use crate::inputs::marks::{turned, List};
use crate::inputs::records::{packed_all, record, Fields};
use crate::inputs::{LAST_CHANNEL, LAST_NUMBER, LAST_OFFSET, LAST_START, RECORD};
use std::array::from_fn;
use std::collections::BTreeSet;

const KINDS: [&str; 2] = ["write: every mark", "export: every mark"];
/// The records of a list, and how many there are of which each has one of as many offsets, and of their marks.
const LENGTH: usize = 4;
const LISTS: usize = LENGTH.pow(LENGTH as u32);
const MARKS: usize = 1 << LENGTH;
/// Records of each version that are given with every end and every mark.
const RECORDS: usize = 64;
/// Tenths of a millisecond, as both versions can carry them.
const TENTH: u64 = 100;

type Rows = [Fields; LENGTH];

pub fn every_mark(runs: &mut Runs) -> Checked {
    for version in [11, 12] {
        for (scale, offsets) in scales().into_iter().enumerate() {
            for list in 0..LISTS {
                let rows = rows(runs, version, offsets, list);
                texts(runs, version, &rows)?;
                // Malformed records as well, where the offsets are the first ones.
                let malformed = if scale == 0 { LENGTH } else { 0 };
                lists(runs, version, &rows, malformed)?;
            }
        }
        in_turn(runs, version)?;
        for _ in 0..RECORDS {
            let row = record(&mut runs.random, version);
            ends(runs, version, row)?;
            for mark in some_marks() {
                pack_with(runs, "pack: every mark", &row, mark)?;
            }
        }
    }
    Ok(())
}

/// Four offsets that rise: around 0, each byte that carries, the highest bit and the limit, and far from each other.
fn scales() -> Vec<[u64; LENGTH]> {
    let last = LAST_OFFSET - LAST_OFFSET % TENTH;
    let near = |power: u64| {
        let first = power.saturating_sub(3 * TENTH / 2) / TENTH;
        from_fn(|tenths| (first + tenths as u64) * TENTH)
    };
    let powers = [8, 16, 24, 32, 40, 47].map(|power| near(1 << power));
    let mut scales = vec![near(0)];
    scales.extend(powers);
    scales.push(from_fn(|tenths| last - (3 - tenths as u64) * TENTH));
    scales.push([0, near(1 << 16)[3], near(1 << 32)[1], last]);
    scales
}

/// Rows of which each has one of the offsets, by the digits of the list's number.
fn rows(runs: &mut Runs, version: u64, offsets: [u64; LENGTH], list: usize) -> Rows {
    from_fn(|position| {
        let mut row = record(&mut runs.random, version);
        row[0] = offsets[list / LENGTH.pow(position as u32) % LENGTH];
        row
    })
}

/// The rows as a trace and as lines of ASCII, from which they get their marks.
fn texts(runs: &mut Runs, version: u64, rows: &Rows) -> Checked {
    let trace = spelled(runs, version, rows.to_vec(), 1);
    let known = (trace.answer(), &*trace.records());
    runs.read("read: every mark", &trace.text, Some(known))?;
    let random = &mut runs.random;
    let start = random.number() % (LAST_START - LAST_OFFSET / 1000);
    let mut lines: Vec<Line> = rows
        .iter()
        .map(|row| Line::new(random, (start * 10 + row[0] / TENTH) as i64))
        .collect();
    if rows.iter().any(|row| row[0] >= 1000) {
        // Not in the first millisecond, at which the start is cut: a line there stands first.
        lines.insert(0, Line::new(random, start as i64 * 10));
    }
    let text = text_of(random, lines);
    runs.read_ascii("ascii: every mark", &text.text, Some(&text.known()))?;
    Ok(())
}

/// The rows with every mark, and so with each of the first ones malformed.
fn lists(runs: &mut Runs, version: u64, rows: &Rows, malformed: usize) -> Checked {
    for marks in 0..MARKS {
        let marks: [u64; LENGTH] = from_fn(|position| (marks >> position & 1) as u64);
        let list = List::new(&mut runs.random, rows, &marks, &[]);
        written_and_exported(runs, KINDS, version as u32, &list)?;
        for position in 0..malformed {
            let list = List::new(&mut runs.random, rows, &marks, &[position]);
            written_and_exported(runs, KINDS, version as u32, &list)?;
        }
    }
    Ok(())
}

/// A false mark with each other refusal: 20, 21, 22, 26 and 35 come before it, 24 and 25 behind it.
fn in_turn(runs: &mut Runs, version: u64) -> Checked {
    let rows = rows(runs, version, [300, 200, 100, 0], 0b11_10_01_00);
    for position in 0..LENGTH {
        for more in [0, 1] {
            let mut list = turned(&packed_all(&rows), position);
            list.extend(vec![0; more]);
            for start in [0, LAST_START, LAST_START + 1, u64::MAX] {
                let known = match (more, start) {
                    (1, _) => (20, 0),
                    (_, 0..=LAST_START) => (23, position as u64 + 1),
                    _ => (22, 0),
                };
                written(runs, version as u32, start, &list, known)?;
                exported(runs, start, &list, known)?;
            }
        }
    }
    Ok(())
}

/// The list written by both versions and by none, with first numbers that it can have and some that it can't.
fn written(
    runs: &mut Runs,
    version: u32,
    start: u64,
    list: &[u8],
    (number, place): (u64, u64),
) -> Checked {
    for version in [version, 23 - version, 0, 13] {
        for first in [1, 0, LAST_NUMBER, u64::MAX] {
            let (number, place) = match number {
                22 | 23 if !(11..=12).contains(&version) => (21, 0),
                23 if first != 1 => (26, 0),
                _ => (number, place),
            };
            let written = runs.write(KINDS[0], version, start, first, list)?;
            expect("a false mark written", number, place, &written)?;
        }
    }
    Ok(())
}

fn exported(runs: &mut Runs, start: u64, list: &[u8], (number, place): (u64, u64)) -> Checked {
    for channel in [0, LAST_CHANNEL, LAST_CHANNEL + 1, u64::MAX] {
        let (number, place) = match number {
            23 if channel > LAST_CHANNEL => (35, 0),
            _ => (number, place),
        };
        let (exported, _) = runs.export(KINDS[1], start, channel, list, false)?;
        expect("a false mark exported", number, place, &exported)?;
    }
    Ok(())
}

/// The record with every six bits at its end: alone, as a list of one, and behind a record with a greater offset and one with the same.
fn ends(runs: &mut Runs, version: u64, mut row: Fields) -> Checked {
    let tenth = if version == 11 { TENTH } else { 1 };
    row[0] = row[0].min(LAST_OFFSET - tenth) / tenth * tenth;
    let mut later = row;
    later[0] += tenth;
    for end in 0..64 {
        unpack_with(runs, "unpack: every end", &row, end)?;
        for (before, good) in [(&[][..], 0), (&[row], 0), (&[later], 32)] {
            let mut records = packed_all(&[before, &[row]].concat());
            let last = records.len() - 1;
            records[last] = records[last] & !63 | end;
            let bad = (end != good).then_some((records.len() / RECORD) as u64);
            written_and_exported(runs, KINDS, version as u32, &List { records, bad })?;
        }
    }
    Ok(())
}

/// Those up to some more than there are, and some around each power of two, of which the lower bits are often a mark.
fn some_marks() -> BTreeSet<u64> {
    let powers = (0..64).map(|power| 1_u64 << power);
    let around = powers.flat_map(|power| [power - 1, power, power | 1]);
    around.chain(0..=64).chain([u64::MAX]).collect()
}
