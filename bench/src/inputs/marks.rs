//! The marks of records: those that they must have, rows that often go back, and lists in which some are false.

use super::random::Random;
use super::records::{marked, offset, packed, record, Fields};
use super::{LAST_OFFSET, RECORD};
use std::iter::{once, zip};

/// The bit of the mark in the last byte of a record, and the bits behind it.
const MARK: u8 = 32;
const BEHIND: usize = 31;

/// The mark that each row must have as a record of a list: 1 exactly if its offset is below that of the row before.
pub fn true_marks(rows: &[Fields]) -> Vec<u64> {
    let falls = rows.windows(2).map(|two| two[1][0] < two[0][0]);
    let marks = once(false).chain(falls).map(u64::from);
    marks.take(rows.len()).collect()
}

/// The position, from 1, of the first record with a mark, or 0.
pub fn first_mark(records: &[u8]) -> u64 {
    let (records, _) = records.as_chunks();
    let first = records.iter().position(has_mark);
    first.map_or(0, |before| before as u64 + 1)
}

/// Whether each record of a list has a mark exactly if its offset is below that of the record before.
pub fn marks_are_true(records: &[u8]) -> bool {
    let (records, _) = records.as_chunks::<RECORD>();
    // Offsets come first, and all have six bytes.
    let falls = |two: &[[u8; RECORD]]| two[1][..6] < two[0][..6];
    let first = records.first().is_none_or(|record| !has_mark(record));
    first
        && records
            .windows(2)
            .all(|two| has_mark(&two[1]) == falls(two))
}

fn has_mark(record: &[u8; RECORD]) -> bool {
    record[RECORD - 1] & MARK != 0
}

/// The list with the mark of one record turned, of which the position counts from 0.
pub fn turned(records: &[u8], position: usize) -> Vec<u8> {
    let mut records = records.to_vec();
    records[position * RECORD + RECORD - 1] ^= MARK;
    records
}

/// Rows that the version can carry. Their offsets often go back, or stay.
pub fn wavering(random: &mut Random, version: u64, count: usize) -> Vec<Fields> {
    let few = [0; 4].map(|_| offset(random, version));
    let unit = if version == 11 { 100 } else { 1 };
    let mut before = few[0];
    let mut row = || {
        let mut row = record(random, version);
        let far = unit << random.below(40);
        let step = random.pick(&[unit, unit, far]);
        let (below, above) = (before.saturating_sub(step), before + step);
        let other = random.pick(&few);
        let next = random.pick(&[other, other, before, below, below, above, row[0]]);
        before = next.min(LAST_OFFSET);
        before -= before % unit;
        row[0] = before;
        row
    };
    (0..count).map(|_| row()).collect()
}

/// Packed records, and the position, from 1, of the first one that is malformed or has a false mark, if there is one.
pub struct List {
    pub records: Vec<u8>,
    pub bad: Option<u64>,
}

impl List {
    /// These rows with these marks, and those at some positions, which count from 0, malformed.
    pub fn new(random: &mut Random, rows: &[Fields], marks: &[u64], malformed: &[usize]) -> Self {
        let mut list = List {
            records: Vec::with_capacity(rows.len() * RECORD),
            bad: None,
        };
        let marks = zip(marks, true_marks(rows));
        for (position, (row, (&mark, must))) in zip(rows, marks).enumerate() {
            let spoil = malformed.contains(&position);
            if (spoil || mark != must) && list.bad.is_none() {
                list.bad = Some(position as u64 + 1);
            }
            list.records.extend(match spoil {
                true => spoiled(random, *row, mark),
                false => packed(&marked(row, mark)),
            });
        }
        list
    }
}

/// A record that is malformed whatever its mark is. Its offset stays.
fn spoiled(random: &mut Random, mut row: Fields, mark: u64) -> [u8; RECORD] {
    let [_, bus, kind, extended, id, length, data] = &mut row;
    let mut behind = 0;
    match random.below(6) {
        0 => *bus = random.between(17, 31) as u64,
        1 => *kind = random.pick(&[6, 7]),
        2 => *length = random.between(9, 15) as u64,
        3 => (*extended, *id) = (0, random.between(0x800, 0x1FFF_FFFF) as u64),
        4 => (*kind, *data) = (random.pick(&[2, 3]), 1 << random.below(64)),
        _ => behind = random.between(1, BEHIND) as u8,
    }
    let mut record = packed(&marked(&row, mark));
    record[RECORD - 1] |= behind;
    record
}

/// Marks of which mostly some are false: a few turned, all alike, any, or those of another rule.
pub fn other_marks(random: &mut Random, rows: &[Fields]) -> Vec<u64> {
    let count = rows.len();
    let by = |rule: &dyn Fn(usize) -> bool| (0..count).map(|at| u64::from(rule(at))).collect();
    match random.below(10) {
        // As records were before Order 7.
        0 => by(&|_| false),
        1 => by(&|_| true),
        // By the first record, by the one behind, and also where the offset stays.
        2 => by(&|at| rows[at][0] < rows[0][0]),
        3 => by(&|at| at + 1 < count && rows[at + 1][0] < rows[at][0]),
        4 => by(&|at| at > 0 && rows[at][0] <= rows[at - 1][0]),
        5 => (0..count).map(|_| random.below(2) as u64).collect(),
        _ => {
            let mut marks = true_marks(rows);
            for _ in 0..random.pick(&[1, 1, 1, 2, 5]).min(5 * count) {
                marks[random.below(count)] ^= 1;
            }
            marks
        }
    }
}
