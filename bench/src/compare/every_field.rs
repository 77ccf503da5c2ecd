//! Every field of one and of two bytes in every place of a row, every ID of four digits, and every number of a first row.

use super::runs::Runs;
use super::Checked;
use crate::inputs::LAST_NUMBER;

/// Rows of each kind in version 1.2.
const ROWS: [&str; 4] = [
    "7) 0.000 1 Rx 0123 2 00 11",
    "7) 0.000 1 Tx 07ff 3 RTR",
    "7) 0.000 1 Error 0008 4 01 1C 00 FF",
    "7) 0.000 1 Warng FFFFFFFF 4 00 00 00 08 AB",
];
const NUMBER: usize = 0;
const ID: usize = 4;

pub fn every_field(runs: &mut Runs) -> Checked {
    first_numbers(runs)?;
    for row in ROWS {
        let fields: Vec<&[u8]> = row.split(' ').map(str::as_bytes).collect();
        for at in 0..=fields.len() {
            let after = fields.get(at + 1..).unwrap_or_default();
            let mut place = Place {
                before: &fields[..at],
                after,
                expected: 7,
            };
            place.short_fields(runs)?;
            if at == ID {
                place.ids(runs)?;
            }
            if at == NUMBER {
                place.expected = 0;
                place.short_fields(runs)?;
            }
        }
    }
    Ok(())
}

/// Every number as that of a first row, and those past the last.
fn first_numbers(runs: &mut Runs) -> Checked {
    for number in 0..=LAST_NUMBER + 2 {
        let line = format!("{number}) 0.0 Rx 0123 0");
        let known = match number {
            1..=LAST_NUMBER => [30, 0, 0, 0],
            _ => [0, 0, 1, 1],
        };
        let kind = "explain: every first number";
        runs.explain(kind, line.as_bytes(), 11, 0, Some(known))?;
    }
    Ok(())
}

/// The fields before and after one that is tried, and the number that is expected.
struct Place<'a> {
    before: &'a [&'a [u8]],
    after: &'a [&'a [u8]],
    expected: u64,
}

impl Place<'_> {
    fn short_fields(&self, runs: &mut Runs) -> Checked {
        for first in 0..=u8::MAX {
            self.explain(runs, "explain: every field of one byte", &[first])?;
            for second in 0..=u8::MAX {
                self.explain(runs, "explain: every field of two bytes", &[first, second])?;
            }
        }
        Ok(())
    }

    fn ids(&self, runs: &mut Runs) -> Checked {
        for id in 0..=u16::MAX {
            let id = format!("{id:04X}");
            self.explain(runs, "explain: every ID of four digits", id.as_bytes())?;
        }
        Ok(())
    }

    fn explain(&self, runs: &mut Runs, kind: &'static str, field: &[u8]) -> Checked {
        let line = [self.before, &[field], self.after].concat().join(&b' ');
        runs.explain(kind, &line, 12, self.expected, None)?;
        Ok(())
    }
}
