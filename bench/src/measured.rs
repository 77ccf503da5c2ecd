//! The traces that are measured.

use crate::expert;
use crate::inputs::marks::first_mark;
use crate::inputs::random::Random;
use crate::inputs::realistic::{in_columns, realistic};
use crate::inputs::records::packed_all;
use bushingowl::{CHANNEL_AS_BENCH, MOST_HEADER, MOST_LINE, MOST_ROW};

/// The most rows of a trace: the last row number.
const MOST_ROWS: usize = 999_999;
const ROWS: [usize; 3] = [10_000, 100_000, MOST_ROWS];
/// 1 November 2023, ten o'clock.
pub const START: u64 = 3_907_994_400_000;
/// The number of the first row.
pub const FIRST: u64 = 1;
/// The channel of bus 0 in an export, which it always was before Order 6.
pub const CHANNEL: u64 = CHANNEL_AS_BENCH;

/// The rows that words ask for, those of `ROWS` without any; or the word that asks for none.
pub fn rows(words: &[String]) -> Result<Vec<usize>, &String> {
    if words.is_empty() {
        return Ok(ROWS.to_vec());
    }
    let rows = words.iter().map(|word| match word.parse() {
        Ok(rows @ 1..=MOST_ROWS) => Ok(rows),
        _ => Err(word),
    });
    rows.collect()
}

/// A trace as a logger records it, in all its forms.
pub struct Measured {
    /// None steps back, and so none has a mark, as an earlier library needs it.
    pub records: Vec<u8>,
    pub text: Vec<u8>,
    /// The text with its columns set in line.
    pub columns: Vec<u8>,
    /// The export, and how many lines it has.
    pub lines: Vec<u8>,
    pub exported: usize,
}

impl Measured {
    pub fn new(rows: usize, version: u32) -> Measured {
        let mut random = Random::new(rows as u64);
        let records = packed_all(&realistic(&mut random, u64::from(version), rows));
        assert_eq!(first_mark(&records), 0, "a record steps back");
        let mut text = vec![0; MOST_HEADER + rows * MOST_ROW];
        let [.., len] = expert::write(version, START, FIRST, &records, &mut text);
        text.truncate(len as usize);
        let mut lines = vec![0; rows * MOST_LINE];
        let [_, _, len, exported, _] = expert::export(START, CHANNEL, &records, &mut lines);
        lines.truncate(len as usize);
        Measured {
            columns: in_columns(&text),
            records,
            text,
            lines,
            exported: exported as usize,
        }
    }
}
