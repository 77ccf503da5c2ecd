//! The numbers of a trace's rows at random.

use super::random::Random;
use super::LAST_NUMBER;

/// Words that are no row number, or one at a limit.
const WORDS: &str =
    "0|00|01|1|2|10|4117|999998|999999|0999999|1000000|1000001|9999999|4294967297||-1|+1|1.|A|1 ";

/// The number of the first row, after which each next one has one more, but for one row, if it is odd.
pub struct Numbers {
    first: u64,
    /// Its position from 0, and what stands there for its number.
    odd: Option<(usize, String)>,
}

impl Numbers {
    /// Those from the first number on, and no odd one.
    pub fn from_first(first: u64) -> Self {
        Numbers { first, odd: None }
    }

    /// The numbers of so many rows: mostly good ones, at times with an odd one or with the last past the last number.
    pub fn new(random: &mut Random, rows: usize) -> Self {
        match random.below(12) {
            0 if rows > 0 => {
                let past = LAST_NUMBER + 2 - rows as u64 + random.below(rows) as u64;
                Numbers::from_first(past)
            }
            1 if rows > 0 => {
                let first = good_first(random, rows);
                let at = random.below(rows);
                Numbers {
                    first,
                    odd: Some((at, odd(random, first, at))),
                }
            }
            _ => Numbers::from_first(good_first(random, rows)),
        }
    }

    /// What stands for the number of the row at a position from 0.
    pub fn word(&self, position: usize) -> String {
        match &self.odd {
            Some((at, word)) if *at == position => word.clone(),
            _ => (self.first + position as u64).to_string(),
        }
    }
}

/// A first number that so many rows can have: 0 for none, and often the least or the greatest.
pub fn good_first(random: &mut Random, rows: usize) -> u64 {
    if rows == 0 {
        return 0;
    }
    let greatest = LAST_NUMBER + 1 - rows as u64;
    let any = 1 + random.number() % greatest;
    // One digit more at some row.
    let power = 10_u64.pow(random.between(1, 5) as u32);
    let near = power.saturating_sub(random.below(rows + 2) as u64);
    let first = random.pick(&[
        1,
        1,
        1,
        2,
        4117,
        any,
        any,
        near,
        greatest,
        greatest.saturating_sub(1),
    ]);
    first.clamp(1, greatest)
}

/// Any first number for so many rows, often one that they can't have.
pub fn any_first(random: &mut Random, rows: usize) -> u64 {
    let greatest = LAST_NUMBER + 1 - rows as u64;
    let wraps = 0_u64.wrapping_sub(random.below(rows + 2) as u64);
    let far = [1_000_000, 1 << 32 | 1, 1 << 63, u64::MAX];
    let other = [
        0,
        0,
        1,
        2,
        greatest,
        greatest + 1,
        LAST_NUMBER,
        random.pick(&far),
        wraps,
        random.number(),
    ];
    match random.once_in(3) {
        true => random.pick(&other),
        false => good_first(random, rows),
    }
}

/// What may stand in place of the number of the row at a position.
fn odd(random: &mut Random, first: u64, at: usize) -> String {
    let right = first + at as u64;
    match random.below(8) {
        0 => (right + 1).to_string(),
        1 => (right - 1).to_string(),
        2 => first.to_string(),
        3 => format!("0{right}"),
        4 => (at + 1).to_string(),
        5 => (right + 1 + random.below(20) as u64).to_string(),
        _ => random.word(WORDS).to_string(),
    }
}
