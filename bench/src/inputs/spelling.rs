//! A trace, and a text that spells it.

use super::numbers::Numbers;
use super::random::Random;
use super::records::{packed_all, past_offset, record, Fields};
use super::style::Style;
use super::{LAST_NUMBER, LAST_OFFSET, LAST_START};

pub struct Spelled {
    pub version: u64,
    pub start: u64,
    pub rows: Vec<Fields>,
    pub text: Vec<u8>,
    /// The number of the first row, or 0 without rows.
    first: u64,
    /// The line of the first row that has not the number which it must have, or has too large an offset, if there is one.
    pub wrong: Option<u64>,
}

impl Spelled {
    /// A trace at random, spelled at random. At times one row has too large an offset.
    pub fn new(random: &mut Random, most_rows: usize) -> Self {
        let version = random.pick(&[11, 12]);
        let count = random.mostly_small(most_rows + 1);
        let mut rows: Vec<Fields> = (0..count).map(|_| record(random, version)).collect();
        if count > 0 && random.once_in(12) {
            rows[random.below(count)][0] = past_offset(random, version);
        }
        let numbers = Numbers::new(random, count);
        let style = Style::new(random);
        Self::of(random, version, rows, &numbers, &style)
    }

    /// These rows after a start at random.
    pub fn of(
        random: &mut Random,
        version: u64,
        rows: Vec<Fields>,
        numbers: &Numbers,
        style: &Style,
    ) -> Self {
        let (digits, start) = start(random);
        let mut text = Vec::new();
        style.setting(
            random,
            &mut text,
            &format!("$FILEVERSION=1.{}", version - 10),
        );
        style.setting(random, &mut text, &format!("$STARTTIME={digits}"));
        let (mut first, mut wrong) = (0, None);
        for (before, fields) in rows.iter().enumerate() {
            style.comments(random, &mut text);
            let word = numbers.word(before);
            let number = word.parse().unwrap_or(0);
            if before == 0 {
                first = number;
            }
            let spelled = (1..=LAST_NUMBER).contains(&number) && word == number.to_string();
            let good = spelled && number == first + before as u64 && fields[0] <= LAST_OFFSET;
            if wrong.is_none() && !good {
                wrong = Some(1 + text.iter().filter(|&&b| b == b'\n').count() as u64);
            }
            style.row(random, &mut text, version, &word, fields);
        }
        style.comments(random, &mut text);
        Spelled {
            version,
            start,
            rows,
            text,
            first,
            wrong,
        }
    }

    /// What a reader must answer.
    pub fn answer(&self) -> [u64; 7] {
        if let Some(line) = self.wrong {
            return [7, line, 0, 0, 0, 0, 0];
        }
        let falls = self.rows.windows(2).position(|two| two[1][0] < two[0][0]);
        let step_back = falls.map_or(0, |before| before as u64 + 2);
        let rows = self.rows.len() as u64;
        let (version, start) = (self.version, self.start);
        [0, 0, version, start, rows, step_back, self.first]
    }

    /// What a reader must write.
    pub fn records(&self) -> Vec<u8> {
        match self.wrong {
            Some(_) => Vec::new(),
            None => packed_all(&self.rows),
        }
    }
}

/// Digits of a start, and the milliseconds they mean.
fn start(random: &mut Random) -> (String, u64) {
    loop {
        let any = random.below(100_000);
        let day = random.pick(&[any, any, any, 0, 1, 99_999]);
        let fraction = fraction(random);
        let digits: u128 = format!("{day}{fraction}").parse().unwrap_or(0);
        let unit = 10_u128.pow(fraction.len() as u32);
        let start = ((digits * 86_400_000 * 2 + unit) / (2 * unit)) as u64;
        if start <= LAST_START {
            return (format!("{day}.{fraction}"), start);
        }
    }
}

fn fraction(random: &mut Random) -> String {
    let any = random.number() % 10_000_000_000;
    // Near the middle between two milliseconds.
    let halves = random.number() % 86_400_000 * 2 + 1;
    let near = (halves * 3125 / 54 + random.below(3) as u64).saturating_sub(1);
    let value = random.pick(&[any, near, near, 0, 9_999_999_999, 1, 5_000_000_000]);
    let mut digits = format!("{:010}", value % 10_000_000_000);
    digits.truncate(random.pick(&[10, 10, 10, 10, 1, 2, 3, 4, 5, 6, 7, 8, 9]));
    digits
}
