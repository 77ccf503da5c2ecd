//! Lines of Telemotive ASCII at random, and what a reader must make of them.

use super::channels::{channel_of, good_channel};
use super::random::Random;
use super::records::{frame, packed_all, Fields};
use super::style::Style;
use super::LAST_OFFSET;

/// Stamps and days count from 30 December 1899, stamps in steps of 100 microseconds. Those before are below 0.
pub const DAY: i64 = 864_000_000;
/// The last stamp that a line may have: that of day 99,999.
pub const LAST_STAMP: i64 = 100_000 * DAY - 1;
/// The most steps from the start.
pub const LAST_STEPS: i64 = (LAST_OFFSET / 100) as i64;
/// The most bytes of a line without its end.
pub const LONGEST: usize = 250;
/// The fewest bytes of a line with its end.
pub const LEAST: usize = "30.12.1899 00:00:00.0000 CAN #1 | Rx 123 0\n".len();
/// Days on either side of a limit: of the calendar's, of those that a line may have, and of leap years.
const DAYS: [i64; 22] = [
    -1, 0, 1, 2, 59, 60, 61, 62, 366, 367, 1518, 1519, 36_524, 36_525, 36_584, 36_585, 36_586,
    73_109, 73_110, 99_998, 99_999, 100_000,
];

/// A data frame and when it was.
#[derive(Clone)]
pub struct Line {
    pub stamp: i64,
    /// Without an offset.
    pub fields: Fields,
}

impl Line {
    /// Any frame on any channel, which is its bus.
    pub fn new(random: &mut Random, stamp: i64) -> Self {
        let kind = random.pick(&[0, 1]);
        let [kind, extended, id, length, data] = frame(random, kind);
        let bus = good_channel(random);
        Line {
            stamp,
            fields: [0, bus, kind, extended, id, length, data],
        }
    }

    /// The line of a record in an export, if it has one. The channel is that of bus 0.
    pub fn of_record(start: u64, channel: u64, record: &Fields) -> Option<Self> {
        let [offset, bus, kind, rest @ ..] = *record;
        let [extended, id, length, data] = rest;
        (kind < 2).then_some(Line {
            stamp: (start * 10 + offset / 100) as i64,
            fields: [
                0,
                channel_of(bus, channel),
                kind,
                extended,
                id,
                length,
                data,
            ],
        })
    }

    /// The parts of the line, with the letter case of a style.
    pub fn parts(&self, random: &mut Random, style: &Style) -> Vec<String> {
        self.parts_with(|digits| style.cased(random, &digits))
    }

    /// The line as an export has it, with its end.
    pub fn exported(&self) -> String {
        let parts = self.parts_with(|digits| digits.to_ascii_lowercase());
        parts.join(" ") + "\r\n"
    }

    /// The parts of the line, with hexadecimal digits, which are capitals first, in some letter case.
    fn parts_with(&self, mut cased: impl FnMut(String) -> String) -> Vec<String> {
        let [_, bus, kind, extended, id, length, data] = self.fields;
        let mut parts = vec![date_text(self.stamp), time_text(self.stamp)];
        parts.push(["CAN", "CANExt"][extended as usize].to_string());
        parts.extend([format!("#{bus}"), "|".to_string()]);
        if extended == 1 {
            parts.push("EXTENDED".to_string());
        }
        parts.push(["Rx", "Tx"][kind as usize].to_string());
        parts.push(match extended {
            0 => cased(format!("{id:03X}")),
            _ => cased(format!("{id:08X}")),
        });
        parts.push(length.to_string());
        let bytes = data.to_be_bytes().into_iter().take(length as usize);
        parts.extend(bytes.map(|byte| cased(format!("{byte:02X}"))));
        parts
    }
}

/// `dd.mm.yyyy`. The years begin in March, so that the leap day is their last.
pub fn date_text(stamp: i64) -> String {
    let days = stamp.div_euclid(DAY) - 25_569 + 719_468;
    let (era, day) = (days.div_euclid(146_097), days.rem_euclid(146_097));
    let year = (day - day / 1_460 + day / 36_524 - day / 146_096) / 365;
    let day = day - (365 * year + year / 4 - year / 100);
    let month = (5 * day + 2) / 153;
    let day = day - (153 * month + 2) / 5 + 1;
    let (month, next) = match month {
        0..=9 => (month + 3, 0),
        _ => (month - 9, 1),
    };
    format!("{day:02}.{month:02}.{:04}", era * 400 + year + next)
}

/// `hh:mm:ss.xxxx`.
pub fn time_text(stamp: i64) -> String {
    let steps = stamp.rem_euclid(DAY);
    let (seconds, part) = (steps / 10_000, steps % 10_000);
    let (minutes, second) = (seconds / 60, seconds % 60);
    format!(
        "{:02}:{:02}:{second:02}.{part:04}",
        minutes / 60,
        minutes % 60
    )
}

/// Lines, with those that are none among them, and the text.
#[derive(Default)]
pub struct AsciiText {
    pub text: Vec<u8>,
    lines: Vec<Option<Line>>,
}

impl AsciiText {
    /// Adds a line as it stands with its end; nothing says that it is none.
    pub fn push(&mut self, bytes: &[u8], line: Option<Line>) {
        self.text.extend(bytes);
        self.lines.push(line);
    }

    /// What a reader must answer, and the records that it must write.
    pub fn known(&self) -> ([u64; 4], Vec<u8>) {
        let mut start = None;
        let mut rows = Vec::new();
        for (place, line) in (1..).zip(&self.lines) {
            let line = line.as_ref();
            let Some(line) = line.filter(|line| (0..=LAST_STAMP).contains(&line.stamp)) else {
                return ([31, place, 0, 0], Vec::new());
            };
            let start = *start.get_or_insert(line.stamp / 10);
            match line.stamp - start * 10 {
                ..0 => return ([32, place, 0, 0], Vec::new()),
                steps @ 0..=LAST_STEPS => {
                    let mut row = line.fields;
                    row[0] = steps as u64 * 100;
                    rows.push(row);
                }
                _ => return ([33, place, 0, 0], Vec::new()),
            }
        }
        let start = start.unwrap_or(0) as u64;
        ([0, 0, start, rows.len() as u64], packed_all(&rows))
    }
}

/// How lines are spelled: blanks, letter case and ends.
pub struct AsciiStyle {
    pub style: Style,
    /// The most blanks between two parts.
    blanks: usize,
    ends: &'static [&'static str],
}

impl AsciiStyle {
    pub fn new(random: &mut Random) -> Self {
        AsciiStyle {
            style: Style::new(random),
            blanks: random.pick(&[1, 1, 2, 3, 9, 30]),
            ends: random.pick(&[&["\r\n"] as &[_], &["\n"], &["\r\n", "\n"]]),
        }
    }

    /// One blank between two parts.
    pub fn plain() -> Self {
        AsciiStyle {
            style: Style::plain(),
            blanks: 1,
            ends: &["\r\n", "\n"],
        }
    }

    pub fn end(&self, random: &mut Random) -> &'static str {
        random.pick(self.ends)
    }

    /// A line without its end.
    pub fn line(&self, random: &mut Random, line: &Line) -> String {
        let parts = line.parts(random, &self.style);
        let spelled = self.joined(random, &parts);
        match random.once_in(50) {
            true => widened(random, &spelled, LONGEST),
            false => spelled,
        }
    }

    /// Parts with blanks between them, not too many for a line.
    pub fn joined(&self, random: &mut Random, parts: &[String]) -> String {
        let mut line = String::new();
        for (before, part) in parts.iter().enumerate() {
            if before > 0 {
                line += &" ".repeat(random.between(1, self.blanks));
            }
            line += part;
        }
        match line.len() {
            0..=LONGEST => line,
            _ => parts.join(" "),
        }
    }
}

/// A line with so many bytes, by more blanks in one gap.
pub fn widened(random: &mut Random, line: &str, aim: usize) -> String {
    let gaps: Vec<usize> = line.match_indices(' ').map(|(at, _)| at).collect();
    let mut wide = line.to_string();
    let blanks = " ".repeat(aim.saturating_sub(line.len()));
    if !gaps.is_empty() {
        wide.insert_str(random.pick(&gaps), &blanks);
    }
    wide
}

/// A stamp of a first line; a few lie before the first or behind the last there may be.
pub fn first_stamp(random: &mut Random) -> i64 {
    let any = (random.number() % (LAST_STAMP as u64 + 1)) as i64;
    let day = random.pick(&DAYS) * DAY;
    let in_day = day + any % DAY;
    let edge = day + random.pick(&[0, 1, 9, 10, DAY - 10, DAY - 9, DAY - 1]);
    random.pick(&[
        any,
        any,
        any,
        any,
        in_day,
        edge,
        any - any % DAY,
        0,
        9,
        LAST_STAMP,
    ])
}

/// The least and the greatest stamp that may follow a first one in a good text.
fn limits(first: i64) -> (i64, i64) {
    let start = first - first.rem_euclid(10);
    (start, (start + LAST_STEPS).min(LAST_STAMP).max(start))
}

/// Any of the stamps that may follow a first one in a good text. It need not rise.
pub fn good_stamp(random: &mut Random, first: i64, before: i64) -> i64 {
    let (start, most) = limits(first);
    let any = random.number() as i64 & i64::MAX;
    let stamp = match random.below(24) {
        0 => start,
        1 => start + any % 10,
        2 => most,
        3 => start + any % (most - start + 1),
        4 => before + any % DAY,
        5 => before - any % 20_000,
        6 => before - before.rem_euclid(DAY) + DAY - 1 + any % 3,
        7 => before,
        _ => before + any % 20_000,
    };
    stamp.clamp(start, most)
}

/// A stamp behind a first one in a good text, often below the one before it, or the same.
pub fn wavering_stamp(random: &mut Random, first: i64, before: i64) -> i64 {
    let (start, most) = limits(first);
    let far = 1 << random.below(42);
    let step = random.pick(&[1, 1, far]);
    let near = [before, before - step, before - step, before + step];
    let stamp = match random.once_in(3) {
        true => random.pick(&[start, first, most]),
        false => random.pick(&near),
    };
    stamp.clamp(start, most)
}

/// Any stamp behind a first one, often one that is refused.
pub fn any_stamp(random: &mut Random, first: i64, before: i64) -> i64 {
    let start = first - first.rem_euclid(10);
    match random.below(12) {
        0 => start - 1,
        1 => start - 1 - random.below(20_000) as i64,
        2 => start + LAST_STEPS + 1,
        3 => start + LAST_STEPS + 1 + random.below(20_000) as i64,
        4 => first_stamp(random),
        5 => LAST_STAMP + 1 - random.below(3) as i64,
        6 => 1 - random.below(3) as i64,
        7 => start + LAST_STEPS,
        _ => good_stamp(random, first, before),
    }
}
