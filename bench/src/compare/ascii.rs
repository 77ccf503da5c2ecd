//! One text of Telemotive ASCII at random, of any kind.

use super::inputs::{of_version, VERSIONS};
use super::runs::Runs;
use super::Checked;
use crate::inputs::ascii::{any_stamp, first_stamp, good_stamp, AsciiStyle, AsciiText, Line};
use crate::inputs::ascii_damage::{damage, letters, words};
use crate::inputs::ascii_spoiled::spoiled;
use crate::inputs::channels::good_channel;
use crate::inputs::random::Random;
use crate::inputs::records::{packed_all, Fields};
use crate::inputs::LAST_START;

pub fn one_text(runs: &mut Runs) -> Checked {
    match runs.random.below(20) {
        0..=3 => exported(runs),
        4..=6 => spelled(runs, "ascii: good lines", good_stamp),
        7 | 8 => spelled(runs, "ascii: lines with any stamps", any_stamp),
        9..=12 => with_spoiled_lines(runs),
        13..=17 => damaged(runs),
        18 => read(runs, "ascii: noise", letters),
        _ => read(runs, "ascii: noise of a line's words", words),
    }
}

fn read(runs: &mut Runs, kind: &'static str, make: fn(&mut Random) -> Vec<u8>) -> Checked {
    let text = make(&mut runs.random);
    runs.read_ascii(kind, &text, None)?;
    Ok(())
}

/// The export of records, as it is and edited.
fn exported(runs: &mut Runs) -> Checked {
    let random = &mut runs.random;
    let versions = random.pick(&VERSIONS);
    let count = how_many(random);
    let mut rows: Vec<Fields> = (0..count).map(|_| of_version(random, versions)).collect();
    match random.below(4) {
        0 => {}
        1 => rows.sort_unstable(),
        // Near enough to each other, and to the first.
        _ => rows.iter_mut().for_each(|row| row[0] %= 100_000_000),
    }
    if random.once_in(2) {
        if let Some(first) = rows.first_mut() {
            first[0] = 0;
        }
    }
    let start = random.number() % (LAST_START + 1);
    let start = random.pick(&[start, start, start, 0, LAST_START, LAST_START - 1000]);
    let (kind, channel) = ("export: to be read back", good_channel(random));
    let (_, text) = runs.export(kind, start, channel, &packed_all(&rows), true)?;
    let lines = rows.iter();
    let lines = lines.filter_map(|row| Line::of_record(start, channel, row));
    let mut lines: Vec<(Vec<u8>, Line)> = text
        .split_inclusive(|&byte| byte == b'\n')
        .map(<[u8]>::to_vec)
        .zip(lines)
        .collect();
    runs.read_ascii("ascii: export", &text, Some(&together(&lines).known()))?;
    edit(&mut runs.random, &mut lines);
    let edited = together(&lines);
    let known = edited.known();
    runs.read_ascii("ascii: edited export", &edited.text, Some(&known))?;
    Ok(())
}

fn together(lines: &[(Vec<u8>, Line)]) -> AsciiText {
    let mut text = AsciiText::default();
    for (bytes, line) in lines {
        text.push(bytes, Some(line.clone()));
    }
    text
}

/// What calibrators do: lines are cut out, put elsewhere and doubled, and bytes are changed.
fn edit(random: &mut Random, lines: &mut Vec<(Vec<u8>, Line)>) {
    for _ in 0..random.between(1, 3) {
        if lines.is_empty() {
            return;
        }
        let (at, other) = (random.below(lines.len()), random.below(lines.len()));
        match random.below(6) {
            0 => drop(lines.remove(at)),
            1 => lines.swap(at, other),
            2 => lines.insert(other, lines[at].clone()),
            3 => drop(lines.drain(at.min(other)..at.max(other))),
            _ => {
                let (bytes, line) = &mut lines[at];
                let length = line.fields[5] as usize;
                if length > 0 {
                    let (place, byte) = (random.below(length), random.byte());
                    let digits = bytes.len() - 2 - 3 * (length - place) + 1;
                    let spelled = format!("{byte:02X}");
                    bytes[digits..digits + 2].copy_from_slice(spelled.as_bytes());
                    let shift = 56 - 8 * place;
                    line.fields[6] &= !(0xFF << shift);
                    line.fields[6] |= u64::from(byte) << shift;
                }
            }
        }
    }
}

/// Some lines, seldom many or none.
pub fn how_many(random: &mut Random) -> usize {
    match random.below(1000) {
        0 => random.mostly_small(3000),
        1..=40 => random.mostly_small(100),
        41..=60 => 0,
        _ => random.between(1, 7),
    }
}

/// Lines in any spelling, each of which has a stamp by those of the first and of the one before.
fn lines(random: &mut Random, next: fn(&mut Random, i64, i64) -> i64) -> Vec<Line> {
    let count = how_many(random);
    let first = first_stamp(random);
    let mut before = first;
    let mut line = |position: usize| {
        if position > 0 {
            before = next(random, first, before);
        }
        Line::new(random, before)
    };
    (0..count).map(&mut line).collect()
}

/// Lines whose stamps are known to be good, or not.
pub fn spelled(
    runs: &mut Runs,
    kind: &'static str,
    next: fn(&mut Random, i64, i64) -> i64,
) -> Checked {
    let text = spelled_text(&mut runs.random, next);
    runs.read_ascii(kind, &text.text, Some(&text.known()))?;
    Ok(())
}

fn spelled_text(random: &mut Random, next: fn(&mut Random, i64, i64) -> i64) -> AsciiText {
    let lines = lines(random, next);
    text_of(random, lines)
}

/// These lines in any spelling.
pub fn text_of(random: &mut Random, lines: Vec<Line>) -> AsciiText {
    let style = AsciiStyle::new(random);
    let mut text = AsciiText::default();
    for line in lines {
        let spelled = style.line(random, &line) + style.end(random);
        text.push(spelled.as_bytes(), Some(line));
    }
    text
}

/// Lines of which one or more are known to be none.
fn with_spoiled_lines(runs: &mut Runs) -> Checked {
    let random = &mut runs.random;
    let style = AsciiStyle::new(random);
    let mut text = AsciiText::default();
    let next = random.pick(&[good_stamp as fn(&mut Random, i64, i64) -> i64, any_stamp]);
    let lines = lines(random, next);
    let (count, at) = (lines.len(), random.below(lines.len().max(1)));
    let many = random.once_in(4);
    for (position, line) in lines.into_iter().enumerate() {
        if position == at || many && random.once_in(3) {
            let last = position + 1 == count;
            text.push(&spoiled(random, &style, &line, last), None);
        } else {
            let spelled = style.line(random, &line) + style.end(random);
            text.push(spelled.as_bytes(), Some(line));
        }
    }
    let known = text.known();
    runs.read_ascii("ascii: with no lines among them", &text.text, Some(&known))?;
    Ok(())
}

fn damaged(runs: &mut Runs) -> Checked {
    let random = &mut runs.random;
    let next = random.pick(&[good_stamp as fn(&mut Random, i64, i64) -> i64, any_stamp]);
    let mut text = spelled_text(random, next).text;
    damage(random, &mut text);
    runs.read_ascii("ascii: damaged lines", &text, None)?;
    Ok(())
}
