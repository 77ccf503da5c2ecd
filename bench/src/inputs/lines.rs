//! Lines like rows: a row at random, and what comes of it if its fields and bytes are changed, one after the other.

use super::damage::{damage_byte, next_number, ALPHABET, WORDS};
use super::random::Random;
use super::records::{past_offset, record};
use super::style::{offset_text, Style};
use super::LAST_NUMBER;

/// A row of a version with a number, as its fields.
pub struct RowFields {
    pub version: u32,
    pub number: u64,
    /// The number with which it is explained: its own, or 0 for a first row of any number.
    pub expected: u64,
    pub fields: Vec<Vec<u8>>,
}

/// Bytes that no row has, and some that it has elsewhere.
const ODD: &[u8] = b"\t\0\r\n;$.,)-+xGg@[`{/:\x0B\x7F\x80\xA0\xFF";
/// How often each field is damaged.
const TIMES: usize = 8;
const OFFSET: usize = 1;

impl RowFields {
    pub fn new(random: &mut Random) -> Self {
        let version = random.pick(&[11, 12]);
        let any = 1 + random.number() % LAST_NUMBER;
        let small = 1 + random.mostly_small(200) as u64;
        let number = random.pick(&[any, small, small, 1, 9, 10, 99_999, 100_000, LAST_NUMBER]);
        let record = record(random, version);
        let words = Style::new(random).words(random, version, &number.to_string(), &record);
        RowFields {
            version: version as u32,
            number,
            expected: random.pick(&[number, number, 0]),
            fields: words.into_iter().map(String::into_bytes).collect(),
        }
    }

    /// The row, with the blanks in several ways.
    pub fn good(&self, random: &mut Random) -> Vec<Vec<u8>> {
        let mut lines = vec![self.fields.join(&b' ')];
        lines.extend((0..4).map(|_| joined(random, &self.fields)));
        lines
    }

    /// Each field damaged in turn, several times.
    pub fn damaged(&self, random: &mut Random) -> Vec<Vec<u8>> {
        let mut lines = Vec::new();
        for at in 0..self.fields.len() {
            for _ in 0..TIMES {
                let mut fields = self.fields.clone();
                damage_field(random, &mut fields[at]);
                lines.push(joined(random, &fields));
            }
        }
        lines
    }

    /// The row with too large an offset, several times.
    pub fn too_late(&self, random: &mut Random) -> Vec<Vec<u8>> {
        let version = u64::from(self.version);
        let mut line = || {
            let mut fields = self.fields.clone();
            let offset = past_offset(random, version);
            fields[OFFSET] = offset_text(version, offset).into_bytes();
            joined(random, &fields)
        };
        (0..TIMES).map(|_| line()).collect()
    }

    /// Each field lost, doubled, put elsewhere, replaced by another of the row and with another before it, in turn; and some more at the end.
    pub fn rearranged(&self, random: &mut Random) -> Vec<Vec<u8>> {
        let mut lines = Vec::new();
        for at in 0..self.fields.len() {
            let [mut lost, mut doubled, mut moved, mut replaced, mut added] =
                [0; 5].map(|_| self.fields.clone());
            lost.remove(at);
            doubled.insert(at, self.fields[at].clone());
            let field = moved.remove(at);
            moved.insert(random.below(moved.len() + 1), field);
            replaced[at] = self.any_field(random);
            added.insert(at, self.any_field(random));
            for fields in [lost, doubled, moved, replaced, added] {
                lines.push(joined(random, &fields));
            }
        }
        let mut longer = self.fields.clone();
        for _ in 0..4 {
            longer.push(self.any_field(random));
            lines.push(joined(random, &longer));
        }
        lines
    }

    /// The row up to each of its bytes, without the others.
    pub fn cut(&self, random: &mut Random) -> Vec<Vec<u8>> {
        let line = joined(random, &self.fields);
        (0..=line.len()).map(|end| line[..end].to_vec()).collect()
    }

    /// Odd bytes in the row, in place of a byte or beside it, in and between its fields and at its ends.
    pub fn with_odd_bytes(&self, random: &mut Random) -> Vec<Vec<u8>> {
        let mut lines = Vec::new();
        for &byte in ODD {
            let mut line = joined(random, &self.fields);
            let at = random.below(line.len() + 1);
            match random.once_in(2) {
                true if at < line.len() => line[at] = byte,
                _ => line.insert(at, byte),
            }
            lines.push(line);
            let mut line = self.fields.join(&b' ');
            let blanks: Vec<_> = (0..line.len()).filter(|&at| line[at] == b' ').collect();
            line[random.pick(&blanks)] = byte;
            lines.push(line);
        }
        lines
    }

    /// The row behind what makes it a comment.
    pub fn commented(&self, random: &mut Random) -> Vec<Vec<u8>> {
        self.behind(random, &[";", "; ", ";;$", ";.$", "; \t$"])
    }

    /// The row behind what makes it look like a comment.
    pub fn nearly_commented(&self, random: &mut Random) -> Vec<Vec<u8>> {
        self.behind(random, &[";$", ";   $", " ;", "$", "\t;", "\0;"])
    }

    fn behind(&self, random: &mut Random, before: &[&str]) -> Vec<Vec<u8>> {
        let row = joined(random, &self.fields);
        let lines = before
            .iter()
            .map(|before| [before.as_bytes(), &row].concat());
        lines.collect()
    }

    fn any_field(&self, random: &mut Random) -> Vec<u8> {
        let other = random.below(self.fields.len());
        match random.once_in(2) {
            true => self.fields[other].clone(),
            false => random.word(WORDS).into(),
        }
    }
}

fn damage_field(random: &mut Random, field: &mut Vec<u8>) {
    let at = random.below(field.len());
    match random.below(10) {
        0 => *field = random.word(WORDS).into(),
        1 => *field = next_number(field),
        2 if field[at].is_ascii_alphabetic() => field[at] ^= b'a' ^ b'A',
        3 => field.make_ascii_uppercase(),
        4 => field.make_ascii_lowercase(),
        5 => field.insert(0, b'0'),
        _ => damage_byte(random, field, ALPHABET),
    }
}

/// Fields with blanks between them and at the ends.
pub fn joined(random: &mut Random, fields: &[Vec<u8>]) -> Vec<u8> {
    let most = random.pick(&[1, 1, 1, 2, 3, 9, 70]);
    let mut line = vec![b' '; random.below(most)];
    for (before, field) in fields.iter().enumerate() {
        if before > 0 {
            line.extend(vec![b' '; random.between(1, most)]);
        }
        line.extend(field);
    }
    line.extend(vec![b' '; random.below(most)]);
    line
}

/// Bytes of any value, bytes of which rows are made, or words like fields.
pub fn noise(random: &mut Random) -> Vec<u8> {
    let len = random.mostly_small(100);
    match random.below(3) {
        0 => (0..len).map(|_| random.byte()).collect(),
        1 => (0..len).map(|_| random.pick(ALPHABET)).collect(),
        _ => {
            let words = 0..random.below(16);
            let words: Vec<Vec<u8>> = words.map(|_| random.word(WORDS).into()).collect();
            joined(random, &words)
        }
    }
}
