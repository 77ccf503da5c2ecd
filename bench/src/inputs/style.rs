//! How a text is spelled: blanks, letter case, comments and warning words.

use super::random::Random;
use super::records::Fields;

/// The most bytes of a line without its end.
const LONGEST: usize = 250;

pub struct Style {
    /// The most blanks where none are needed.
    blanks: usize,
    /// Small letters never, always or at times.
    case: Case,
    /// A comment once in so many lines.
    comments: usize,
}

#[derive(Clone, Copy)]
enum Case {
    Capital,
    Small,
    Mixed,
}

impl Style {
    pub fn new(random: &mut Random) -> Self {
        Style {
            blanks: random.pick(&[0, 0, 1, 3, 8]),
            case: random.pick(&[Case::Capital, Case::Small, Case::Mixed]),
            comments: random.pick(&[2, 5, 20, 1000]),
        }
    }

    /// Few blanks, so that many rows fit into a text.
    pub fn plain() -> Self {
        Style {
            blanks: 0,
            case: Case::Capital,
            comments: 1000,
        }
    }

    pub fn setting(&self, random: &mut Random, text: &mut Vec<u8>, setting: &str) {
        let (before, after) = (self.blanks(random), self.blanks(random));
        let mut line = format!(";{before}{setting}{after}");
        if random.once_in(40) {
            let ends = [1, line.len()];
            lengthen(&mut line, random.pick(&ends));
        }
        text.extend(line.bytes());
        text.extend(b"\r\n");
    }

    pub fn comments(&self, random: &mut Random, text: &mut Vec<u8>) {
        while random.once_in(self.comments) {
            text.extend(comment(random));
            text.extend(b"\r\n");
        }
    }

    pub fn row(
        &self,
        random: &mut Random,
        text: &mut Vec<u8>,
        version: u64,
        number: &str,
        fields: &Fields,
    ) {
        let words = self.words(random, version, number, fields);
        let mut line = self.blanks(random);
        for word in &words {
            line += word;
            line += " ";
            line += &self.blanks(random);
        }
        if random.once_in(2) {
            line.truncate(line.trim_end().len());
        }
        if line.len() > LONGEST {
            line = words.join(" ");
        }
        if random.once_in(100) {
            let blanks = line.match_indices(' ').map(|(at, _)| at);
            let places: Vec<_> = blanks.chain([0, line.len()]).collect();
            lengthen(&mut line, random.pick(&places));
        }
        text.extend(line.bytes());
        text.extend(b"\r\n");
    }

    /// The fields of a row, and any warning words.
    pub fn words(
        &self,
        random: &mut Random,
        version: u64,
        number: &str,
        fields: &Fields,
    ) -> Vec<String> {
        let [offset, bus, kind, extended, id, length, data] = *fields;
        let mut words = vec![format!("{number})"), offset_text(version, offset)];
        if version == 12 {
            words.push(bus.to_string());
        }
        words.push(["Rx", "Tx", "Rx", "Tx", "Warng", "Error"][kind as usize].to_string());
        words.push(match (kind, extended) {
            (4, _) => self.cased(random, "FFFFFFFF"),
            (_, 0) => self.cased(random, &format!("{id:04X}")),
            _ => self.cased(random, &format!("{id:08X}")),
        });
        words.push(length.to_string());
        if kind == 2 || kind == 3 {
            words.push("RTR".to_string());
        } else {
            let bytes = &data.to_be_bytes()[..length as usize];
            words.extend(
                bytes
                    .iter()
                    .map(|b| self.cased(random, &format!("{b:02X}"))),
            );
        }
        if kind == 4 {
            words.extend(warning_words(random));
        }
        words
    }

    fn blanks(&self, random: &mut Random) -> String {
        " ".repeat(random.below(self.blanks + 1))
    }

    /// Digits, given as capitals, in the letter case of this style.
    pub fn cased(&self, random: &mut Random, digits: &str) -> String {
        match self.case {
            Case::Capital => digits.to_string(),
            Case::Small => digits.to_ascii_lowercase(),
            Case::Mixed => {
                let small = |digit: char| match random.once_in(2) {
                    true => digit.to_ascii_lowercase(),
                    false => digit,
                };
                digits.chars().map(small).collect()
            }
        }
    }
}

/// An offset as a row of the version has it.
pub fn offset_text(version: u64, offset: u64) -> String {
    let (whole, part) = (offset / 1000, offset % 1000);
    match version {
        11 => format!("{whole}.{}", part / 100),
        _ => format!("{whole}.{part:03}"),
    }
}

/// Blanks at a place of a line, so that it has just the most bytes.
fn lengthen(line: &mut String, at: usize) {
    line.insert_str(at, &" ".repeat(LONGEST - line.len()));
}

fn warning_words(random: &mut Random) -> Vec<String> {
    let any = (0..random.between(1, 20)).map(|_| char::from(b'A' + random.below(26) as u8));
    let any: String = any.collect();
    let known = ["BUSLIGHT", "BUSHEAVY", "AB", "FF", "A", "RTR", "Z"];
    let count = random.pick(&[0, 0, 1, 1, 2, 4]);
    let mut words = Vec::new();
    for _ in 0..count {
        let known = random.pick(&known);
        words.push(random.pick(&[any.as_str(), known]).to_string());
    }
    words
}

/// A comment: any bytes, but no line end, and no `$` first.
fn comment(random: &mut Random) -> Vec<u8> {
    let blanks = random.pick(&[0, 0, 1, 5]);
    let mut line = b";        "[..1 + blanks].to_vec();
    let len = random.pick(&[0, 1, 5, 30, 244, LONGEST - 1 - blanks]);
    let any = random.once_in(3);
    for _ in 0..len {
        line.push(if any {
            random.byte()
        } else {
            random.pick(b"$;a1) .R ")
        });
    }
    line.iter_mut()
        .filter(|b| matches!(b, b'\r' | b'\n'))
        .for_each(|b| *b = 0);
    if let Some(first) = line.iter_mut().skip(1).find(|b| **b != b' ') {
        if *first == b'$' {
            *first = b';';
        }
    }
    line
}
