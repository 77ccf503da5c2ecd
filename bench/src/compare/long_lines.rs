//! Lines with fields and gaps of as many bytes as are read together somewhere, and of some more and fewer.

use super::runs::Runs;
use super::Checked;
use crate::inputs::damage::ALPHABET;
use crate::inputs::random::Random;

const LENGTHS: [usize; 23] = [
    14, 15, 16, 17, 31, 32, 33, 63, 64, 65, 249, 250, 251, 252, 4_094, 4_095, 4_096, 4_097, 4_098,
    8_191, 8_192, 8_193, 65_537,
];
/// Rows from the type on.
const ROWS: [&str; 6] = [
    "Rx 0123 8 00 11 22 33 44 55 66 77",
    "Tx 1FFFFFFF 0",
    "Rx 07ff 3 RTR",
    "Error 0008 4 01 1C 00 FF",
    WARNING,
    "Warng ffffffff 4 00 00 00 08 BUSLIGHT AB",
];
const WARNING: &str = "Warng FFFFFFFF 4 00 00 00 08";
/// What long fields are made of.
const ENDS: [(&str, u8, &str); 11] = [
    ("", b'A', ""),
    ("", b'F', ""),
    ("", b'0', ""),
    ("", b'9', ""),
    ("", b'0', "7)"),
    ("", b'9', ")"),
    ("7)", b')', ""),
    ("", b'0', ".000"),
    ("0.", b'0', ""),
    ("Rx", b'x', ""),
    ("RTR", b'R', "T"),
];
/// Bytes that stand in no word.
const IN_NO_WORD: &[u8] = b"az09@[.)\t\0\x80\xFF;";
/// The longest lines of many words.
const RANDOM_LINES: usize = 2_000;
/// The number of every row here, with which it is explained, or 0 for a first row of any number.
const NUMBERS: [u64; 2] = [7, 0];
const ROW: [u64; 4] = [30, 0, 0, 0];

pub fn long_lines(runs: &mut Runs) -> Checked {
    for version in [11, 12] {
        for row in ROWS {
            let row = format!("{} {row}", begin(version));
            let fields: Vec<Vec<u8>> = row.split(' ').map(Vec::from).collect();
            for len in LENGTHS {
                long_fields(runs, version, &fields, len)?;
                long_gaps(runs, version, &fields, len)?;
            }
        }
        for _ in 0..RANDOM_LINES {
            words(runs, version)?;
        }
    }
    Ok(())
}

/// The fields before the type.
fn begin(version: u32) -> &'static str {
    match version {
        11 => "7) 0.0",
        _ => "7) 0.000 1",
    }
}

/// A field of so many bytes in each place of a row, in the last with nothing behind it.
fn long_fields(runs: &mut Runs, version: u32, fields: &[Vec<u8>], len: usize) -> Checked {
    let kind = "explain: long field";
    // The first column of a warning that may have a word, if the row is one.
    let type_at = version as usize - 9;
    let words = match fields[type_at].starts_with(b"W") {
        true => type_at + 7,
        false => usize::MAX,
    };
    for at in 0..=fields.len() {
        for field in long(&mut runs.random, len) {
            let is_word = field.iter().all(u8::is_ascii_uppercase);
            let known = match is_word && at >= words {
                true => ROW,
                false => [0, 0, 1, at as u64 + 1],
            };
            let mut fields = fields.to_vec();
            match at < fields.len() {
                true => fields[at] = field,
                false => fields.push(field),
            }
            let line = fields.join(&b' ');
            // It may be a comment now.
            let known = (line[0] != b';').then_some(known);
            let number = runs.random.pick(&NUMBERS);
            runs.explain(kind, &line, version, number, known)?;
        }
    }
    Ok(())
}

/// Fields of so many bytes.
fn long(random: &mut Random, len: usize) -> Vec<Vec<u8>> {
    let mut fields = Vec::new();
    for (first, byte, last) in ENDS {
        let more = vec![byte; len - first.len() - last.len()];
        fields.push([first.as_bytes(), &more, last.as_bytes()].concat());
    }
    let in_fields = |byte: &u8| !b" \r\n".contains(byte);
    let mixed: Vec<u8> = ALPHABET.iter().copied().filter(in_fields).collect();
    fields.push((0..len).map(|_| random.pick(&mixed)).collect());
    let capitals: Vec<u8> = (0..len).map(|_| random.pick(b"ABCDEFXYZ")).collect();
    for at in [0, 1, random.below(len), len - 2, len - 1] {
        let mut one_wrong = capitals.clone();
        one_wrong[at] = random.pick(IN_NO_WORD);
        fields.push(one_wrong);
    }
    fields.push(capitals);
    fields
}

/// So many blanks in each place of a row, and of one that ended early.
fn long_gaps(runs: &mut Runs, version: u32, fields: &[Vec<u8>], len: usize) -> Checked {
    let kind = "explain: long gap";
    let number = runs.random.pick(&NUMBERS);
    let blanks = vec![b' '; len];
    runs.explain(kind, &blanks, version, number, Some([0, 0, 2, 0]))?;
    for at in 0..=fields.len() {
        let (before, after) = fields.split_at(at);
        let (before, after) = (before.join(&b' '), after.join(&b' '));
        let line = [&before, &*blanks, &after].concat();
        runs.explain(kind, &line, version, number, Some(ROW))?;
        let begun = [&before, &*blanks].concat();
        runs.explain(kind, &begun, version, number, None)?;
        let comment = [b";", &*line].concat();
        runs.explain(kind, &comment, version, number, Some(ROW))?;
        let ended = [&*line, b"\n"].concat();
        runs.explain(kind, &ended, version, number, Some(ROW))?;
    }
    let dollar = [b";", &*blanks, b"$"].concat();
    runs.explain(kind, &dollar, version, number, Some([0, 0, 1, 1]))?;
    Ok(())
}

/// A warning with words and gaps of any lengths, and in one half of the lines one wrong byte.
fn words(runs: &mut Runs, version: u32) -> Checked {
    let random = &mut runs.random;
    let mut line = vec![b' '; length(random) - 1];
    line.extend(format!("{} {WARNING}", begin(version)).bytes());
    let count = random.between(1, 6);
    let bad = random.below(2 * count);
    let mut known = ROW;
    for word in 0..count {
        line.extend(vec![b' '; length(random)]);
        let at = line.len();
        line.extend((0..length(random)).map(|_| random.pick(b"ABCMNOXYZ")));
        if word == bad {
            let wrong = random.between(at, line.len() - 1);
            line[wrong] = random.pick(IN_NO_WORD);
            known = [0, 0, 1, (version as u64 - 9) + 7 + word as u64 + 1];
        }
    }
    line.extend(vec![b' '; length(random) - 1]);
    let number = random.pick(&NUMBERS);
    runs.explain("explain: long words", &line, version, number, Some(known))?;
    Ok(())
}

/// Mostly a few bytes, or about as many as are read together.
fn length(random: &mut Random) -> usize {
    let (small, any) = (random.between(1, 20), random.between(1, 9_000));
    let limit = random.pick(&LENGTHS[..22]) + random.below(3);
    random.pick(&[1, small, small, limit, limit, any])
}
