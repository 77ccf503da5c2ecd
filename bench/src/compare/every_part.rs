//! Lines of Telemotive ASCII of which one or two parts are lost, doubled, moved, put in or replaced, in every place by every kind of part;
//! and lines of every length.

use super::runs::Runs;
use super::Checked;
use crate::inputs::ascii::{AsciiText, Line, DAY, LONGEST};
use Meaning::*;

/// What a part says where it may stand.
#[derive(Clone, Copy)]
enum Meaning {
    /// The day, and the steps of 100 microseconds in it.
    Date(i64),
    Time(i64),
    /// Whether it is extended.
    Type(u64),
    Channel(u64),
    Bar,
    Extended,
    Direction(u64),
    /// Whether it is extended, and the ID.
    Id(u64, u64),
    Length(u64),
    Byte(u64),
    /// It may stand nowhere.
    Wrong,
}

type Part = (&'static str, Meaning);

/// Good lines of each kind.
const LINES: [&str; 5] = [
    "29.02.2000 12:00:00.0000 CAN #1 | Rx 7ff 0",
    "29.02.2000 12:00:00.0001 CAN #16 | Tx 123 2 a0 FF",
    "29.02.2000 12:00:00.0001 CANExt #0 | EXTENDED Tx 00000123 0",
    "29.02.2000 12:00:00.0000 CANExt #16 | EXTENDED Rx 1FFFFFFF 1 a0",
    "29.02.2000 12:00:00.0001 CANExt #1 | EXTENDED Rx 00000123 8 00 FF a0 FF 00 a0 00 FF",
];
/// Parts of each kind. No two kinds have a spelling in common.
const GOOD: [Part; 27] = [
    ("30.12.1899", Date(0)),
    ("29.02.2000", Date(36_585)),
    ("13.10.2173", Date(99_999)),
    ("12:00:00.0000", Time(DAY / 2)),
    ("12:00:00.0001", Time(DAY / 2 + 1)),
    ("CAN", Type(0)),
    ("CANExt", Type(1)),
    ("#0", Channel(0)),
    ("#1", Channel(1)),
    ("#16", Channel(16)),
    ("|", Bar),
    ("EXTENDED", Extended),
    ("Rx", Direction(0)),
    ("Tx", Direction(1)),
    ("7ff", Id(0, 0x7FF)),
    ("123", Id(0, 0x123)),
    ("1FFFFFFF", Id(1, 0x1FFF_FFFF)),
    ("00000123", Id(1, 0x123)),
    ("0", Length(0)),
    ("1", Length(1)),
    ("2", Length(2)),
    ("3", Length(3)),
    ("7", Length(7)),
    ("8", Length(8)),
    ("00", Byte(0)),
    ("a0", Byte(0xA0)),
    ("FF", Byte(0xFF)),
];
/// Parts that no line has, and those that look like one.
const WRONG: &str = "29.02.1900 29.12.1899 14.10.2173 29.2.2000 24:00:00.0000 12:00:60.0000 12:00:00.000 12:00:00 can Can CANext CANEXT CANEx \
    CANFD #00 #17 #01 # ## 1# 0# || I extended Extended EXT EXTENDEDRx rx RX tx TX R RxTx RTR Error 800 fff 0123 07ff 12g 20000000 0000123 \
    000000123 0x000123 9 -1 +1 g0 0g 000a . ;";

pub fn every_part(runs: &mut Runs) -> Checked {
    let wrong = WRONG.split(' ').map(|word| (word, Wrong));
    let words: Vec<Part> = GOOD.into_iter().chain(wrong).collect();
    for line in LINES {
        let part = |word| *words.iter().find(|part| part.0 == word).unwrap();
        let line: Vec<Part> = line.split(' ').map(part).collect();
        one_part(runs, &line, &words)?;
        two_parts(runs, &line)?;
        gaps(runs, &line)?;
    }
    Ok(())
}

/// Each part lost, doubled, swapped with each other, moved to each other place and replaced by each word, and each word put in everywhere.
fn one_part(runs: &mut Runs, line: &[Part], words: &[Part]) -> Checked {
    let kind = "ascii: every part changed";
    read(runs, kind, line)?;
    for at in 0..=line.len() {
        let (before, after) = line.split_at(at);
        for &word in words {
            read(runs, kind, &[before, &[word], after].concat())?;
        }
        let Some((&part, after)) = after.split_first() else {
            return Ok(());
        };
        read(runs, kind, &[before, after].concat())?;
        read(runs, kind, &[before, &[part, part], after].concat())?;
        for &word in words {
            read(runs, kind, &[before, &[word], after].concat())?;
        }
        for other in 0..line.len() {
            let mut swapped = line.to_vec();
            swapped.swap(at, other);
            read(runs, kind, &swapped)?;
            let mut moved = [before, after].concat();
            moved.insert(other, part);
            read(runs, kind, &moved)?;
        }
    }
    Ok(())
}

/// Each two parts, of which each is lost or replaced by each good one.
fn two_parts(runs: &mut Runs, line: &[Part]) -> Checked {
    let good = GOOD.chunks(1).chain([&[] as &[Part]]);
    for second in 1..line.len() {
        for first in 0..second {
            for one in good.clone() {
                for other in good.clone() {
                    let between = &line[first + 1..second];
                    let parts = [&line[..first], one, between, other, &line[second + 1..]];
                    read(runs, "ascii: every two parts changed", &parts.concat())?;
                }
            }
        }
    }
    Ok(())
}

/// Each gap with any blanks, from none up to some more than the line may have, and either end.
fn gaps(runs: &mut Runs, line: &[Part]) -> Checked {
    for gap in 1..line.len() {
        let [before, after] = [&line[..gap], &line[gap..]].map(|parts| spelled(parts, " "));
        let joined = before.len() + after.len();
        for length in joined..=LONGEST + 10 {
            let blanks = " ".repeat(length - joined);
            let meant = meant(line).filter(|_| length > joined && length <= LONGEST);
            for end in ["\n", "\r\n"] {
                let text = [&before, &blanks, &after, end].concat();
                read_line(runs, "ascii: every gap", &text, meant.clone())?;
            }
        }
    }
    Ok(())
}

fn spelled(parts: &[Part], gap: &str) -> String {
    let words: Vec<&str> = parts.iter().map(|part| part.0).collect();
    words.join(gap)
}

/// Reads these parts as a line.
fn read(runs: &mut Runs, kind: &'static str, parts: &[Part]) -> Checked {
    let gap = runs.random.pick(&[" ", "  "]);
    let line = spelled(parts, gap) + runs.random.pick(&["\n", "\r\n"]);
    read_line(runs, kind, &line, meant(parts))
}

/// Reads a line, alone or behind one at noon.
fn read_line(runs: &mut Runs, kind: &'static str, line: &str, meant: Option<Line>) -> Checked {
    let mut text = AsciiText::default();
    if runs.random.once_in(2) {
        let noon = Line {
            stamp: 36_585 * DAY + DAY / 2,
            fields: [0, 2, 0, 0, 0x7FF, 0, 0],
        };
        let bytes = b"29.02.2000 12:00:00.0000 CAN #2 | Rx 7ff 0\n";
        text.push(bytes, Some(noon));
    }
    text.push(line.as_bytes(), meant);
    runs.read_ascii(kind, &text.text, Some(&text.known()))?;
    Ok(())
}

/// What these parts say, if they are a line.
fn meant(parts: &[Part]) -> Option<Line> {
    let parts: Vec<Meaning> = parts.iter().map(|part| part.1).collect();
    let [Date(day), Time(steps), Type(extended), Channel(bus), Bar, ref rest @ ..] = parts[..]
    else {
        return None;
    };
    let rest = match rest {
        [Extended, rest @ ..] if extended == 1 => rest,
        rest if extended == 0 => rest,
        _ => return None,
    };
    let [Direction(kind), Id(long, id), Length(length), ref bytes @ ..] = *rest else {
        return None;
    };
    if long != extended || bytes.len() as u64 != length {
        return None;
    }
    let mut data = [0; 8];
    for (place, part) in data.iter_mut().zip(bytes) {
        let Byte(byte) = *part else {
            return None;
        };
        *place = byte as u8;
    }
    let data = u64::from_be_bytes(data);
    Some(Line {
        stamp: day * DAY + steps,
        fields: [0, bus, kind, extended, id, length, data],
    })
}
