//! Every date, time, channel, ID, length and data byte of a line of Telemotive ASCII, and every byte in every place.

use super::runs::Runs;
use super::Checked;
use crate::inputs::ascii::{date_text, AsciiText, Line, DAY};
use crate::inputs::records::Fields;
use crate::inputs::LAST_CHANNEL;
use std::collections::HashMap;

const FIRST: &str = "29.02.2000 12:00:00.0000";
/// The stamp of it.
const NOON: i64 = 36_585 * DAY + DAY / 2;
/// Lines in which every byte stands in every place.
const LINES: [&str; 5] = [
    "29.02.2000 12:00:00.0001 CAN #1 | Rx 7ff 0\r\n",
    "29.02.2000 12:00:00.0001 CANExt #16 | EXTENDED Tx 1FFFFFFF 8 00 11 22 33 44 55 66 77\n",
    "29.02.2000  12:00:00.0001  CAN  #10  |  Tx  0aF  2  aB  00\n",
    "13.10.2173 23:59:59.9999 CANExt #9 | EXTENDED Rx 00000000 1 fF\r\n",
    "30.12.1899 00:00:00.0000 CAN #0 | Tx 000 0\n",
];

pub fn every_ascii(runs: &mut Runs) -> Checked {
    dates(runs)?;
    times(runs)?;
    channels(runs)?;
    ids(runs)?;
    lengths(runs)?;
    data_bytes(runs)?;
    bytes(runs)
}

/// Reads a text of one line, or of a good one and this, and knows whether it is one.
fn one(runs: &mut Runs, kind: &'static str, text: &[u8], line: Option<Line>) -> Checked {
    let mut lines = AsciiText::default();
    if runs.random.once_in(2) {
        let noon = Line {
            stamp: NOON,
            fields: [0, 1, 0, 0, 0x123, 0, 0],
        };
        let bytes = format!("{FIRST} CAN #1 | Rx 123 0\n");
        lines.push(bytes.as_bytes(), Some(noon));
    }
    lines.push(text, line);
    let known = lines.known();
    runs.read_ascii(kind, &lines.text, Some(&known))?;
    Ok(())
}

/// A line at noon with these fields, if it is one.
fn at_noon(good: bool, fields: Fields) -> Option<Line> {
    good.then_some(Line {
        stamp: NOON,
        fields,
    })
}

/// Every date of two, two and four digits with days up to 40, months up to 20 and years that may have some, and a few years more.
fn dates(runs: &mut Runs) -> Checked {
    let days = -1000..=101_000;
    let known: HashMap<String, i64> = days.map(|day| (date_text(day * DAY), day)).collect();
    let years = (1898..=2175).chain([0, 1, 999, 1600, 1600 + 299, 2400, 2999, 9999]);
    for year in years {
        for month in 0..=20 {
            for day in 0..=40 {
                let date = format!("{day:02}.{month:02}.{year:04}");
                let line = known.get(&date).map(|day| Line {
                    stamp: day * DAY,
                    fields: [0, 1, 0, 0, 0x7FF, 0, 0],
                });
                let text = format!("{date} 00:00:00.0000 CAN #1 | Rx 7ff 0\n");
                one(runs, "ascii: every date", text.as_bytes(), line)?;
            }
        }
    }
    Ok(())
}

/// Every hour, minute and second of two digits, and every part of a second.
fn times(runs: &mut Runs) -> Checked {
    let mut time = |[hour, minute, second, part]: [i64; 4]| {
        let good = hour < 24 && minute < 60 && second < 60;
        let steps = ((hour * 60 + minute) * 60 + second) * 10_000 + part;
        let line = good.then_some(Line {
            stamp: 36_586 * DAY + steps,
            fields: [0, 1, 0, 0, 0x7FF, 0, 0],
        });
        let time = format!("{hour:02}:{minute:02}:{second:02}.{part:04}");
        let text = format!("01.03.2000 {time} CAN #1 | Rx 7ff 0\r\n");
        one(runs, "ascii: every time", text.as_bytes(), line)
    };
    for two in 0..100 {
        for three in 0..100 {
            time([two, three, 59, 9999])?;
            time([23, two, three, 0])?;
            time([two, 0, three, 1])?;
            time([12, 34, 56, two * 100 + three])?;
        }
    }
    Ok(())
}

/// Every channel of up to two bytes, and every one of three digits.
fn channels(runs: &mut Runs) -> Checked {
    let mut channel = |channel: &[u8]| {
        let number = std::str::from_utf8(channel).ok();
        let number = number.and_then(|digits| digits.parse::<u64>().ok());
        let good = number.is_some_and(|n| n.to_string().as_bytes() == channel);
        let good = good && number.is_some_and(|n| n <= LAST_CHANNEL);
        let line = at_noon(good, [0, number.unwrap_or(0), 1, 0, 0x7FF, 0, 0]);
        let text = [FIRST.as_bytes(), b" CAN #", channel, b" | Tx 7ff 0\n"].concat();
        // A blank more, or an LF or CR, which gives other lines.
        if channel.iter().any(|byte| b" \r\n".contains(byte)) {
            return runs
                .read_ascii("ascii: every channel", &text, None)
                .map(|_| ());
        }
        one(runs, "ascii: every channel", &text, line)
    };
    channel(b"")?;
    for first in 0..=u8::MAX {
        channel(&[first])?;
        for second in 0..=u8::MAX {
            channel(&[first, second])?;
        }
    }
    for number in 0..1000 {
        channel(format!("{number:03}").as_bytes())?;
    }
    Ok(())
}

/// Every standard ID of three digits and of two, of either letter case, and extended IDs around each power of two, of seven to nine digits.
fn ids(runs: &mut Runs) -> Checked {
    let kind = "ascii: every ID";
    let digits = b"0123456789abcdefABCDEFgG";
    let value = |digit: u8| char::from(digit).to_digit(16).map(u64::from);
    for &first in digits {
        for &second in digits {
            let two = [FIRST.as_bytes(), b" CAN #1 | Rx ", &[first, second]].concat();
            one(runs, kind, &[&two, b" 0\n" as &[u8]].concat(), None)?;
            for &third in digits {
                let id = [first, second, third].map(value);
                let id = id.iter().try_fold(0, |id, digit| Some(id << 4 | (*digit)?));
                let fields = [0, 1, 0, 0, id.unwrap_or(0), 0, 0];
                let line = at_noon(id.is_some_and(|id| id <= 0x7FF), fields);
                one(
                    runs,
                    kind,
                    &[&two, &[third] as &[u8], b" 0\n"].concat(),
                    line,
                )?;
            }
        }
    }
    for power in 0..36 {
        for id in [
            1_u64 << power,
            (1 << power) - 1,
            (1 << power) + 1,
            3 << power,
        ] {
            for width in 7..=9 {
                let spelled = format!("{id:0width$x}");
                let good = spelled.len() == 8 && id <= 0x1FFF_FFFF;
                let line = at_noon(good, [0, 1, 0, 1, id, 0, 0]);
                let text = format!("{FIRST} CANExt #1 | EXTENDED Rx {spelled} 0\n");
                one(runs, kind, text.as_bytes(), line)?;
            }
        }
    }
    Ok(())
}

/// Every byte as the length, each with up to ten data bytes.
fn lengths(runs: &mut Runs) -> Checked {
    let data = u64::from_be_bytes([0x5A; 8]);
    for length in 0..=u8::MAX {
        for bytes in 0..=10 {
            let head = format!("{FIRST} CANExt #16 | EXTENDED Tx 1fFfFfFf ");
            let end = format!("{}\r\n", " 5a".repeat(bytes));
            let text = [head.as_bytes(), &[length], end.as_bytes()].concat();
            let good = length == b'0' + bytes as u8 && bytes <= 8;
            let data = match bytes {
                1..=8 => data >> (64 - 8 * bytes) << (64 - 8 * bytes),
                _ => 0,
            };
            let line = at_noon(good, [0, 16, 1, 1, 0x1FFF_FFFF, bytes as u64, data]);
            match length {
                b'\n' | b'\r' => drop(runs.read_ascii("ascii: every length", &text, None)?),
                _ => one(runs, "ascii: every length", &text, line)?,
            }
        }
    }
    Ok(())
}

/// Every two bytes as a data byte, the first, the last or the only one.
fn data_bytes(runs: &mut Runs) -> Checked {
    let value = |digit: u8| char::from(digit).to_digit(16).map(u64::from);
    for first in 0..=u8::MAX {
        for second in 0..=u8::MAX {
            let byte = value(first).and_then(|high| Some(high << 4 | value(second)?));
            let good = byte.is_some();
            let byte = byte.unwrap_or(0);
            let others = 0x0011_2233_4455_6677;
            for (length, head, tail, data) in [
                (1, "1 ", "", byte << 56),
                (8, "8 ", " 11 22 33 44 55 66 77", byte << 56 | others),
                (8, "8 11 22 33 44 55 66 77 ", "", others << 8 | byte),
            ] {
                let head = format!("{FIRST} CAN #2 | Tx 000 {head}");
                let tail = format!("{tail}\n");
                let text = [head.as_bytes(), &[first, second], tail.as_bytes()].concat();
                let line = at_noon(good, [0, 2, 1, 0, 0, length, data]);
                match [first, second].iter().any(|byte| b" \r\n".contains(byte)) {
                    true => drop(runs.read_ascii("ascii: every data byte", &text, None)?),
                    false => one(runs, "ascii: every data byte", &text, line)?,
                }
            }
        }
    }
    Ok(())
}

/// Every byte in every place of some lines, in place of another, beside it and at the ends; each byte lost; and each line cut off.
fn bytes(runs: &mut Runs) -> Checked {
    for line in LINES {
        for at in 0..=line.len() {
            let (before, after) = line.as_bytes().split_at(at);
            let rest = after.get(1..).unwrap_or_default();
            for byte in 0..=u8::MAX {
                around(runs, "ascii: every byte put in", &[before, &[byte], after])?;
                around(runs, "ascii: every byte changed", &[before, &[byte], rest])?;
            }
            around(runs, "ascii: every byte lost", &[before, rest])?;
            runs.read_ascii("ascii: line cut off", before, None)?;
            around(runs, "ascii: line cut off", &[before, b"\n"])?;
        }
    }
    Ok(())
}

/// These bytes as the text, or between two lines.
fn around(runs: &mut Runs, kind: &'static str, parts: &[&[u8]]) -> Checked {
    let mut text = parts.concat();
    if runs.random.once_in(2) {
        let line = format!("{FIRST} CAN #1 | Rx 123 1 00\r\n").into_bytes();
        text = [&line, &*text, &line].concat();
    }
    runs.read_ascii(kind, &text, None)?;
    Ok(())
}
