//! Damage to texts of Telemotive ASCII of which nothing is known, and noise.

use super::ascii::{date_text, first_stamp, time_text};
use super::damage::{damage_byte, next_number};
use super::random::Random;

/// Bytes of which lines are made.
const ALPHABET: &[u8] = b"0123456789ABCDEFabcdef    ..::##||RxTxCANExtEXTENDED\r\n\t\0";
/// Words that stand on either side of a limit, or look right.
const WORDS: &str = "0|1|2|7|8|9|00|01|0a|0A|fF|g0|10|\
    29.02.2000|29.02.1900|29.02.2100|28.02.1900|29.12.1899|30.12.1899|13.10.2173|14.10.2173|00.01.2000|31.12.1999|32.12.1999|\
    01.13.2000|01.00.2000|1.1.2000|12:00:00.0000|00:00:00.0000|23:59:59.9999|24:00:00.0000|23:60:00.0000|23:59:60.0000|12:00:00.000|\
    CAN|CANExt|can|CANEXT|CAN#1|#1|#2|#9|#10|#16|#17|#0|#00|#01|#016|#|#1|EXTENDED|extended|EXTENDE|Rx|Tx|rx|RX|RTR|Error|\
    000|123|7ff|7FF|800|0123|12|00000123|1fffffff|1FFFFFFF|20000000|1ffffff|1fffffff0";
/// What may stand where a line should end.
const ENDS: &str = "\r|\n||\n\r|\r\r\n|\r\n\n|\r\n\r\n|\r \n| \r\n|\0\r\n|\n\n| \n|\r\n|\n";

/// Damages a text once or more.
pub fn damage(random: &mut Random, text: &mut Vec<u8>) {
    for _ in 0..random.pick(&[1, 1, 1, 2, 3]) {
        match random.below(7) {
            0 | 1 => damage_byte(random, text, ALPHABET),
            2 => damage_end(random, text),
            3 => damage_lines(random, text),
            _ => damage_part(random, text),
        }
    }
}

/// Another end for a line, mostly a wrong one.
fn damage_end(random: &mut Random, text: &mut Vec<u8>) {
    let ends: Vec<usize> = (0..text.len()).filter(|&at| text[at] == b'\n').collect();
    let Some(&last) = ends.last() else {
        return;
    };
    let any = random.pick(&ends);
    let lf = random.pick(&[any, last]);
    let begin = match text[..lf].last() {
        Some(b'\r') => lf - 1,
        _ => lf,
    };
    text.splice(begin..=lf, random.word(ENDS).bytes());
}

/// Swaps, doubles, moves, loses, cuts or lengthens whole lines.
fn damage_lines(random: &mut Random, text: &mut Vec<u8>) {
    let lines = text.split_inclusive(|&byte| byte == b'\n');
    let mut lines: Vec<Vec<u8>> = lines.map(<[u8]>::to_vec).collect();
    if lines.is_empty() {
        return;
    }
    let (at, other) = (random.below(lines.len()), random.below(lines.len()));
    match random.below(7) {
        0 => lines.swap(at, other),
        1 => lines.insert(other, lines[at].clone()),
        2 => drop(lines.remove(at)),
        3 => {
            let line = lines.remove(at);
            lines.insert(other.min(lines.len()), line);
        }
        4 => {
            let end = random.below(lines[at].len());
            lines[at].truncate(end);
        }
        _ => lengthen(random, &mut lines[at]),
    }
    *text = lines.concat();
}

/// Blanks or other bytes, so that the line has about as many bytes as it may.
fn lengthen(random: &mut Random, line: &mut Vec<u8>) {
    let aim = random.pick(&[249, 250, 251, 252, 253, 254, 300, 1000_usize]);
    let blanks = (0..line.len()).filter(|&at| line[at] == b' ');
    let places: Vec<usize> = blanks.chain([0, line.len() - 1]).collect();
    let at = random.pick(&places);
    let more = vec![random.pick(b"        0\t"); aim.saturating_sub(line.len())];
    line.splice(at..at, more);
}

/// Replaces, loses, doubles, moves, adds or damages a part of a line.
fn damage_part(random: &mut Random, text: &mut Vec<u8>) {
    let begins: Vec<usize> = (0..text.len())
        .filter(|&at| !is_gap(text[at]) && (at == 0 || is_gap(text[at - 1])))
        .collect();
    if begins.is_empty() {
        return;
    }
    let end_of = |text: &[u8], at: usize| {
        let end = text[at..].iter().position(|&byte| is_gap(byte));
        end.map_or(text.len(), |end| at + end)
    };
    let at = random.pick(&begins);
    let end = end_of(text, at);
    let old = text[at..end].to_vec();
    let other = random.pick(&begins);
    let other = text[other..end_of(text, other)].to_vec();
    let mut new = random.word(WORDS).as_bytes().to_vec();
    match random.below(10) {
        0 | 1 => {}
        2 => new.clear(),
        3 => new.extend([b" ", old.as_slice()].concat()),
        4 => new = [&old, b" " as &[u8], &old].concat(),
        5 => new = other,
        6 => new = next_number(&old),
        7 => new = old.to_ascii_uppercase(),
        8 => new = old.to_ascii_lowercase(),
        _ => {
            new = old;
            damage_byte(random, &mut new, ALPHABET);
        }
    }
    text.splice(at..end, new);
}

fn is_gap(byte: u8) -> bool {
    matches!(byte, b' ' | b'\r' | b'\n')
}

/// Bytes of any value, or of which lines are made, at times behind a good line.
pub fn letters(random: &mut Random) -> Vec<u8> {
    let mut text = Vec::new();
    if random.once_in(2) {
        text.extend(b"29.02.2000 12:00:00.0000 CAN #1 | Rx 123 2 0a ff\r\n");
    }
    let any = random.once_in(3);
    for _ in 0..random.mostly_small(300) {
        text.push(match any {
            true => random.byte(),
            false => random.pick(ALPHABET),
        });
    }
    text
}

/// Lines with a likely word for each part, and now and then another.
pub fn words(random: &mut Random) -> Vec<u8> {
    let mut text = Vec::new();
    let stamp = first_stamp(random);
    for _ in 0..random.between(1, 4) {
        let extended = random.once_in(2);
        let later = stamp + random.below(1_000_000) as i64 - 5;
        let mut parts = vec![date_text(later), time_text(later)];
        let mut add = |random: &mut Random, words: &str| parts.push(random.word(words).to_string());
        match extended {
            true => add(random, "CANExt|CANExt|CANExt|CANExt|CANExt|CAN"),
            false => add(random, "CAN|CAN|CAN|CAN|CAN|CAN|CANExt"),
        }
        add(random, "#0|#0|#1|#2|#9|#10|#15|#16|#17|#00");
        parts.push("|".to_string());
        let mut add = |random: &mut Random, words: &str| parts.push(random.word(words).to_string());
        if extended {
            add(random, "EXTENDED|EXTENDED|EXTENDED|EXTENDED|EXTENDED|EXT");
        }
        add(random, "Rx|Tx|Rx|Tx|Rx|Tx|rx");
        match extended {
            true => add(
                random,
                "00000000|1fffffff|1FFFFFFF|20000000|00000123|12345678|123",
            ),
            false => add(random, "000|7ff|7FF|123|0aF|800|12|0123"),
        }
        let length = random.below(9);
        parts.push(length.to_string());
        let bytes = length + usize::from(random.once_in(12))
            - usize::from(random.once_in(12) && length > 0);
        for _ in 0..bytes {
            parts.push(random.word("00|7f|80|Ff|fF|FF|aB|9A").to_string());
        }
        if random.once_in(4) {
            let at = random.below(parts.len());
            parts[at] = random.word(WORDS).to_string();
        }
        text.extend(parts.join(" ").bytes());
        text.extend(
            random
                .word("\r\n|\n|\r\n|\n|\r\n|\n|\r\n|\n|\r\n|\n|\r")
                .bytes(),
        );
    }
    text
}
