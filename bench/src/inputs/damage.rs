//! Damage to texts and to packed records.

use super::random::Random;
use super::LAST_NUMBER;
use std::ops::Range;

/// Words that stand on either side of a limit, or look right.
pub const WORDS: &str =
    "0|1|2|3|4|7|8|9|01|10|15|16|17|00|1)|2)|3)|0)|01)|4117)|999998)|999999)|1000000)|1 )|)|\
    0.0|0.000|00.000|1.0|1.00|1.000|1.0000|.5|5.|4294967296.000|\
    99999999999.9|99999999999.999|100000000000.0|100000000000.000|140737488355.3|140737488355.328|\
    281474976710.6|281474976710.7|281474976710.655|281474976710.656|281474976711.0|281474976711.000|\
    999999999999.9|999999999999.999|1000000000000.0|1000000000000.000|18446744073709551.616|\
    Rx|Tx|rx|RX|Warng|Error|Warning|RTR|rtr|RT|BUSLIGHT|0A|G0|\
    0000|0001|0003|0008|0010|07FF|07ff|0800|00000123|1FFFFFFF|20000000|\
    FFFFFFF|FFFFFFFF|ffffffff|FFFFFFFFF";
/// Settings of the first two lines that are wrong, or right but unusual.
const SETTINGS: &str = "FILEVERSION=1.0|FILEVERSION=1.1|FILEVERSION=1.2|FILEVERSION=1.3|\
    FILEVERSION=2.0|FILEVERSION=1.10|FILEVERSION=1.|FILEVERSION= 1.1|fileversion=1.1|\
    STARTTIME=0.0|STARTTIME=00.0|STARTTIME=1.|STARTTIME=.1|STARTTIME=1|STARTTIME|\
    STARTTIME=01.5|STARTTIME=1.0 0|STARTTIME=-1.0|STARTTIME=1,5|STARTTIME=1.12345678901|\
    STARTTIME=37704.5364870833|STARTTIME=36585.5|STARTTIME=100000.0|\
    STARTTIME=99999.9999999942|STARTTIME=99999.9999999943|STARTTIME=99999.9999999999";
/// What may stand where a line should end.
const ENDS: &str = "\r|\n||\n\r|\r\r\n|\r\n\n|\r\n\r\n|\r \n| \r\n|\0\r\n";
/// Lines like comments, with `$` first or nearly.
const DOLLARS: &str = ";$|;  $x|;.$|; \t$|$| ;|;|| |;$STARTTIME=1.0";
/// Bytes of which traces are made.
pub const ALPHABET: &[u8] = b"0123456789ABCDEFabcdef  ;;$.))RxTxWarngErrorRTR=FILEVSON\r\n\t\0";

/// Damages a text once or more, often behind its first two lines only.
pub fn damage(random: &mut Random, text: &mut Vec<u8>) {
    let mut ends = (0..text.len()).filter(|&at| text[at] == b'\n');
    let rows_at = match (random.once_in(3), ends.nth(1)) {
        (false, Some(end)) if end + 1 < text.len() => end + 1,
        _ => 0,
    };
    let mut rows = text.split_off(rows_at);
    for _ in 0..random.pick(&[1, 1, 1, 2, 3]) {
        match random.below(5) {
            0 => damage_byte(random, &mut rows, ALPHABET),
            1 => damage_line_end(random, &mut rows),
            2 => damage_lines(random, &mut rows),
            3 => damage_numbers(random, &mut rows),
            _ => damage_word(random, &mut rows),
        }
    }
    text.append(&mut rows);
}

/// Changes, adds or loses a byte, or all behind it. Bytes that come in are mostly of the alphabet.
pub fn damage_byte(random: &mut Random, text: &mut Vec<u8>, alphabet: &[u8]) {
    let at = random.below(text.len() + 1);
    if at == text.len() {
        return text.push(random.pick(alphabet));
    }
    match random.below(8) {
        0 => text[at] ^= 1 << random.below(8),
        1 => text[at] = random.byte(),
        2 => text[at] = random.pick(alphabet),
        3 => text.insert(at, random.pick(alphabet)),
        4 => text.insert(at, text[at]),
        5 => drop(text.remove(at)),
        6 => text.truncate(at),
        _ => text.swap(at, at.saturating_sub(1)),
    }
}

/// Loses, doubles or turns a byte of a line end.
fn damage_line_end(random: &mut Random, text: &mut Vec<u8>) {
    let ends: Vec<usize> = (1..text.len()).filter(|&at| text[at] == b'\n').collect();
    if ends.is_empty() {
        return;
    }
    let (cr, end) = match random.pick(&ends) {
        _ if random.once_in(4) => (text.len() - 2.min(text.len()), text.len()),
        lf => (lf - 1, lf + 1),
    };
    let other = random.word(ENDS).bytes();
    text.splice(cr..end, other);
}

/// Swaps, doubles, loses, lengthens or replaces whole lines.
fn damage_lines(random: &mut Random, text: &mut Vec<u8>) {
    let mut lines: Vec<Vec<u8>> = text
        .split_inclusive(|&b| b == b'\n')
        .map(<[u8]>::to_vec)
        .collect();
    if lines.is_empty() {
        return;
    }
    let (at, other) = (random.below(lines.len()), random.below(lines.len()));
    match random.below(7) {
        0 => lines.swap(at, other),
        1 => lines.insert(other, lines[at].clone()),
        2 => drop(lines.remove(at)),
        3 => lines.insert(at, format!("{}\r\n", random.word(DOLLARS)).into_bytes()),
        4 | 5 => lengthen(random, &mut lines[at]),
        _ => {
            let setting = random.word(SETTINGS);
            lines[at.min(random.below(2))] = format!(";${setting}\r\n").into_bytes();
        }
    }
    *text = lines.concat();
}

/// Numbers one row, all from some row on or all rows otherwise.
fn damage_numbers(random: &mut Random, text: &mut Vec<u8>) {
    let mut lines: Vec<Vec<u8>> = text
        .split_inclusive(|&b| b == b'\n')
        .map(<[u8]>::to_vec)
        .collect();
    let mut rows: Vec<(&mut Vec<u8>, Range<usize>, i64)> = Vec::new();
    for line in &mut lines {
        let digits = number_in(line);
        let number = String::from_utf8_lossy(&line[digits.clone()]).parse();
        if let Ok(number) = number {
            rows.push((line, digits, number));
        }
    }
    if rows.is_empty() {
        return;
    }
    let at = random.below(rows.len());
    let (begin, end) = match random.below(3) {
        0 => (at, at + 1),
        1 => (at, rows.len()),
        _ => (0, rows.len()),
    };
    let old = rows[begin].2;
    // The last row has the last number, or passes it.
    let late = LAST_NUMBER as i64 + 1 - random.between(0, rows.len()) as i64;
    let any = random.number() as i64 % 1_100_000;
    let new = random.pick(&[
        old + 1,
        old + 1,
        old - 1,
        old - 1,
        0,
        1,
        4117,
        late,
        late,
        any,
    ]);
    for (line, digits, number) in &mut rows[begin..end] {
        let number = number.saturating_add(new.saturating_sub(old));
        line.splice(digits.clone(), number.to_string().bytes());
    }
    *text = lines.concat();
}

/// Where the digits stand with which a line begins behind any blanks.
fn number_in(line: &[u8]) -> Range<usize> {
    let begin = line.iter().take_while(|&&b| b == b' ').count();
    let digits = line[begin..].iter().take_while(|b| b.is_ascii_digit());
    begin..begin + digits.count()
}

/// Blanks or other bytes, so that the line has about as many bytes as it may.
fn lengthen(random: &mut Random, line: &mut Vec<u8>) {
    let aim = random.pick(&[249, 250, 251, 252, 300, 400, 1000]);
    let end = line.len().saturating_sub(2);
    let blanks = (0..end).filter(|&at| line[at] == b' ');
    let places: Vec<usize> = blanks.chain([0, end, end]).collect();
    let at = random.pick(&places);
    let byte = random.pick(b"     0A");
    let more = vec![byte; (aim + 2_usize).saturating_sub(line.len())];
    line.splice(at..at, more);
}

/// Replaces, loses, doubles or adds a field of a row.
fn damage_word(random: &mut Random, text: &mut Vec<u8>) {
    let begins: Vec<usize> = (0..text.len())
        .filter(|&at| !is_gap(text[at]) && (at == 0 || is_gap(text[at - 1])))
        .collect();
    if begins.is_empty() {
        return;
    }
    let at = random.pick(&begins);
    let end = (at..text.len())
        .find(|&end| is_gap(text[end]))
        .unwrap_or(text.len());
    let old = text[at..end].to_vec();
    let mut new = random.word(WORDS).as_bytes().to_vec();
    match random.below(6) {
        0 | 1 => {}
        2 => new.clear(),
        3 => new.extend([b" ", old.as_slice()].concat()),
        4 => new = [&old, b" " as &[u8], &old].concat(),
        _ => new = next_number(&old),
    }
    text.splice(at..end, new);
}

fn is_gap(byte: u8) -> bool {
    matches!(byte, b' ' | b'\r' | b'\n')
}

/// The word with its last digit one higher, so that many a number is just past its limit.
pub fn next_number(word: &[u8]) -> Vec<u8> {
    let mut word = word.to_vec();
    if let Some(digit) = word.iter_mut().rev().find(|b| b.is_ascii_hexdigit()) {
        *digit += 1;
    }
    word
}

/// Damages packed records: a bit, a byte, or the length of the list.
pub fn damage_records(random: &mut Random, records: &mut Vec<u8>) {
    let at = random.below(records.len() + 1);
    if at == records.len() {
        return records.extend((0..random.between(1, 20)).map(|_| 0));
    }
    match random.below(8) {
        0..=4 => records[at] ^= 1 << random.below(8),
        5 => records[at] = random.byte(),
        6 => records.truncate(at),
        _ => drop(records.remove(at)),
    }
}
