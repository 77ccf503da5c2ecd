//! Bytes that spell nothing, or nearly nothing.

use super::damage::{ALPHABET, WORDS};
use super::random::Random;

/// Bytes of any value.
pub fn bytes(random: &mut Random) -> Vec<u8> {
    let len = random.mostly_small(400);
    (0..len).map(|_| random.byte()).collect()
}

/// Bytes of which traces are made, with good line ends, mostly after a good beginning.
pub fn letters(random: &mut Random) -> Vec<u8> {
    let version = random.pick(&[11, 12]);
    let mut text = beginning(random, version);
    for _ in 0..random.mostly_small(9) {
        let len = random.mostly_small(60);
        let letters = (0..len).map(|_| random.pick(ALPHABET));
        text.extend(letters.filter(|b| !matches!(b, b'\r' | b'\n')));
        text.extend(b"\r\n");
    }
    if random.once_in(4) {
        text.push(random.pick(ALPHABET));
    }
    text
}

/// Rows with a likely word in each column, and now and then another, mostly after a good beginning.
pub fn words(random: &mut Random) -> Vec<u8> {
    let version = random.pick(&[11, 12]);
    let mut text = beginning(random, version);
    let first = random.pick(&[1, 1, 1, 2, 98, 4117, 999_997, 999_998, 999_999]);
    for row in first..first + random.between(1, 4) {
        let number = format!("{row})");
        let mut columns = vec![number.as_str()];
        match version {
            11 => columns.push(random.word("0.0|12.5|281474976710.6|281474976710.7|00.0")),
            _ => {
                let offsets = "0.000|12.345|281474976710.655|281474976710.656|01.500";
                columns.push(random.word(offsets));
                columns.push(random.pick(&["1", "9", "10", "16", "17"]));
            }
        }
        columns.extend(after_the_bus(random));
        if random.once_in(3) {
            let at = random.below(columns.len());
            columns[at] = random.word(WORDS);
        }
        text.extend(columns.join(" ").bytes());
        text.extend(b"\r\n");
    }
    text
}

fn after_the_bus(random: &mut Random) -> Vec<&'static str> {
    let kind = random.pick(&["Rx", "Tx", "Warng", "Error"]);
    let (ids, length) = match kind {
        "Warng" => (["FFFFFFFF", "ffffffff", "FFFFFFFE", "FFFFFFF"], 4),
        "Error" => (["0001", "0008", "0003", "00000001"], 4),
        _ => (["07FF", "1FFFFFFF", "0800", "20000000"], random.below(9)),
    };
    let mut columns = vec![kind, random.pick(&ids)];
    columns.push(["0", "1", "2", "3", "4", "5", "6", "7", "8"][length]);
    for place in 0..length {
        columns.push(match (kind, place) {
            ("Error", 0) => random.pick(&["00", "01", "01", "02"]),
            ("Error", 1) => random.pick(&["02", "0F", "10", "11", "13", "17", "1c", "1D"]),
            _ => random.pick(&["00", "7f", "80", "Ff"]),
        });
    }
    columns.extend(random.pick(&[&[] as &[&str], &[], &[], &["AB"], &["RTR"], &["00"]]));
    columns
}

fn beginning(random: &mut Random, version: u64) -> Vec<u8> {
    let version = version - 10;
    let mut text = format!(";$FILEVERSION=1.{version}\r\n;$STARTTIME=36585.5\r\n").into_bytes();
    if random.once_in(8) {
        text.truncate(random.below(text.len() + 1));
    }
    text
}
