//! A trace as a logger records it: mostly data frames of eight bytes, offsets that rise, few of all else.

use super::random::Random;
use super::records::Fields;

/// Well formed records that the version can carry.
pub fn realistic(random: &mut Random, version: u64, rows: usize) -> Vec<Fields> {
    let ids: Vec<[u64; 2]> = (0..64).map(|_| id(random)).collect();
    let mut offset = 0;
    let mut row = || {
        offset += random.between(1, 15) as u64 * 100;
        let (bus, exact) = match version {
            11 => (0, offset),
            _ => (
                random.pick(&[1, 1, 1, 2]),
                offset + random.below(100) as u64,
            ),
        };
        let [kind, extended, id, length, data] = frame(random, &ids);
        [exact, bus, kind, extended, id, length, data]
    };
    (0..rows).map(|_| row()).collect()
}

/// Extended flag and ID; one in four is extended.
fn id(random: &mut Random) -> [u64; 2] {
    match random.once_in(4) {
        true => [1, random.number() & 0x1FFF_FFFF],
        false => [0, random.number() & 0x7FF],
    }
}

fn frame(random: &mut Random, ids: &[[u64; 2]]) -> [u64; 5] {
    let [extended, id] = random.pick(ids);
    let sent = u64::from(random.once_in(8));
    match random.below(1000) {
        0..=2 => [4, 0, 0, 4, 0x0000_0008 << 32],
        3..=4 => [5, 0, 4, 4, 0x0109_0810 << 32],
        5..=14 => [2 + sent, extended, id, 8, 0],
        15..=150 => {
            let length = random.below(8) as u64;
            let unused = 64 - 8 * length;
            let data = random.number().checked_shr(unused as u32).unwrap_or(0);
            let data = data.checked_shl(unused as u32).unwrap_or(0);
            [sent, extended, id, length, data]
        }
        _ => [sent, extended, id, 8, random.number()],
    }
}

/// The text with its columns set in line by blanks, as loggers do.
pub fn in_columns(text: &[u8]) -> Vec<u8> {
    let mut wide = Vec::new();
    for line in text.split_inclusive(|&b| b == b'\n') {
        if line[0] == b';' {
            wide.extend(line);
            continue;
        }
        let words = line.splitn(3, |&b| b == b' ');
        for (word, width) in words.zip([7, 15, 0]) {
            let blanks = usize::saturating_sub(width, word.len());
            wide.extend(vec![b' '; blanks]);
            wide.extend(word);
            wide.extend(if width > 0 { b"  " as &[u8] } else { b"" });
        }
    }
    wide
}
