//! What it means that fields begin a row, tried out: with some further fields behind them, the row reader takes them.

use super::cursor::{Window, LONGEST};
use super::row::row;
use super::{explain, read};
use crate::inputs::lines::{noise, RowFields};
use crate::inputs::random::Random;
use std::collections::BTreeSet;

type Fields<'a> = Vec<&'a [u8]>;

/// A version and a number, and what may come behind some fields of its rows.
struct Rows {
    version: u32,
    number: u64,
    tails: BTreeSet<Vec<u8>>,
}

impl Rows {
    fn new(version: u32, number: u64) -> Self {
        // A first row may have any number.
        let some = number.max(1);
        let before = match version {
            11 => format!("{some}) 0.0"),
            _ => format!("{some}) 0.000 1"),
        };
        let mut rows = vec![
            format!("{before} Warng FFFFFFFF 4 00 00 00 00"),
            format!("{before} Error 0001 4 00 02 00 00"),
        ];
        for length in 0..=8 {
            let bytes = " 00".repeat(length);
            rows.push(format!("{before} Rx 0000 {length}{bytes}"));
            rows.push(format!("{before} Rx 0000 {length} RTR"));
        }
        let tails = |row: &String| -> Vec<Vec<u8>> {
            let ends = row.match_indices(' ').map(|(at, _)| &row[at..]);
            ends.chain([row.as_str(), ""]).map(Vec::from).collect()
        };
        let tails = rows.iter().flat_map(tails).collect();
        Rows {
            version,
            number,
            tails,
        }
    }

    fn is_row(&self, line: &[u8]) -> bool {
        let mut window: Window = [0; size_of::<Window>()];
        window[..line.len()].copy_from_slice(line);
        window[line.len()..][..2].copy_from_slice(b"\r\n");
        let read = row::<false>(&window, self.number, self.version == 12);
        read.is_some_and(|(.., len)| len == line.len() + 2)
    }

    /// Whether some row begins with these fields.
    fn begins(&self, fields: &[&[u8]]) -> bool {
        let begin = fields.join(&b' ');
        // A tail without a blank first, a whole row, would go on with the last field.
        let apart = |tail: &[u8]| begin.is_empty() || matches!(tail, [] | [b' ', ..]);
        let mut tails = self.tails.iter().filter(|tail| apart(tail));
        tails.any(|tail| self.is_row(&[&begin, &tail[..]].concat()))
    }

    /// What the line must be answered.
    fn meant(&self, line: &[u8]) -> [u64; 4] {
        let fields: Fields = line
            .split(|&b| b == b' ')
            .filter(|f| !f.is_empty())
            .collect();
        let held = line.iter().any(|byte| b"\r\n".contains(byte));
        if held || is_comment(line) || self.is_row(line) {
            return [30, 0, 0, 0];
        }
        assert!(self.begins(&[]));
        for i in 1..=fields.len() {
            if !self.begins(&fields[..i]) {
                return [0, 0, 1, i as u64];
            }
        }
        [0, 0, 2, fields.len() as u64]
    }
}

/// Whether the reader ignores the line.
fn is_comment(line: &[u8]) -> bool {
    let before = b";$FILEVERSION=1.2\r\n;$STARTTIME=0.0\r\n";
    let text = [before, line, b"\r\n"].concat();
    read(&text, &mut []) == [0, 0, 12, 0, 0, 0, 0]
}

#[test]
fn explained_as_meant() {
    let mut random = Random::new(18);
    let (mut lines, mut counts) = (0, [0; 3]);
    for _ in 0..24 {
        let base = RowFields::new(&mut random);
        let rows = Rows::new(base.version, base.expected);
        let mut all = base.good(&mut random);
        all.extend(base.damaged(&mut random));
        all.extend(base.too_late(&mut random));
        all.extend(base.rearranged(&mut random));
        all.extend(base.cut(&mut random));
        all.extend(base.with_odd_bytes(&mut random));
        all.extend(base.commented(&mut random));
        all.extend(base.nearly_commented(&mut random));
        all.extend((0..50).map(|_| noise(&mut random)));
        // So long that the longest end of a row fits behind it.
        for line in all.iter().filter(|line| line.len() <= LONGEST - 64) {
            let answer = explain(line, base.version, base.expected);
            let meant = rows.meant(line);
            let shown = line.escape_ascii();
            assert_eq!(answer, meant, "{shown}, {} {}", base.version, base.expected);
            lines += 1;
            counts[answer[2] as usize] += 1;
        }
    }
    assert!(lines > 5000, "{lines}");
    assert!(counts.iter().all(|&count| count > 500), "{counts:?}");
}
