//! A line of a file as it can be shown, with a mark under what is wrong.

use std::ops::Range;

/// The most bytes of a line that are shown, and of those the most before the mark.
const SHOWN: usize = 100;
const BEFORE: usize = 60;

/// Two lines: the line with its number, and `^` under what is wrong; where something is missing, one `^` in its place. Of a long line the part around the
/// mark is shown. Bytes that can't be seen are shown as their numbers.
pub fn excerpt(line: u64, bytes: &[u8], wrong: &Range<usize>) -> String {
    let marked = wrong.start..wrong.end.max(wrong.start + 1);
    let begin = match marked.start {
        ..SHOWN => 0,
        start => start - BEFORE,
    };
    let end = bytes.len().min(begin + SHOWN);
    let dots = |cut: bool| if cut { "..." } else { "" };
    let mut text = dots(begin > 0).to_string();
    let mut marks = " ".repeat(text.len());
    for (at, byte) in bytes.iter().enumerate().take(end).skip(begin) {
        let cell = cell(*byte);
        let mark = if marked.contains(&at) { "^" } else { " " };
        marks += &mark.repeat(cell.len());
        text += &cell;
    }
    // What is missing at the end has no byte to stand under.
    if marked.start >= end {
        marks.push('^');
    }
    text += dots(end < bytes.len());
    let number = line.to_string();
    let blank = " ".repeat(number.len());
    format!("{number} | {text}\n{blank} | {}", marks.trim_end())
}

fn cell(byte: u8) -> String {
    match byte {
        b' '..=b'~' => char::from(byte).to_string(),
        _ => format!("\\x{byte:02X}"),
    }
}

#[cfg(test)]
mod tests {
    use super::excerpt;

    #[test]
    fn the_wrong_part_is_marked() {
        let shown = excerpt(12, b"a\tbc d", &(2..4));
        assert_eq!(shown, "12 | a\\x09bc d\n   |      ^^");
        let shown = excerpt(3, b"a\t", &(1..2));
        assert_eq!(shown, "3 | a\\x09\n  |  ^^^^");
    }

    #[test]
    fn what_is_missing_is_marked() {
        assert_eq!(excerpt(1, b"ab", &(2..2)), "1 | ab\n  |   ^");
        assert_eq!(excerpt(1, b"ab  ", &(2..2)), "1 | ab  \n  |   ^");
        assert_eq!(excerpt(1, b"", &(0..0)), "1 | \n  | ^");
    }

    #[test]
    fn a_long_line_is_cut_around_the_mark() {
        let mut line = vec![b'x'; 1000];
        line[500] = b'!';
        let shown = excerpt(7, &line, &(500..501));
        let expected = format!("7 | ...{}!{}...", "x".repeat(60), "x".repeat(39));
        assert_eq!(shown, format!("{expected}\n  |    {}^", " ".repeat(60)));
    }
}
