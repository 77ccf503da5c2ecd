//! The lines of a text, and what stands in a line between its blanks.

use std::ops::Range;

/// The lines before a line of a text, counted from 1, and that line with its end.
pub(crate) fn cut(text: &[u8], line: u64) -> Option<(&[u8], &[u8])> {
    let lines_before = usize::try_from(line.checked_sub(1)?).ok()?;
    let mut lines = text.split_inclusive(|byte| *byte == b'\n');
    let before = lines.by_ref().take(lines_before).map(<[u8]>::len).sum();
    Some((&text[..before], lines.next()?))
}

/// Where the parts of a line stand. They are what stands between its blanks.
pub(crate) fn places(line: &[u8]) -> impl Iterator<Item = Range<usize>> + '_ {
    let mut next = 0;
    line.split(|byte| *byte == b' ')
        .map(move |part| {
            let place = next..next + part.len();
            next = place.end + 1;
            place
        })
        .filter(|place| !place.is_empty())
}

/// Where a part of a line stands, counted from 1.
pub(crate) fn place_of(line: &[u8], part: u64) -> Option<Range<usize>> {
    places(line).nth(usize::try_from(part.checked_sub(1)?).ok()?)
}

/// The parts of a line.
pub(crate) fn parts(line: &[u8]) -> Vec<&[u8]> {
    places(line).map(|place| &line[place]).collect()
}
