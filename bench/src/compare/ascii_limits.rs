//! The largest texts of Telemotive ASCII, and those one past them.

use super::runs::Runs;
use super::Checked;
use crate::inputs::ascii::{widened, AsciiStyle, AsciiText, Line, DAY, LEAST};
use crate::inputs::random::Random;
use bushingowl::RECORD;

const LONGEST_TEXT: usize = 134_217_728;
const MOST_LINES: usize = 999_999;
const KIND: &str = "ascii: size limits";
const SHORT: &str = "29.02.2000 12:00:00.0000 CAN #1 | Rx 123 0\n";
/// Lines before that one and far behind it, and what is no line.
const BEFORE: &str = "29.02.2000 11:59:59.9999 CAN #1 | Rx 123 0\n";
const FAR: &str = "29.02.2020 12:00:00.0000 CAN #1 | Rx 123 0\n";
const NONE: &str = "29.02.2001 12:00:00.0000 CAN #1 | Rx 123 0\n";
const NOT_ENDED: &str = "29.02.2000 12:00:00.0000 CAN #1 | Rx 123 0";

pub fn ascii_limits(runs: &mut Runs) -> Checked {
    bytes(runs)?;
    lines(runs)
}

/// As many lines as there may be, in as many bytes. Their stamps go back here and there.
fn longest(random: &mut Random) -> AsciiText {
    let style = AsciiStyle::plain();
    let mut text = AsciiText::default();
    let first = 36_585 * DAY;
    let mut stamp = first;
    for left in (1..=MOST_LINES).rev() {
        let line = Line::new(random, stamp);
        stamp = (stamp + random.below(20_000) as i64 - 5_000).max(first);
        let parts = line.parts(random, &style.style);
        let end = style.end(random);
        let aim = (LONGEST_TEXT - text.text.len()) / left - end.len();
        let spelled = widened(random, &parts.join(" "), aim) + end;
        text.push(spelled.as_bytes(), Some(line));
    }
    text
}

/// A text of as many bytes as it may have, and of one more, whatever stands in it.
fn bytes(runs: &mut Runs) -> Checked {
    let text = longest(&mut runs.random);
    let known = text.known();
    let mut text = text.text;
    assert_eq!(text.len(), LONGEST_TEXT);
    assert_eq!(known.1.len(), MOST_LINES * RECORD, "it is to be accepted");
    runs.read_ascii(KIND, &text, Some(&known))?;
    for more in b"\n 3" {
        text.push(*more);
        refused(runs, &text, 1, 0)?;
        text.pop();
    }
    text[0] = b'x';
    refused(runs, &text, 31, 1)?;
    text.push(b'\n');
    refused(runs, &text, 1, 0)
}

/// As many lines as there may be, and more; what is wrong behind them comes first.
fn lines(runs: &mut Runs) -> Checked {
    let most = SHORT.repeat(MOST_LINES);
    let past = MOST_LINES as u64 + 1;
    let [_, place, _, records] = runs.read_ascii(KIND, most.as_bytes(), None)?;
    assert_eq!((place, records), (0, MOST_LINES as u64));
    for (more, number, place) in [
        (SHORT, 34, 0),
        (NONE, 31, past),
        (NOT_ENDED, 31, past),
        ("\n", 31, past),
        (BEFORE, 32, past),
        (FAR, 33, past),
    ] {
        refused(runs, format!("{most}{more}").as_bytes(), number, place)?;
        let (number, place) = match number {
            34 => (34, 0),
            _ => (number, past + 3),
        };
        let text = format!("{most}{SHORT}{SHORT}{SHORT}{more}");
        refused(runs, text.as_bytes(), number, place)?;
        // It is the last line that there may be, and then another follows.
        let text = format!("{}{more}", &most[LEAST..]);
        match number {
            34 => drop(runs.read_ascii(KIND, text.as_bytes(), None)?),
            _ => refused(runs, text.as_bytes(), number, past - 1)?,
        }
    }
    refused(runs, format!("{NONE}{most}").as_bytes(), 31, 1)?;
    let all = SHORT.repeat(LONGEST_TEXT / LEAST);
    refused(runs, all.as_bytes(), 34, 0)?;
    let last = (LONGEST_TEXT / LEAST) as u64;
    let text = format!("{}{NONE}", &all[LEAST..]);
    refused(runs, text.as_bytes(), 31, last)
}

fn refused(runs: &mut Runs, text: &[u8], number: u64, place: u64) -> Checked {
    let known = ([number, place, 0, 0], Vec::new());
    runs.read_ascii(KIND, text, Some(&known))?;
    Ok(())
}
