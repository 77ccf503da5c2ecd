//! Offsets around each power of ten and of two, so on both sides of their limit, of the one before Order 5 and of 2^47, through every function.

use super::ascii::text_of;
use super::limits::{expect, spelled};
use super::runs::Runs;
use super::{Checked, Difference};
use crate::inputs::ascii::Line;
use crate::inputs::channels::good_channel;
use crate::inputs::records::{packed, packed_all, Fields};
use crate::inputs::style::offset_text;
use crate::inputs::{LAST_NUMBER, LAST_OFFSET, LAST_START};
use std::collections::BTreeSet;

/// How far from a power. From 2^48 so far are the tenths and whole milliseconds beside it, too.
const AROUND: [u64; 9] = [0, 1, 44, 56, 99, 100, 344, 656, 1000];
/// From the second on the largest offset is a stamp of the last day that a line may have.
const STARTS: [u64; 3] = [0, LAST_START - LAST_OFFSET / 1000, LAST_START];
const ROW: [u64; 4] = [30, 0, 0, 0];
const WRONG: [u64; 4] = [0, 0, 1, 2];
const EARLY: [u64; 4] = [0, 0, 2, 2];
const LONGEST_ROW: &str = "999999) 281474976710.655 16 Tx 1FFFFFFF 8 FF FF FF FF FF FF FF FF";

pub fn offset_limits(runs: &mut Runs) -> Checked {
    for offset in offsets() {
        let tenths = offset - offset % 100;
        for (version, offset) in [(11, tenths), (12, offset)] {
            rows(runs, version, offset)?;
            lines(runs, version, offset)?;
        }
        fields(runs, offset)?;
        // The 48 bits that a record holds of it.
        let held = offset & LAST_OFFSET;
        written(runs, held)?;
        for start in STARTS {
            exported(runs, start, held)?;
            ascii(runs, start, offset)?;
        }
    }
    longest_row(runs)
}

fn offsets() -> BTreeSet<u64> {
    let tens = (0..20).map(|power| 10_u64.pow(power));
    let twos = (0..64).map(|power| 1 << power);
    let around =
        |power: u64| AROUND.map(|steps| [power.saturating_sub(steps), power.saturating_add(steps)]);
    tens.chain(twos).flat_map(around).flatten().collect()
}

/// A frame that any line and row can spell, without letters.
fn frame(bus: u64, offset: u64) -> Fields {
    [offset, bus, 1, 0, 0x123, 0, 0]
}

/// A trace whose second row has the offset. What is read is written and exported, too.
fn rows(runs: &mut Runs, version: u64, offset: u64) -> Checked {
    let bus = if version == 11 { 0 } else { 16 };
    let rows = [0, offset, 0].map(|offset| frame(bus, offset));
    let spelled = spelled(runs, version, rows.to_vec(), 1);
    let known = (spelled.answer(), &*spelled.records());
    runs.read("read: offset limits", &spelled.text, Some(known))?;
    Ok(())
}

/// The row explained: whole, up to the offset, and with a digit more.
fn lines(runs: &mut Runs, version: u64, offset: u64) -> Checked {
    let (row, begun) = match offset <= LAST_OFFSET {
        true => (ROW, EARLY),
        false => (WRONG, WRONG),
    };
    let text = offset_text(version, offset);
    let rest = if version == 11 { "" } else { " 16" }.to_string() + " Rx 0123 0";
    for (line, known) in [
        (format!("7) {text}{rest}"), row),
        (format!("7) {text}"), begun),
        (format!("7) 0{text}{rest}"), WRONG),
    ] {
        let (kind, number) = ("explain: offset limits", runs.random.pick(&[7, 0]));
        runs.explain(kind, line.as_bytes(), version as u32, number, Some(known))?;
    }
    Ok(())
}

/// Fields with the offset are packed, and a record with as much of it as it holds is unpacked.
fn fields(runs: &mut Runs, offset: u64) -> Checked {
    let mark = runs.random.pick(&[0, 1]);
    let mut fields = [offset, 16, 3, 1, 0x1FFF_FFFF, 8, 0, mark];
    let [number, _] = runs.pack("pack: offset limits", &fields)?;
    let good = (number == 23) == (offset > LAST_OFFSET);
    must(good, "23 is given below the limit, or not past it", offset)?;
    let record = packed(&fields);
    fields[0] &= LAST_OFFSET;
    let answer = runs.unpack("unpack: offset limits", &record)?;
    let good = answer[..2] == [0, 0] && answer[2..] == fields;
    must(good, "the record has another offset", offset)
}

/// Records with the offset are written; in version 1.1 that must be whole tenths.
fn written(runs: &mut Runs, offset: u64) -> Checked {
    let tenths = offset.is_multiple_of(100);
    for (version, bus, number) in [(11, 0, if tenths { 0 } else { 24 }), (12, 16, 0)] {
        let record = packed_all(&[frame(bus, offset)]);
        let kind = "write: offset limits";
        let answer = runs.write(kind, version, LAST_START, LAST_NUMBER, &record)?;
        expect("a record written", number, number.min(1), &answer)?;
    }
    Ok(())
}

/// The export of a record, on bus 0 and on another.
fn exported(runs: &mut Runs, start: u64, offset: u64) -> Checked {
    for bus in [0, 16] {
        let channel = good_channel(&mut runs.random);
        let record = packed_all(&[frame(bus, offset)]);
        runs.export("export: offset limits", start, channel, &record, true)?;
    }
    Ok(())
}

/// A line of ASCII so far from the start, which is cut off the first line's stamp.
fn ascii(runs: &mut Runs, start: u64, offset: u64) -> Checked {
    let first = start * 10 + runs.random.below(10) as u64;
    let stamps = [first, start * 10 + offset / 100];
    let lines = stamps.map(|stamp| Line::new(&mut runs.random, stamp as i64));
    let text = text_of(&mut runs.random, lines.to_vec());
    runs.read_ascii("ascii: offset limits", &text.text, Some(&text.known()))?;
    Ok(())
}

/// The longest first lines and the longest row. When they are written there is just as much room as the crate says is enough.
fn longest_row(runs: &mut Runs) -> Checked {
    let head = ";$FILEVERSION=1.2\r\n;$STARTTIME=99999.9999999884\r\n";
    let text = format!("{head}{LONGEST_ROW}\r\n");
    let record = packed_all(&[[LAST_OFFSET, 16, 1, 1, 0x1FFF_FFFF, 8, u64::MAX]]);
    let answer = [0, 0, 12, LAST_START, 1, 0, LAST_NUMBER];
    let known = Some((answer, &*record));
    runs.read("read: offset limits", text.as_bytes(), known)?;
    Ok(())
}

fn must(good: bool, what: &str, offset: u64) -> Checked {
    match good {
        true => Ok(()),
        false => Err(Difference {
            what: format!("library and expert agree, but: {what}"),
            input: format!("offset {offset}"),
        }),
    }
}
