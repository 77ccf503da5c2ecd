//! Each channel with each bus, form and kind, and each refusal of an export with each other; each channel in a line of ASCII.

use super::runs::Runs;
use super::Checked;
use crate::inputs::ascii::{AsciiText, Line};
use crate::inputs::channels::channel_of;
use crate::inputs::records::packed_all;
use crate::inputs::{LAST_CHANNEL, LAST_START};
use bushingowl::MOST_LINE;
use std::collections::BTreeSet;

/// What follows the bus of a record, and its line up to the channel and behind it, if it gives one.
type Frame = ([u64; 5], Option<[&'static str; 2]>);

/// Every kind in every form that it has.
const FRAMES: [Frame; 10] = [
    (
        [0, 0, 0x123, 2, 0x0AFF << 48],
        Some(["CAN #", " | Rx 123 2 0a ff\r\n"]),
    ),
    ([1, 0, 0x7FF, 0, 0], Some(["CAN #", " | Tx 7ff 0\r\n"])),
    (
        [0, 1, 0x18AB_0001, 0, 0],
        Some(["CANExt #", " | EXTENDED Rx 18ab0001 0\r\n"]),
    ),
    (
        [1, 1, 0x123, 8, 0x1122_3344_5566_7788],
        Some([
            "CANExt #",
            " | EXTENDED Tx 00000123 8 11 22 33 44 55 66 77 88\r\n",
        ]),
    ),
    ([2, 0, 0x123, 8, 0], None),
    ([2, 1, 0x123, 0, 0], None),
    ([3, 0, 0x7FF, 0, 0], None),
    ([3, 1, 0x1FFF_FFFF, 8, 0], None),
    ([4, 0, 0, 4, 8 << 32], None),
    ([5, 0, 8, 4, 0x011C_0000 << 32], None),
];
/// A frame on a bus that no record may have.
const NO_BUS: (u64, Frame) = (LAST_CHANNEL + 1, FRAMES[0]);
/// Starts on both sides of the limit, and the stamps of the first two.
const STARTS: [(u64, &str); 5] = [
    (0, "30.12.1899 00:00:00.0000"),
    (LAST_START, "13.10.2173 23:59:59.9990"),
    (LAST_START + 1, ""),
    (1 << 43, ""),
    (u64::MAX, ""),
];

pub fn channels(runs: &mut Runs) -> Checked {
    let buses = 0..=LAST_CHANNEL;
    let all: Vec<_> = buses
        .flat_map(|bus| FRAMES.map(|frame| (bus, frame)))
        .collect();
    for channel in some_channels() {
        for bus in (0..=LAST_CHANNEL + 1).chain([31]) {
            for frame in FRAMES {
                let start = runs.random.pick(&STARTS[..2]);
                export(runs, start, channel, &[(bus, frame)])?;
            }
        }
        for start in STARTS {
            export(runs, start, channel, &[])?;
            export(runs, start, channel, &[NO_BUS])?;
            export(runs, start, channel, &all)?;
            for at in [0, 1, all.len() / 2, all.len()] {
                let (before, after) = all.split_at(at);
                let list = [before, &[NO_BUS], after, &[NO_BUS]].concat();
                export(runs, start, channel, &list)?;
            }
        }
    }
    lines(runs)
}

/// All up to some more than there are, and some around each power of two, of which the lower bits are often a channel.
fn some_channels() -> BTreeSet<u64> {
    let powers = (0..64).map(|power| 1_u64 << power);
    let around = powers.flat_map(|power| [power - 1, power, power | 1, power | 16]);
    around.chain(0..=20).chain([u64::MAX]).collect()
}

/// Exports frames, each on its bus: into just enough room, one byte less, none and more, and with a byte of the records too many and too few.
fn export(
    runs: &mut Runs,
    (start, stamp): (u64, &str),
    channel: u64,
    frames: &[(u64, Frame)],
) -> Checked {
    let (mut rows, mut back) = (Vec::new(), Vec::new());
    let (mut text, mut lines) = (String::new(), 0);
    for &(bus, ([kind, extended, id, length, data], line)) in frames {
        let on = |bus| [0, bus, kind, extended, id, length, data];
        rows.push(on(bus));
        if let Some([before, behind]) = line {
            let channel = channel_of(bus, channel);
            text += &format!("{stamp} {before}{channel}{behind}");
            lines += 1;
            back.push(on(channel));
        }
    }
    let mut records = packed_all(&rows);
    let no_bus = frames.iter().position(|&(bus, _)| bus > LAST_CHANNEL);
    let needed = text.len();
    let left_out = frames.len() as u64 - lines;
    let (answer, text) = if start > LAST_START {
        ([22, 0, 0, 0, 0], "")
    } else if channel > LAST_CHANNEL {
        ([35, 0, 0, 0, 0], "")
    } else if let Some(before) = no_bus {
        ([23, before as u64 + 1, 0, 0, 0], "")
    } else {
        ([0, 0, needed as u64, lines, left_out], &*text)
    };
    let kind = "export: channels";
    let known = (answer, text.as_bytes().to_vec());
    for room in [needed, needed.saturating_sub(1), 0, needed + MOST_LINE] {
        runs.export_into(kind, start, channel, &records, room, &known)?;
    }
    if answer[0] == 0 {
        // What is read back is on the bus of its channel.
        let known = ([0, 0, start * lines.min(1), lines], packed_all(&back));
        runs.read_ascii("ascii: channels", text.as_bytes(), Some(&known))?;
    }
    let known = ([20, 0, 0, 0, 0], Vec::new());
    records.push(0);
    runs.export_into(kind, start, channel, &records, needed, &known)?;
    if !frames.is_empty() {
        records.truncate(records.len() - 2);
        runs.export_into(kind, start, channel, &records, needed, &known)?;
    }
    Ok(())
}

/// Each number below 2,000 as the channel of lines in both forms, with up to three zeros before it.
fn lines(runs: &mut Runs) -> Checked {
    for number in 0..2000 {
        for zeros in ["", "0", "00", "000"] {
            let good = zeros.is_empty() && number <= LAST_CHANNEL;
            let mut all = AsciiText::default();
            for ([kind, extended, id, length, data], line) in FRAMES {
                let Some([before, behind]) = line else {
                    continue;
                };
                let line = format!("{} {before}{zeros}{number}{behind}", STARTS[0].1);
                let fields = [0, number, kind, extended, id, length, data];
                let meant = good.then_some(Line { stamp: 0, fields });
                let mut alone = AsciiText::default();
                for text in [&mut alone, &mut all] {
                    text.push(line.as_bytes(), meant.clone());
                }
                runs.read_ascii("ascii: channels", &alone.text, Some(&alone.known()))?;
            }
            runs.read_ascii("ascii: channels", &all.text, Some(&all.known()))?;
        }
    }
    Ok(())
}
