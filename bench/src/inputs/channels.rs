//! The channel that an export is given for bus 0, and what an export must give.

use super::ascii::Line;
use super::random::Random;
use super::records::unpacked;
use super::{LAST_CHANNEL, LAST_START, RECORD};

/// The most bytes of a list of records.
const MOST_RECORDS: usize = 999_999 * RECORD;
/// Channels that there are not: the first ones, some whose lower 5, 8, 16 or 32 bits are a channel, and the last.
const NO_CHANNELS: [u64; 14] = [
    17,
    18,
    20,
    31,
    32,
    33,
    255,
    256,
    257,
    1 << 16 | 16,
    1 << 32,
    1 << 32 | 1,
    1 << 63,
    u64::MAX,
];

/// The answer of an export, and the lines.
pub type Exported = ([u64; 5], Vec<u8>);

/// A channel that there is.
pub fn good_channel(random: &mut Random) -> u64 {
    let any = random.between(0, LAST_CHANNEL as usize) as u64;
    random.pick(&[0, 1, LAST_CHANNEL, any, any, any])
}

/// Any channel, mostly one that there is.
pub fn any_channel(random: &mut Random) -> u64 {
    let good = good_channel(random);
    let past = random.pick(&NO_CHANNELS);
    random.pick(&[good, good, good, good, past, LAST_CHANNEL + 1])
}

/// The channel in the line of a bus, by that of bus 0.
pub fn channel_of(bus: u64, of_bus_0: u64) -> u64 {
    match bus {
        0 => of_bus_0,
        _ => bus,
    }
}

/// The number with which an export is refused whatever the records are.
pub fn refused(start: u64, channel: u64, records_len: usize) -> Option<u64> {
    if !records_len.is_multiple_of(RECORD) || records_len > MOST_RECORDS {
        Some(20)
    } else if start > LAST_START {
        Some(22)
    } else if channel > LAST_CHANNEL {
        Some(35)
    } else {
        None
    }
}

/// What an export of well formed records must answer and write, if there is room for it.
pub fn exported(start: u64, channel: u64, records: &[u8]) -> Exported {
    if let Some(number) = refused(start, channel, records.len()) {
        return ([number, 0, 0, 0, 0], Vec::new());
    }
    let (records, _) = records.as_chunks::<RECORD>();
    let (mut text, mut lines) = (String::new(), 0);
    for record in records {
        let [row @ .., _] = unpacked(record);
        if let Some(line) = Line::of_record(start, channel, &row) {
            text += &line.exported();
            lines += 1;
        }
    }
    let left_out = records.len() as u64 - lines;
    let answer = [0, 0, text.len() as u64, lines, left_out];
    (answer, text.into_bytes())
}
