//! Records at random, as fields and packed.

use super::marks::true_marks;
use super::random::Random;
use super::LAST_OFFSET;
use std::iter::zip;

/// What a row or a line spells: offset, bus, kind, extended, ID, length, data.
pub type Fields = [u64; 7];
/// What a packed record holds: these, and its mark.
pub type Marked = [u64; 8];

const POSITIONS: [u64; 23] = [
    2, 3, 4, 5, 6, 7, 8, 9, 10, 11, 12, 13, 14, 15, 17, 18, 19, 23, 24, 25, 26, 27, 28,
];
/// The bits of each field, in the order in which they are packed. Five zero bits follow.
const WIDTHS: [u32; 8] = [48, 5, 3, 1, 29, 4, 64, 1];

/// A well formed record that the version can carry.
pub fn record(random: &mut Random, version: u64) -> Fields {
    let offset = offset(random, version);
    let bus = match version {
        11 => 0,
        _ => random.pick(&[1, 2, 3, 4, 5, 6, 7, 8, 9, 10, 11, 12, 13, 14, 15, 16]),
    };
    let [kind, extended, id, length, data] = match random.pick(&[0, 0, 0, 1, 1, 2, 3, 4, 5]) {
        4 => [4, 0, 0, 4, random.number() << 32],
        5 => error(random),
        kind => frame(random, kind),
    };
    [offset, bus, kind, extended, id, length, data]
}

/// Around powers of ten, of which the greatest was the limit before Order 5, and of two, at the limit, and any.
pub fn offset(random: &mut Random, version: u64) -> u64 {
    let power = match random.once_in(3) {
        true => 1 << random.between(30, 48),
        false => 10_u64.pow(random.between(1, 14) as u32),
    };
    let near = (power + random.below(3000) as u64).saturating_sub(1500);
    let any = random.number() % power;
    let offset = random.pick(&[0, any, any, any, near, LAST_OFFSET, LAST_OFFSET - 99]);
    let offset = offset.min(LAST_OFFSET);
    match version {
        11 => offset - offset % 100,
        _ => offset,
    }
}

/// An offset past the largest, as a row of the version spells it: often the first one, or one on either side of thirteen digits.
pub fn past_offset(random: &mut Random, version: u64) -> u64 {
    let first = LAST_OFFSET + 1;
    let near = first + random.below(2000) as u64;
    let digits = 10_u64.pow(15);
    let any = random.number() >> 1;
    let offset = random.pick(&[
        first,
        first,
        near,
        digits - 1,
        digits,
        first + any % (digits - first),
        first | any,
    ]);
    match version {
        11 => offset.next_multiple_of(100),
        _ => offset,
    }
}

/// What follows the bus of a data or remote frame.
pub fn frame(random: &mut Random, kind: u64) -> [u64; 5] {
    let extended = random.pick(&[0, 1]);
    let last = [0x7FF, 0x1FFF_FFFF][extended as usize];
    let any = random.number() & last;
    let id = random.pick(&[any, any, any, 0, 1, last, 0x7FF]);
    let length = random.pick(&[0, 1, 2, 3, 4, 5, 6, 7, 8, 8, 8, 8]);
    let data = match (kind, length) {
        (2.., _) | (_, 0) => 0,
        _ => random.number() >> (64 - 8 * length) << (64 - 8 * length),
    };
    [kind, extended, id, length, data]
}

fn error(random: &mut Random) -> [u64; 5] {
    let direction = random.pick(&[0, 1]);
    let position = random.pick(&POSITIONS);
    let counters = random.number() & 0xFFFF;
    let data = (direction << 24 | position << 16 | counters) << 32;
    [5, 0, random.pick(&[1, 2, 4, 8]), 4, data]
}

/// The fields of a record with a mark.
pub fn marked(fields: &Fields, mark: u64) -> Marked {
    let [offset, bus, kind, extended, id, length, data] = *fields;
    [offset, bus, kind, extended, id, length, data, mark]
}

/// Packs fields bit by bit; what does not fit is cut off.
pub fn packed(fields: &Marked) -> [u8; 20] {
    let mut record = [0; 20];
    let mut at = 0;
    for (value, width) in fields.iter().zip(WIDTHS) {
        for bit in (0..width).rev() {
            record[at / 8] |= ((value >> bit & 1) as u8) << (7 - at % 8);
            at += 1;
        }
    }
    record
}

/// Takes a record apart bit by bit; the last five bits are left out.
pub fn unpacked(record: &[u8; 20]) -> Marked {
    let mut at = 0;
    WIDTHS.map(|width| {
        let mut value = 0;
        for _ in 0..width {
            value = value << 1 | u64::from(record[at / 8] >> (7 - at % 8) & 1);
            at += 1;
        }
        value
    })
}

/// A list of records, packed one after the other, each with the mark that it must have.
pub fn packed_all(rows: &[Fields]) -> Vec<u8> {
    let records = zip(rows, true_marks(rows)).map(|(row, mark)| marked(row, mark));
    records.flat_map(|record| packed(&record)).collect()
}

/// Fields of which one is past its limit, huge or otherwise changed.
pub fn changed(random: &mut Random, mut fields: Marked) -> Marked {
    let at = random.below(fields.len());
    let old = fields[at];
    let limits = [LAST_OFFSET, 17, 0x800, 0x2000_0000, 1 << 47, u64::MAX, 9];
    fields[at] = match random.below(7) {
        0 => old.wrapping_add(1),
        1 => old.wrapping_sub(1),
        2 => old ^ 1 << random.below(64),
        3 => random.pick(&limits),
        4 => random.below(20) as u64,
        5 => past_offset(random, 12),
        _ => random.number(),
    };
    fields
}
