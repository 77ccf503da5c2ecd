//! The packed record.

use super::RECORD;

/// The largest offset in microseconds, which fills its 48 bits.
pub const LAST_OFFSET: u64 = 281_474_976_710_655;
/// The most digits of an offset before its point, where it counts milliseconds.
pub const OFFSET_DIGITS: usize = (LAST_OFFSET / 1000).ilog10() as usize + 1;
/// The kinds from 2 on: remote frames received and sent, then what is no frame.
pub const REMOTE: u64 = 2;
pub const WARNING: u64 = 4;
pub const ERROR: u64 = 5;

pub const STANDARD_IDS: u64 = 0x7FF;
pub const EXTENDED_IDS: u64 = 0x1FFF_FFFF;

#[derive(Default)]
pub struct Fields {
    pub offset: u64,
    pub bus: u64,
    pub kind: u64,
    pub extended: u64,
    pub id: u64,
    pub length: u64,
    /// The first data byte is the most significant.
    pub data: u64,
    /// Whether the offset is below that of the record before.
    pub mark: u64,
}

impl Fields {
    /// The fields as they stand in a record, judged or not.
    #[inline(always)]
    pub fn load(record: &[u8; RECORD]) -> Self {
        let [head, middle, end] = words(record);
        Fields {
            offset: head >> 16,
            bus: head >> 11 & 31,
            kind: head >> 8 & 7,
            extended: head >> 7 & 1,
            id: (head & 0x7F) << 22 | middle >> 42,
            length: middle >> 38 & 15,
            data: middle << 26 | end >> 6,
            mark: end >> 5 & 1,
        }
    }

    /// The fields of a record that is well formed by itself, whichever mark it has.
    #[inline(always)]
    pub fn judge(record: &[u8; RECORD]) -> Option<Self> {
        let fields = Self::load(record);
        (record[RECORD - 1] & 31 == 0 && fields.well_formed()).then_some(fields)
    }

    /// Packs well formed fields.
    #[inline(always)]
    pub fn store(&self, record: &mut [u8; RECORD]) {
        let head = self.offset << 16
            | self.bus << 11
            | self.kind << 8
            | self.extended << 7
            | self.id >> 22;
        let middle = self.id << 42 | self.length << 38 | self.data >> 26;
        let end = (self.data << 6 | self.mark << 5) as u32;
        record[..8].copy_from_slice(&head.to_be_bytes());
        record[8..16].copy_from_slice(&middle.to_be_bytes());
        record[16..].copy_from_slice(&end.to_be_bytes());
    }

    /// Whether every field is within the rules; the fields may have any values.
    #[inline(always)]
    fn well_formed(&self) -> bool {
        let shared = (self.offset <= LAST_OFFSET)
            & (self.bus <= 16)
            & (self.extended <= 1)
            & (self.length <= 8)
            & (self.mark <= 1)
            & (self.data & past(self.length) == 0);
        let ids = [STANDARD_IDS, EXTENDED_IDS][(self.extended & 1) as usize];
        shared
            && match self.kind {
                0 | 1 => self.id <= ids,
                2 | 3 => self.id <= ids && self.data == 0,
                WARNING => self.extended == 0 && self.id == 0 && self.length == 4,
                ERROR => self.extended == 0 && self.length == 4 && error(self.id, self.data),
                _ => false,
            }
    }
}

/// The record in three parts, each most significant byte first.
#[inline(always)]
fn words(record: &[u8; RECORD]) -> [u64; 3] {
    let [a, b, c, d, e, f, g, h, i, j, k, l, m, n, o, p, q, r, s, t] = *record;
    [
        u64::from_be_bytes([a, b, c, d, e, f, g, h]),
        u64::from_be_bytes([i, j, k, l, m, n, o, p]),
        u64::from(u32::from_be_bytes([q, r, s, t])),
    ]
}

/// The bits of the data bytes past a length.
#[inline(always)]
fn past(length: u64) -> u64 {
    if length < 8 {
        u64::MAX >> (8 * length)
    } else {
        0
    }
}

/// Whether an error frame can have this ID and these data.
pub fn error(id: u64, data: u64) -> bool {
    let [direction, position, ..] = data.to_be_bytes();
    matches!(id, 1 | 2 | 4 | 8) && direction <= 1 && matches!(position, 2..=15 | 17..=19 | 23..=28)
}

pub fn unpack(record: &[u8]) -> [u64; 10] {
    let Ok(record) = record.try_into() else {
        return [20, 0, 0, 0, 0, 0, 0, 0, 0, 0];
    };
    match Fields::judge(record) {
        None => [23, 1, 0, 0, 0, 0, 0, 0, 0, 0],
        Some(f) => [
            0, 0, f.offset, f.bus, f.kind, f.extended, f.id, f.length, f.data, f.mark,
        ],
    }
}

pub fn pack(fields: &[u64; 8], out: &mut [u8]) -> [u64; 2] {
    let [offset, bus, kind, extended, id, length, data, mark] = *fields;
    let fields = Fields {
        offset,
        bus,
        kind,
        extended,
        id,
        length,
        data,
        mark,
    };
    if !fields.well_formed() {
        return [23, 1];
    }
    match out.first_chunk_mut() {
        None => [25, 0],
        Some(record) => {
            fields.store(record);
            [0, 0]
        }
    }
}
