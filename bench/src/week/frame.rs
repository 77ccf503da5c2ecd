//! Frames at random: mostly those of engine, dosing and brakes on J1939, some of controllers with standard IDs, few of all else.

use crate::inputs::random::Random;

#[derive(Clone, Copy, Debug, PartialEq, Eq)]
pub enum What {
    Data,
    Remote,
    Warning,
    Error,
}

#[derive(Clone, Copy)]
pub struct Frame {
    pub what: What,
    pub sent: bool,
    pub extended: bool,
    pub id: u32,
    pub length: usize,
    /// The first byte is the highest; those past the length are any.
    pub data: u64,
}

/// IDs of J1939, and the bytes of each that are not used, which are FF.
const J1939: [(u32, u64); 20] = [
    (0x0CF0_0300, 0xFF_FFFF),
    (0x0CF0_0400, 0),
    (0x0CF0_0400, 0),
    (0x0CF0_0400, 0),
    (0x0CF0_0203, 0xFF),
    (0x0CFE_6CEE, 0),
    (0x18F0_000F, 0xFF_FFFF),
    (0x18F0_010B, 0),
    (0x18F0_0E51, 0xFFFF),
    (0x18F0_0F52, 0xFFFF),
    (0x18FD_7C00, 0xFF_FFFF),
    (0x18FE_BF0B, 0),
    (0x18FE_CA00, 0xFFFF),
    (0x18FE_DF00, 0xFF_FFFF_FFFF),
    (0x18FE_EE00, 0xFFFF),
    (0x18FE_EF00, 0),
    (0x18FE_F100, 0),
    (0x18FE_F200, 0xFF),
    (0x18FE_F600, 0xFFFF),
    (0x18FE_F700, 0xFFFF),
];
/// The request of a parameter group, of three bytes.
const REQUEST: u32 = 0x18EA_FFF9;
const STANDARD: [u32; 6] = [0x072, 0x1D8, 0x250, 0x3A1, 0x3A2, 0x751];
/// What the controller with the first of the standard IDs asks for.
const ASKED: u32 = 0x1D8;

impl Frame {
    pub fn new(random: &mut Random, asks: bool) -> Frame {
        let sent = random.once_in(16);
        match random.below(10_000) {
            0..=4 => warning(random),
            5..=7 => error(random),
            8..=57 if asks => remote(sent),
            8..=357 => data(sent, true, REQUEST, 3, random.number()),
            358..=1157 => {
                let length = random.pick(&[0, 2, 4, 4, 8, 8, 8, 8]);
                data(sent, false, random.pick(&STANDARD), length, random.number())
            }
            _ => {
                let (id, unused) = random.pick(&J1939);
                data(sent, true, id, 8, random.number() | unused)
            }
        }
    }
}

fn data(sent: bool, extended: bool, id: u32, length: usize, data: u64) -> Frame {
    Frame {
        what: What::Data,
        sent,
        extended,
        id,
        length,
        data,
    }
}

fn remote(sent: bool) -> Frame {
    Frame {
        what: What::Remote,
        ..data(sent, false, ASKED, 3, 0)
    }
}

/// An error counter reached one of its limits.
fn warning(random: &mut Random) -> Frame {
    Frame {
        what: What::Warning,
        ..data(false, true, u32::MAX, 4, random.pick(&[4, 4, 8]) << 32)
    }
}

/// One of the four types, while receiving, inside the data field or behind it.
fn error(random: &mut Random) -> Frame {
    let position = random.pick(&[10, 10, 8, 25]);
    let bytes = 1 << 24 | position << 16 | (random.below(96) << 8) as u64;
    Frame {
        what: What::Error,
        ..data(false, false, random.pick(&[1, 2, 4, 8]), 4, bytes << 32)
    }
}
