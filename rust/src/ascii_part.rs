//! The parts of a line of Telemotive ASCII.

use crate::words;
use std::fmt;

/// A part of a line of Telemotive ASCII, by what may stand in it. It is shown by its name.
///
/// ```
/// use bushingowl::AsciiPart;
/// assert_eq!(AsciiPart::Type.to_string(), "message type");
/// assert_eq!(AsciiPart::Data { byte: 3, of: 4 }.to_string(), "data byte 3 of 4");
/// ```
#[derive(Clone, Copy, Debug, PartialEq, Eq, Hash)]
#[non_exhaustive]
pub enum AsciiPart {
    Date,
    Time,
    /// `CAN` or `CANExt`.
    Type,
    /// `#` and the number.
    Channel,
    /// `|`.
    Bar,
    /// The word `EXTENDED`, behind `CANExt` only.
    Extended,
    /// `Rx` or `Tx`.
    Direction,
    /// Extended behind `CANExt`.
    Id {
        extended: bool,
    },
    Length,
    /// A data byte, from 1, of so many.
    Data {
        byte: u8,
        of: u8,
    },
}

impl AsciiPart {
    /// What comes next behind these parts, with which some line begins; nothing behind the last.
    pub(crate) fn behind(parts: &[&[u8]]) -> Option<AsciiPart> {
        use AsciiPart::{Bar, Channel, Date, Direction, Extended, Id, Length, Time, Type};
        #[rustfmt::skip]
        let head: &[AsciiPart] = match parts {
            [_, _, b"CANExt", ..] => &[
                Date, Time, Type, Channel, Bar, Extended, Direction, Id { extended: true }, Length,
            ],
            _ => &[Date, Time, Type, Channel, Bar, Direction, Id { extended: false }, Length],
        };
        if let Some(part) = head.get(parts.len()) {
            return Some(*part);
        }
        let (head, data) = parts.split_at(head.len());
        let of = match head {
            [.., [digit @ b'0'..=b'8']] => digit - b'0',
            _ => 0,
        };
        (data.len() < of.into()).then(|| AsciiPart::Data {
            byte: data.len() as u8 + 1,
            of,
        })
    }

    /// One that is good there.
    pub(crate) fn good(self) -> &'static [u8] {
        match self {
            AsciiPart::Date => b"30.12.1899",
            AsciiPart::Time => b"00:00:00.0000",
            AsciiPart::Type => b"CAN",
            AsciiPart::Channel => b"#1",
            AsciiPart::Bar => b"|",
            AsciiPart::Extended => b"EXTENDED",
            AsciiPart::Direction => b"Rx",
            AsciiPart::Id { extended: false } => b"000",
            AsciiPart::Id { extended: true } => b"00000000",
            AsciiPart::Length => b"0",
            AsciiPart::Data { .. } => b"00",
        }
    }
}

impl fmt::Display for AsciiPart {
    fn fmt(&self, f: &mut fmt::Formatter) -> fmt::Result {
        f.write_str(&match self {
            AsciiPart::Date => words::part_date(),
            AsciiPart::Time => words::part_time(),
            AsciiPart::Type => words::part_type(),
            AsciiPart::Channel => words::part_channel(),
            AsciiPart::Bar => words::part_bar(),
            AsciiPart::Extended => words::part_extended(),
            AsciiPart::Direction => words::part_direction(),
            AsciiPart::Id { .. } => words::part_id(),
            AsciiPart::Length => words::part_length(),
            AsciiPart::Data { byte, of } => words::part_data(byte, of),
        })
    }
}
