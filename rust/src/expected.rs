//! What may stand in a place, in words.

use crate::{words, AsciiFault, AsciiPart, Column, LINE_LIMIT, MOST_OFFSET};

/// What may stand in a column of a row of this version. The number is the one that it must have, or 0 for any; the type is
/// looked at in the columns behind it.
pub(crate) fn in_column(column: Column, version: u32, number: u64, kind: &[u8]) -> String {
    match (column, kind) {
        (Column::Number, _) if number == 0 => words::in_number_any(words::any_number()),
        (Column::Number, _) => words::in_number(number),
        (Column::Offset, _) if version == 11 => words::in_offset_11(),
        (Column::Offset, _) => words::in_offset_12(),
        (Column::Bus, _) => words::in_bus(),
        (Column::Type, _) => words::in_type(),
        (Column::Id, b"Warng") => words::in_id_of_warning(),
        (Column::Id, b"Error") => words::in_id_of_error(),
        (Column::Id, _) => words::in_id(),
        (Column::Length, b"Warng" | b"Error") => words::in_length_four(),
        (Column::Length, _) => words::in_length(),
        (Column::FirstOrRemote { of: 0 }, _) => words::in_remote_or_nothing(),
        (Column::FirstOrRemote { .. }, _) => {
            words::in_remote_or_data(column.taken(), words::any_byte())
        }
        (Column::Data { byte, .. }, b"Error") => words::in_data(column, in_error_frame(byte)),
        (Column::Data { .. }, _) => words::in_data(column, words::any_byte()),
        (Column::Word, _) => words::in_word(),
        (Column::End, _) => words::in_end(),
    }
}

/// What may stand in a data byte of an error frame, from 1.
fn in_error_frame(byte: u8) -> String {
    match byte {
        1 => words::error_direction(),
        2 => words::error_position(),
        _ => words::error_counter(),
    }
}

/// What may stand in a line of Telemotive ASCII in place of what is wrong.
pub(crate) fn instead_of(fault: AsciiFault) -> String {
    match fault {
        AsciiFault::NotEnded => words::instead_of_no_end(),
        AsciiFault::TooLong => words::instead_of_too_long(LINE_LIMIT),
        AsciiFault::WrongPart { part, .. } => in_part(part),
        AsciiFault::EndedEarly { next, .. } => in_part(next),
        AsciiFault::Empty => in_part(AsciiPart::Date),
        AsciiFault::BlankBefore => words::instead_of_blank_before(),
        AsciiFault::BlankBehind | AsciiFault::OneTooMany { .. } => words::instead_of_blank_behind(),
        AsciiFault::BeforeStart => words::instead_of_before_start(),
        AsciiFault::TooFarBehindStart => words::instead_of_too_far(MOST_OFFSET),
    }
}

/// What may stand in a part of a line of Telemotive ASCII.
fn in_part(part: AsciiPart) -> String {
    match part {
        AsciiPart::Date => words::in_part_date(),
        AsciiPart::Time => words::in_part_time(),
        AsciiPart::Type => words::in_part_type(),
        AsciiPart::Channel => words::in_part_channel(),
        AsciiPart::Bar => words::in_part_bar(),
        AsciiPart::Extended => words::in_part_extended(),
        AsciiPart::Direction => words::in_part_direction(),
        AsciiPart::Id { extended: false } => words::in_part_id(),
        AsciiPart::Id { extended: true } => words::in_part_id_extended(),
        AsciiPart::Length => words::in_part_length(),
        AsciiPart::Data { .. } => words::in_part_data(part, words::any_byte()),
    }
}
