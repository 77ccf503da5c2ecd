//! The columns of a row.

use crate::words;
use std::fmt;

/// A column of a row, by what may stand in it. It is shown by its name.
///
/// ```
/// use bushingowl::Column;
/// assert_eq!(Column::Data { byte: 3, of: 4 }.to_string(), "data byte 3 of 4");
/// assert_eq!(Column::FirstOrRemote { of: 2 }.to_string(), "RTR or data byte 1 of 2");
/// ```
#[derive(Clone, Copy, Debug, PartialEq, Eq, Hash)]
#[non_exhaustive]
pub enum Column {
    /// Row number and `)`.
    Number,
    Offset,
    /// In version 1.2 only.
    Bus,
    /// `Rx`, `Tx`, `Warng` or `Error`.
    Type,
    Id,
    Length,
    /// Behind the length of an `Rx` or `Tx`: the field `RTR`, or the first data byte of so many. Of none, `RTR` or nothing.
    FirstOrRemote {
        of: u8,
    },
    /// A data byte, from 1, of so many.
    Data {
        byte: u8,
        of: u8,
    },
    /// A word of a warning.
    Word,
    /// Behind the last field of a row.
    End,
}

impl Column {
    /// The columns that every row of this version has.
    fn head(version: u32) -> &'static [Column] {
        use Column::{Bus, Id, Length, Number, Offset, Type};
        match version {
            11 => &[Number, Offset, Type, Id, Length],
            _ => &[Number, Offset, Bus, Type, Id, Length],
        }
    }

    /// Which of these fields of a row is its type; empty where they end before.
    pub(crate) fn type_among<'a>(version: u32, fields: &[&'a [u8]]) -> &'a [u8] {
        let columns = Column::head(version).iter().zip(fields);
        let mut types = columns.filter(|(column, _)| **column == Column::Type);
        types.next().map_or(b"", |(_, field)| field)
    }

    /// What comes next behind these fields, with which some row of this version begins.
    pub(crate) fn behind(version: u32, fields: &[&[u8]]) -> Column {
        let head = Column::head(version);
        if let Some(column) = head.get(fields.len()) {
            return *column;
        }
        let (head, data) = fields.split_at(head.len());
        let [.., kind, _, length] = head else {
            return Column::End;
        };
        let of = length.first().map_or(0, |digit| digit.saturating_sub(b'0'));
        let frame = matches!(*kind, b"Rx" | b"Tx");
        match data {
            [] if frame => Column::FirstOrRemote { of },
            [b"RTR"] if frame => Column::End,
            _ if data.len() < of.into() => Column::Data {
                byte: data.len() as u8 + 1,
                of,
            },
            _ if *kind == b"Warng" => Column::Word,
            _ => Column::End,
        }
    }

    /// The column of a field that ended no row: `RTR` would have.
    pub(crate) fn taken(self) -> Column {
        match self {
            Column::FirstOrRemote { of } => Column::Data { byte: 1, of },
            other => other,
        }
    }
}

impl fmt::Display for Column {
    fn fmt(&self, f: &mut fmt::Formatter) -> fmt::Result {
        f.write_str(&match self {
            Column::Number => words::column_number(),
            Column::Offset => words::column_offset(),
            Column::Bus => words::column_bus(),
            Column::Type => words::column_type(),
            Column::Id => words::column_id(),
            Column::Length => words::column_length(),
            Column::FirstOrRemote { of: 0 } => words::column_remote_or_nothing(),
            Column::FirstOrRemote { of } => words::column_remote_or_data(of),
            Column::Data { byte, of } => words::column_data(byte, of),
            Column::Word => words::column_word(),
            Column::End => words::column_end(),
        })
    }
}
