//! The marks of a list: how many are set, and setting them where it is built from copied records.

use crate::{pack, record_count, unpack, Reason, Record, Refused, RECORD};

/// Sets the mark of every record of a list, whatever it was: `false` for the first, and for each other whether its offset
/// is below that of the record before it ([`Record::mark`]). So [`write()`](crate::write()) and
/// [`export`](crate::export) take a list of copied records, or one that was packed before there were marks. Nothing else
/// of a record changes, and a list as [`read`](crate::read) or [`read_ascii`](crate::read_ascii) gave it stays the same.
///
/// Refused with the numbers 20 and 23: with 20 if the bytes are no multiple of [`RECORD`] or more than
/// [`MOST_ROWS`](crate::MOST_ROWS) records, then with 23 at the first record that is not well formed by itself. Refused, all
/// bytes are as they were.
///
/// It is not proved itself; all that it takes from a record and puts there goes through the proved functions behind
/// [`unpack`] and [`pack`].
///
/// ```
/// use bushingowl::{mark_steps, read_to_vec, Reason, Refused, RECORD};
/// let text = b";$FILEVERSION=1.2\r\n;$STARTTIME=36585.5\r\n\
///     1) 0.000 1 Rx 0123 0\r\n2) 1500.250 1 Rx 0124 0\r\n3) 1500.249 1 Rx 0125 0\r\n";
/// let (trace, records) = read_to_vec(text)?;
/// assert_eq!(trace.step_back, Some(3));
/// // Rows 3, 2 and 1. The marks are those of the old order: row 3 has one, and stands first.
/// let mut copied: Vec<u8> = records.chunks(RECORD).rev().flatten().copied().collect();
/// let refused = Refused { reason: Reason::NotWellFormed, place: 1 };
/// assert_eq!(trace.write_to_vec(&copied), Err(refused));
/// mark_steps(&mut copied)?;
/// let written = trace.write_to_vec(&copied)?;
/// assert!(written.ends_with(b"\r\n1) 1500.249 1 Rx 0125 0\r\n2) 1500.250 1 Rx 0124 0\r\n3) 0.000 1 Rx 0123 0\r\n"));
/// assert_eq!(read_to_vec(&written)?.1, copied);
/// # Ok::<(), Refused>(())
/// ```
pub fn mark_steps(records: &mut [u8]) -> Result<(), Refused> {
    if records.len() != record_count(records) * RECORD {
        let reason = Reason::NoRecords;
        return Err(Refused { reason, place: 0 });
    }
    for (record, place) in records.chunks(RECORD).zip(1..) {
        unpack(record).map_err(|refused| Refused { place, ..refused })?;
    }
    let mut before = 0;
    for packed in records.chunks_mut(RECORD) {
        let record = unpack(packed)?;
        let mark = record.offset < before;
        pack(&Record { mark, ..record }, packed)?;
        before = record.offset;
    }
    Ok(())
}

/// The bit of a record's last byte that is its mark.
const MARK: u8 = 32;

/// How many records of a list have their mark set ([`Record::mark`]): in a list that was read, how many steps back it has.
///
/// It takes any bytes, and looks at nothing but the marks. Those behind the last whole record do not count.
///
/// ```
/// use bushingowl::{count_steps, read_to_vec, RECORD};
/// let text = b";$FILEVERSION=1.1\r\n;$STARTTIME=36585.5\r\n\
///     1) 2.5 Rx 0123 0\r\n2) 2.4 Rx 0124 0\r\n3) 2.4 Rx 0125 0\r\n4) 0.0 Rx 0126 0\r\n";
/// let (trace, records) = read_to_vec(text)?;
/// assert_eq!(trace.step_back, Some(2));
/// assert_eq!(count_steps(&records), 2);
/// assert_eq!(count_steps(&records[..4 * RECORD - 1]), 1);
/// # Ok::<(), bushingowl::Refused>(())
/// ```
pub fn count_steps(records: &[u8]) -> usize {
    let records = records.chunks_exact(RECORD);
    records
        .filter(|record| record[RECORD - 1] & MARK != 0)
        .count()
}
