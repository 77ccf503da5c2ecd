//! One row of a trace, read where it stands.

use super::cursor::{Cursor, Window, LONGEST, TOGETHER};
use super::record::{error, Fields, ERROR, EXTENDED_IDS, REMOTE, STANDARD_IDS, WARNING};
use super::record::{LAST_OFFSET, OFFSET_DIGITS};

/// Reads the row at the beginning of a window, and gives its number, its fields, of which the mark is not set, and the bytes it has with its
/// line end.
/// The expected number is 0 for a first row, which may have any.
/// The rows of version 1.2 are those with a bus. `JUDGED` says that the row was taken before.
#[inline(always)]
pub fn row<const JUDGED: bool>(
    window: &Window,
    expected: u64,
    with_bus: bool,
) -> Option<(u64, Fields, usize)> {
    let mut cursor = Cursor::<JUDGED>::new(window);
    cursor.blanks()?;
    let number = cursor.number(expected)?;
    cursor.gap()?;
    let (offset, bus) = match with_bus {
        true => (cursor.offset::<3>()?, cursor.bus()?),
        false => (cursor.offset::<1>()?, 0),
    };
    cursor.gap()?;
    // The cursor is given away and back, so that it need not lie in memory for the rare rows.
    let (fields, mut cursor) = match cursor.peek()? {
        b'W' => cursor.warning()?,
        b'E' => cursor.error()?,
        _ => cursor.frame()?,
    };
    cursor.end()?;
    let len = cursor.at();
    cursor.must(len <= LONGEST + 2)?;
    Some((
        number,
        Fields {
            offset,
            bus,
            ..fields
        },
        len,
    ))
}

impl<const JUDGED: bool> Cursor<'_, JUDGED> {
    /// The row number and `)`: the expected number, or for 0 any from 1 to 999,999, which are those of up to six digits.
    #[inline(always)]
    fn number(&mut self, expected: u64) -> Option<u64> {
        let number = self.decimal::<6>()?;
        self.must(number != 0 && (number == expected || expected == 0))?;
        self.text(b")")?;
        Some(number)
    }

    /// The offset in microseconds, with so many digits behind its point.
    #[inline(always)]
    fn offset<const PLACES: usize>(&mut self) -> Option<u64> {
        let whole = self.decimal::<OFFSET_DIGITS>()?;
        self.text(b".")?;
        let part = self.decimal_digits::<PLACES>()?;
        let offset = whole * 1000 + part * 10_u64.pow(3 - PLACES as u32);
        self.must(offset <= LAST_OFFSET)?;
        Some(offset)
    }

    /// A gap and the bus.
    #[inline(always)]
    fn bus(&mut self) -> Option<u64> {
        self.gap()?;
        let bus = self.decimal::<2>()?;
        self.must((1..=16).contains(&bus))?;
        Some(bus)
    }

    /// A data or remote frame, from `Rx` or `Tx` on.
    #[inline(always)]
    fn frame(mut self) -> Option<(Fields, Self)> {
        let sent = self.direction()?;
        self.gap()?;
        let (extended, id) = self.id()?;
        self.gap()?;
        let length = self.decimal_digits::<1>()?;
        self.must(length <= 8)?;
        let (remote, data) = self.remote_or_data(length)?;
        let fields = Fields {
            kind: sent + remote,
            extended,
            id,
            length,
            data,
            ..Fields::default()
        };
        Some((fields, self))
    }

    /// Whether it is sent: `Rx` or `Tx`.
    #[inline(always)]
    pub fn direction(&mut self) -> Option<u64> {
        let direction = self.take()?;
        self.must(matches!(direction, b"Rx" | b"Tx"))?;
        Some(u64::from(direction == b"Tx"))
    }

    /// Whether it is extended, and the ID: four digits up to 07FF or eight up to 1FFFFFFF.
    #[inline(always)]
    fn id(&mut self) -> Option<(u64, u64)> {
        let id = self.hex_pairs::<2>()?;
        if self.peek()? == b' ' {
            self.must(id <= STANDARD_IDS)?;
            return Some((0, id));
        }
        let id = id << 16 | self.hex_pairs::<2>()?;
        self.must(id <= EXTENDED_IDS)?;
        Some((1, id))
    }

    /// What follows the length: `RTR`, or so many bytes.
    #[inline(always)]
    fn remote_or_data(&mut self, length: u64) -> Option<(u64, u64)> {
        if self.peek()? != b' ' {
            self.must(length == 0)?;
            return Some((0, 0));
        }
        self.gap()?;
        if self.peek()? == b'R' {
            self.text(b"RTR")?;
            return Some((REMOTE, 0));
        }
        Some((0, self.data(length)?))
    }

    /// So many bytes with a gap between two, the first most significant. Mostly they are eight and end the line.
    #[inline(always)]
    fn data(&mut self, length: u64) -> Option<u64> {
        let ahead = self.ahead()?;
        if length == 8 && ahead[TOGETHER - 1] == b'\r' {
            self.eight_bytes(ahead)
        } else {
            self.bytes(length)
        }
    }

    /// Eight bytes up to the end of the line, where there is room for just one blank between two.
    #[inline(always)]
    pub fn eight_bytes(&mut self, bytes: &[u8; TOGETHER]) -> Option<u64> {
        let bytes = bytes.as_chunks::<3>().0;
        self.must(bytes[..7].iter().all(|[.., blank]| *blank == b' '))?;
        self.skip(TOGETHER - 1);
        self.hex(bytes.iter().map(|[first, last, _]| (first, last)))
    }

    /// So many bytes with gaps of any width.
    #[inline(always)]
    pub fn bytes(&mut self, length: u64) -> Option<u64> {
        let mut data = 0;
        for place in 1..=length {
            if place > 1 {
                self.gap()?;
            }
            data |= self.hex_pairs::<1>()? << (64 - 8 * place);
        }
        Some(data)
    }

    /// A gap, length 4 and the four bytes of a warning or an error frame.
    fn four_bytes(&mut self) -> Option<u64> {
        self.gap()?;
        self.text(b"4")?;
        self.gap()?;
        self.data(4)
    }

    #[cold]
    fn warning(mut self) -> Option<(Fields, Self)> {
        self.text(b"Warng")?;
        self.gap()?;
        let id = self.hex_pairs::<4>()?;
        self.must(id == 0xFFFF_FFFF)?;
        let data = self.four_bytes()?;
        self.words()?;
        let fields = Fields {
            kind: WARNING,
            length: 4,
            data,
            ..Fields::default()
        };
        Some((fields, self))
    }

    /// Any words of capital letters, after a gap each.
    fn words(&mut self) -> Option<()> {
        while self.peek()? == b' ' {
            self.gap()?;
            while self.peek()?.is_ascii_uppercase() {
                self.skip(1);
            }
        }
        Some(())
    }

    #[cold]
    fn error(mut self) -> Option<(Fields, Self)> {
        self.text(b"Error")?;
        self.gap()?;
        let id = self.hex_pairs::<2>()?;
        let data = self.four_bytes()?;
        let fields = Fields {
            kind: ERROR,
            id,
            length: 4,
            data,
            ..Fields::default()
        };
        self.must(error(id, data))?;
        Some((fields, self))
    }

    /// Any blanks and the end of the line.
    #[inline(always)]
    fn end(&mut self) -> Option<()> {
        self.blanks()?;
        self.text(b"\r\n")
    }
}
