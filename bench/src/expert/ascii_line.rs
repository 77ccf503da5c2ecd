//! One line of Telemotive ASCII, read where it stands.

use super::clock::days;
use super::cursor::{Cursor, Window, LONGEST, TOGETHER};
use super::record::{Fields, EXTENDED_IDS, STANDARD_IDS};
use super::tables::VALUE;
use super::LAST_CHANNEL;

/// The last day that a stamp may have.
const LAST_DAY: u64 = 99_999;
/// The bytes of a stamp up to its point, with one blank.
const SECOND: usize = 20;

/// A stamp up to its point as it stood last with one blank, and its steps of 100 microseconds. Mostly the next line has the same.
pub struct Second {
    text: [u8; SECOND],
    steps: u64,
}

impl Second {
    pub fn new() -> Self {
        Second {
            text: *b"30.12.1899 00:00:00.",
            steps: 0,
        }
    }
}

/// Reads the line at the beginning of a window. Gives its stamp in steps of 100 microseconds since 30 December 1899, its fields, of which
/// offset and mark are not set, and the bytes it has with its end. `JUDGED` says that the line was taken before.
#[inline(always)]
pub fn line<const JUDGED: bool>(
    window: &Window,
    second: &mut Second,
) -> Option<(u64, Fields, usize)> {
    let (steps, mut cursor) = Cursor::<JUDGED>::new(window).second(second)?;
    let stamp = steps + cursor.decimal_digits::<4>()?;
    cursor.gap()?;
    let extended = cursor.message_type()?;
    cursor.gap()?;
    let bus = cursor.channel()?;
    cursor.gap()?;
    cursor.text(b"|")?;
    cursor.gap()?;
    if extended {
        cursor.text(b"EXTENDED")?;
        cursor.gap()?;
    }
    let kind = cursor.direction()?;
    cursor.gap()?;
    let id = match extended {
        true => cursor.extended_id()?,
        false => cursor.standard_id()?,
    };
    cursor.gap()?;
    let length = cursor.decimal_digits::<1>()?;
    cursor.must(length <= 8)?;
    let data = cursor.data_of_a_line(length)?;
    let end = cursor.at();
    cursor.must(end <= LONGEST)?;
    cursor.either_end()?;
    let fields = Fields {
        offset: 0,
        bus,
        kind,
        extended: u64::from(extended),
        id,
        length,
        data,
        mark: 0,
    };
    Some((stamp, fields, cursor.at()))
}

impl<const JUDGED: bool> Cursor<'_, JUDGED> {
    /// The steps up to the second, after its point.
    #[inline(always)]
    fn second(mut self, last: &mut Second) -> Option<(u64, Self)> {
        if *self.ahead::<SECOND>()? != last.text {
            return self.other_second(last);
        }
        self.skip(SECOND);
        Some((last.steps, self))
    }

    /// A second that is not the last one, or is spelled with more blanks.
    #[inline(never)]
    fn other_second(mut self, last: &mut Second) -> Option<(u64, Self)> {
        let text = *self.ahead()?;
        let day = self.decimal_digits::<2>()?;
        self.text(b".")?;
        let month = self.decimal_digits::<2>()?;
        self.text(b".")?;
        let days = days(day, month, self.decimal_digits::<4>()?)?;
        self.must(days <= LAST_DAY)?;
        self.gap()?;
        let hours = self.decimal_digits::<2>()?;
        self.must(hours < 24)?;
        self.text(b":")?;
        let minutes = self.decimal_digits::<2>()?;
        self.must(minutes < 60)?;
        self.text(b":")?;
        let seconds = self.decimal_digits::<2>()?;
        self.must(seconds < 60)?;
        self.text(b".")?;
        let steps = (((days * 24 + hours) * 60 + minutes) * 60 + seconds) * 10_000;
        if self.at() == SECOND {
            *last = Second { text, steps };
        }
        Some((steps, self))
    }

    /// Whether it is extended: `CANExt` or `CAN`.
    #[inline(always)]
    fn message_type(&mut self) -> Option<bool> {
        self.text(b"CAN")?;
        if self.peek()? == b' ' {
            return Some(false);
        }
        self.text(b"Ext")?;
        Some(true)
    }

    /// `#` and the channel, from 0.
    #[inline(always)]
    fn channel(&mut self) -> Option<u64> {
        self.text(b"#")?;
        let channel = self.decimal::<2>()?;
        self.must(channel <= LAST_CHANNEL)?;
        Some(channel)
    }

    #[inline(always)]
    fn standard_id(&mut self) -> Option<u64> {
        let digits = self
            .take::<3>()?
            .map(|byte| u64::from(VALUE[usize::from(byte)]));
        let [first, second, third] = digits;
        self.must(first | second | third < 16)?;
        let id = first << 8 | second << 4 | third;
        self.must(id <= STANDARD_IDS)?;
        Some(id)
    }

    #[inline(always)]
    fn extended_id(&mut self) -> Option<u64> {
        let id = self.hex_pairs::<4>()?;
        self.must(id <= EXTENDED_IDS)?;
        Some(id)
    }

    /// So many bytes, with a gap before each. Mostly they are eight and end the line.
    #[inline(always)]
    fn data_of_a_line(&mut self, length: u64) -> Option<u64> {
        if length == 0 {
            return Some(0);
        }
        self.gap()?;
        let ahead = self.ahead()?;
        if length == 8 && matches!(ahead[TOGETHER - 1], b'\r' | b'\n') {
            self.eight_bytes(ahead)
        } else {
            self.bytes(length)
        }
    }

    /// The end of the line: LF, or CR and LF.
    #[inline(always)]
    fn either_end(&mut self) -> Option<()> {
        match self.peek()? {
            b'\n' => {
                self.skip(1);
                Some(())
            }
            _ => self.text(b"\r\n"),
        }
    }
}
