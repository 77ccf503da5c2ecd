//! The place within a row up to which it is read, and the fields that begin there.

use super::tables::VALUE;

/// The most bytes of a line without its end.
pub const LONGEST: usize = 250;
/// The most bytes that are looked at together: eight data bytes of two digits, and the byte after each.
pub const TOGETHER: usize = 24;
/// Eight blanks.
const BLANKS: u64 = u64::from_le_bytes([b' '; 8]);

/// The bytes from the beginning of a row on: the longest line with its end, and as many more as are looked at together.
/// So if they are not there, the line is too long, and one test serves for all of them.
pub type Window = [u8; LONGEST + 2 + TOGETHER];

/// A window, and how many of its bytes are read.
///
/// Where a function gives nothing, the row is refused; it never stands for another spelling.
/// So a row that was judged is read in the same way again without the tests.
pub struct Cursor<'a, const JUDGED: bool> {
    window: &'a Window,
    at: usize,
}

impl<'a, const JUDGED: bool> Cursor<'a, JUDGED> {
    #[inline(always)]
    pub fn new(window: &'a Window) -> Self {
        Cursor { window, at: 0 }
    }

    /// The bytes that are read.
    #[inline(always)]
    pub fn at(&self) -> usize {
        self.at
    }

    /// A rule that every row keeps. A row that is judged already is not tested again.
    #[inline(always)]
    pub fn must(&self, good: bool) -> Option<()> {
        (JUDGED || good).then_some(())
    }

    /// The next byte, which stays.
    #[inline(always)]
    pub fn peek(&self) -> Option<u8> {
        self.window.get(self.at).copied()
    }

    /// The next bytes, which stay.
    #[inline(always)]
    pub fn ahead<const N: usize>(&self) -> Option<&'a [u8; N]> {
        const { assert!(N <= TOGETHER) }
        self.window.get(self.at..)?.first_chunk()
    }

    /// So many bytes more are read.
    #[inline(always)]
    pub fn skip(&mut self, bytes: usize) {
        self.at += bytes;
    }

    /// The next bytes.
    #[inline(always)]
    pub fn take<const N: usize>(&mut self) -> Option<&'a [u8; N]> {
        let taken = self.ahead()?;
        self.at += N;
        Some(taken)
    }

    /// This text must stand here.
    #[inline(always)]
    pub fn text<const N: usize>(&mut self, text: &[u8; N]) -> Option<()> {
        let taken = self.take()?;
        self.must(taken == text)
    }

    /// Any blanks.
    #[inline(always)]
    pub fn blanks(&mut self) -> Option<()> {
        match self.peek()? {
            b' ' => self.gap(),
            _ => Some(()),
        }
    }

    /// At least one blank. One and two are told apart by branches: these are foreseen mostly, and so the next field need not wait for a count.
    #[inline(always)]
    pub fn gap(&mut self) -> Option<()> {
        let &[first, second, third] = self.ahead()?;
        self.must(first == b' ')?;
        if second != b' ' {
            self.at += 1;
        } else if third != b' ' {
            self.at += 2;
        } else {
            self.wide_gap()?;
        }
        Some(())
    }

    /// Many blanks, eight at a time.
    #[inline(always)]
    fn wide_gap(&mut self) -> Option<()> {
        loop {
            let others = u64::from_le_bytes(*self.ahead()?) ^ BLANKS;
            if others != 0 {
                self.at += others.trailing_zeros() as usize / 8;
                return Some(());
            }
            self.at += 8;
        }
    }

    /// A decimal number. It ends after a leading zero, and after so many digits, which one look ahead covers.
    #[inline(always)]
    pub fn decimal<const MOST: usize>(&mut self) -> Option<u64> {
        let digits = self.ahead::<MOST>()?.map(|byte| byte.wrapping_sub(b'0'));
        self.must(digits[0] <= 9)?;
        let mut value = u64::from(digits[0]);
        self.at += 1;
        if value == 0 {
            return Some(0);
        }
        for &digit in &digits[1..] {
            if digit > 9 {
                break;
            }
            value = value * 10 + u64::from(digit);
            self.at += 1;
        }
        Some(value)
    }

    /// So many decimal digits, any of them zero.
    #[inline(always)]
    pub fn decimal_digits<const N: usize>(&mut self) -> Option<u64> {
        let mut value = 0;
        for byte in self.take::<N>()? {
            let digit = byte.wrapping_sub(b'0');
            self.must(digit <= 9)?;
            value = value * 10 + u64::from(digit);
        }
        Some(value)
    }

    /// So many pairs of hexadecimal digits.
    #[inline(always)]
    pub fn hex_pairs<const N: usize>(&mut self) -> Option<u64> {
        let pairs: &[[u8; 2]; N] = self.window.get(self.at..)?.as_chunks().0.first_chunk()?;
        self.at += 2 * N;
        self.hex(pairs.iter().map(|[first, last]| (first, last)))
    }

    /// The value of pairs of hexadecimal digits.
    #[inline(always)]
    pub fn hex<'b>(&self, pairs: impl Iterator<Item = (&'b u8, &'b u8)>) -> Option<u64> {
        let (mut value, mut all) = (0, 0);
        for (&first, &last) in pairs {
            let [first, last] = [first, last].map(|byte| VALUE[usize::from(byte)]);
            all |= first | last;
            value = value << 8 | u64::from(first << 4 | last);
        }
        self.must(all < 16)?;
        Some(value)
    }
}
