//! Writing into an output that is just as long as all that is written.

use super::tables::DECIMAL;
use std::mem::take;

/// The number of decimal digits, 1 for 0.
#[inline(always)]
pub fn digits(n: u64) -> usize {
    n.checked_ilog10().unwrap_or(0) as usize + 1
}

pub struct Pen<'a> {
    left: &'a mut [u8],
}

impl<'a> Pen<'a> {
    pub fn new(left: &'a mut [u8]) -> Self {
        Pen { left }
    }

    /// The next bytes of the output.
    #[inline(always)]
    fn next(&mut self, len: usize) -> &'a mut [u8] {
        let (next, left) = take(&mut self.left).split_at_mut(len);
        self.left = left;
        next
    }

    #[inline(always)]
    pub fn put<const N: usize>(&mut self, bytes: [u8; N]) {
        self.next(N).copy_from_slice(&bytes);
    }

    /// Writes two decimal digits.
    #[inline(always)]
    pub fn two(&mut self, n: u64) {
        self.put(DECIMAL[n as usize]);
    }

    /// Writes a decimal number without leading zeros.
    #[inline(always)]
    pub fn decimal(&mut self, mut n: u64) {
        let (first, pairs) = self.next(digits(n)).as_rchunks_mut();
        for pair in pairs.iter_mut().rev() {
            *pair = DECIMAL[(n % 100) as usize];
            n /= 100;
        }
        if let [digit] = first {
            *digit = b'0' + n as u8;
        }
    }

    /// Writes a length and so many data bytes, each after a blank.
    #[inline(always)]
    pub fn data(&mut self, length: u64, data: u64, table: &[[u8; 2]; 256]) {
        self.put([b'0' + length as u8]);
        let places = self.next(3 * length as usize).as_chunks_mut().0;
        for (place, byte) in places.iter_mut().zip(data.to_be_bytes()) {
            let [high, low] = table[usize::from(byte)];
            *place = [b' ', high, low];
        }
    }
}
