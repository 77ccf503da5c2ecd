//! Tables between numbers and digits.

/// Stands for a byte that is no hexadecimal digit.
pub const NONE: u8 = 0xFF;
/// The value of each byte as a hexadecimal digit of either case.
pub static VALUE: [u8; 256] = value();
/// The two capital hexadecimal digits of a byte.
pub static CAPITAL: [[u8; 2]; 256] = pairs(b"0123456789ABCDEF");
/// The two small hexadecimal digits of a byte.
pub static SMALL: [[u8; 2]; 256] = pairs(b"0123456789abcdef");
/// The two decimal digits of a number below 100.
pub static DECIMAL: [[u8; 2]; 100] = pairs(b"0123456789");

const fn value() -> [u8; 256] {
    let digits = b"0123456789ABCDEF0123456789abcdef";
    let mut table = [NONE; 256];
    let mut n = 0;
    while n < digits.len() {
        table[digits[n] as usize] = n as u8 % 16;
        n += 1;
    }
    table
}

/// All numbers of two digits.
const fn pairs<const BASE: usize, const N: usize>(digits: &[u8; BASE]) -> [[u8; 2]; N] {
    let mut table = [[0; 2]; N];
    let mut n = 0;
    while n < N {
        table[n] = [digits[n / BASE], digits[n % BASE]];
        n += 1;
    }
    table
}
