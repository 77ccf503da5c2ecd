//! Bytes as they are shown in words.

use std::fmt;

/// The most bytes that are shown.
const SHOWN: usize = 40;

/// Bytes in quotes, of which at most 40 are shown. What can't be seen or has a meaning there is shown as its number.
///
/// ```
/// let shown = bushingowl::Quoted(b"2.1 \t\"\xFF").to_string();
/// assert_eq!(shown, r#""2.1 \x09\x22\xFF""#);
/// ```
pub struct Quoted<'a>(pub &'a [u8]);

impl fmt::Display for Quoted<'_> {
    fn fmt(&self, f: &mut fmt::Formatter) -> fmt::Result {
        write!(f, "\"")?;
        for byte in self.0.iter().take(SHOWN) {
            if matches!(byte, b' '..=b'~') && !matches!(byte, b'"' | b'\\') {
                write!(f, "{}", char::from(*byte))?;
            } else {
                write!(f, "\\x{byte:02X}")?;
            }
        }
        let cut = if self.0.len() > SHOWN { "..." } else { "" };
        write!(f, "\"{cut}")
    }
}
