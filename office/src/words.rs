//! Names, numbers and errors as they are shown.

use bushingowl::{separated, VERSIONS};
use std::ffi::OsStr;
use std::fmt::Write;
use std::io;
use std::os::unix::ffi::OsStrExt;
use std::path::Path;

/// A name. Bytes that are no UTF-8 and characters that would move the cursor are shown as their numbers.
pub fn name(path: &Path) -> String {
    let mut shown = String::new();
    for chunk in path.as_os_str().as_bytes().utf8_chunks() {
        for letter in chunk.valid().chars() {
            if letter.is_control() {
                let mut bytes = [0; 4];
                push_numbers(&mut shown, letter.encode_utf8(&mut bytes).as_bytes());
            } else {
                shown.push(letter);
            }
        }
        push_numbers(&mut shown, chunk.invalid());
    }
    shown
}

fn push_numbers(shown: &mut String, bytes: &[u8]) {
    for byte in bytes {
        let _ = write!(shown, "\\x{byte:02X}");
    }
}

/// The columns of a terminal.
const COLUMNS: usize = 80;

/// A text in lines that fit a terminal, those behind the first behind so many blanks. Blanks within a line stay.
pub fn wrapped(text: &str, indent: usize) -> String {
    let mut lines = String::new();
    let mut rest = text;
    let mut room = COLUMNS;
    while rest.len() > room {
        let Some(at) = rest[..=room].rfind(' ') else {
            break;
        };
        lines += &format!("{}\n{}", rest[..at].trim_end(), " ".repeat(indent));
        rest = &rest[at + 1..];
        room = COLUMNS - indent;
    }
    lines + rest
}

/// So many of something: `1 file`, `2 files`.
pub fn many(number: u64, one: &str, more: &str) -> String {
    let noun = if number == 1 { one } else { more };
    format!("{} {noun}", separated(number))
}

/// The system's words for an error, without its number.
pub fn error(error: &io::Error) -> String {
    let said = error.to_string();
    said.split(" (os error")
        .next()
        .unwrap_or_default()
        .to_string()
}

/// A version as a trace spells it.
pub fn version(number: u32) -> &'static str {
    let found = VERSIONS.iter().find(|(known, _)| *known == number);
    found.expect("the library knows no other versions").1
}

/// The number of a version that is spelled so.
pub fn version_number(word: &OsStr) -> Option<u32> {
    let found = VERSIONS.iter().find(|(_, spelled)| word == *spelled);
    found.map(|(number, _)| *number)
}

#[cfg(test)]
mod tests {
    use super::*;

    #[test]
    fn names_show_every_byte() {
        let odd = OsStr::from_bytes(b"a b\xFFc\n\x1b[2J\xC3\xA4");
        assert_eq!(name(Path::new(odd)), "a b\\xFFc\\x0A\\x1B[2Jä");
    }

    #[test]
    fn long_lines_are_wrapped() {
        let text = format!("  a   {} {}", "b".repeat(60), "c".repeat(20));
        let expected = format!("  a   {}\n    {}", "b".repeat(60), "c".repeat(20));
        assert_eq!(wrapped(&text, 4), expected);
        assert_eq!(wrapped(&"x".repeat(90), 4), "x".repeat(90));
        assert_eq!(wrapped("short", 4), "short");
    }

    #[test]
    fn so_many_are_one_or_more() {
        assert_eq!(many(1, "file", "files"), "1 file");
        assert_eq!(many(2000, "file", "files"), "2,000 files");
    }
}
