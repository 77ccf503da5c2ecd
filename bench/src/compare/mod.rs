//! The library and the expert on the same inputs.

mod ascii;
pub mod ascii_limits;
mod both;
pub mod channels;
pub mod every_ascii;
pub mod every_field;
pub mod every_mark;
pub mod every_part;
pub mod inputs;
pub mod limits;
pub mod lines;
pub mod long_lines;
mod marks;
pub mod offset_limits;
pub mod runs;
mod tally;

/// What differs, and on which input.
pub struct Difference {
    pub what: String,
    pub input: String,
}

type Checked = Result<(), Difference>;

/// The most bytes of an input that are shown.
const SHOWN: usize = 400;

/// Bytes as text, not all of them if they are many.
fn shown(bytes: &[u8]) -> String {
    match bytes.get(..SHOWN) {
        None => format!("b\"{}\"", bytes.escape_ascii()),
        Some(first) => format!("b\"{}\"... ({} bytes)", first.escape_ascii(), bytes.len()),
    }
}
