//! How files break: what is done to the text of a good trace.

#[derive(Clone, Copy, Debug, PartialEq, Eq)]
pub enum Fault {
    /// The logger lost its power, and what was not on the disk is gone.
    CutOff,
    /// It was sent as text, and each line ends with LF.
    LineFeeds,
    /// It was edited, and a row is gone.
    RowMissing,
    /// A newer logger's.
    Version20,
}

/// The disk has whole blocks of so many bytes.
const BLOCK: usize = 512;

impl Fault {
    /// The number that it is refused with.
    pub fn refusal(self) -> u64 {
        match self {
            Fault::CutOff | Fault::LineFeeds => 2,
            Fault::Version20 => 4,
            Fault::RowMissing => 7,
        }
    }

    pub fn name(self) -> &'static str {
        match self {
            Fault::CutOff => "cut off",
            Fault::LineFeeds => "LF ends",
            Fault::RowMissing => "a row missing",
            Fault::Version20 => "version 2.0",
        }
    }

    pub fn plant(self, text: &mut Vec<u8>) {
        match self {
            Fault::CutOff => cut_off(text),
            Fault::LineFeeds => text.retain(|&byte| byte != b'\r'),
            Fault::RowMissing => lose_a_row(text),
            Fault::Version20 => {
                let end = text.iter().position(|&byte| byte == b'\r');
                text.splice(..end.unwrap_or(0), *b";$FILEVERSION=2.0");
            }
        }
    }
}

/// The last line is cut inside, at the end of a block unless a line ends there.
fn cut_off(text: &mut Vec<u8>) {
    text.truncate(text.len() / BLOCK * BLOCK);
    if text.ends_with(b"\n") {
        text.pop();
    }
}

/// The row at three quarters of the text is taken out; some follow.
fn lose_a_row(text: &mut Vec<u8>) {
    let line_from = |at: usize| {
        let rest = text.iter().skip(at);
        at + 1 + rest.take_while(|&&byte| byte != b'\n').count()
    };
    let begin = line_from(text.len() / 4 * 3);
    let end = line_from(begin);
    text.drain(begin..end);
}
