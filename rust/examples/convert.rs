//! Prints what a trace file holds, and its export: `convert FILE`; or its refusal, and for a line that is no row what is wrong with it, in words.
//! Bus 0 is printed as channel 1, as the bench program prints it, or as channel N: `convert --channel N FILE`, with N from 0 to 16. So the traces of two
//! loggers without buses can be told apart.
//! Reads lines of Telemotive ASCII back, as they return edited: `convert --ascii FILE`. Prints them as an export has them, with the same channels; or the
//! refusal, and in words what is wrong.
//! All lines end with CR LF, as those of the export do. A pipe will do as well.
//! Ends with 0 if the trace or the lines were exported, 1 if they were refused, and 2 if it could not be done.

use bushingowl::{
    explain_ascii_refusal, explain_refusal, export_to_vec, read_ascii_to_vec, read_to_vec, Reason,
    Refused, CHANNEL_AS_BENCH, CHANNEL_AS_BUS, MOST_CHANNEL, MOST_ROWS, MOST_TEXT,
};
use std::ffi::{OsStr, OsString};
use std::fs::File;
use std::io::{self, ErrorKind, Read, Write};
use std::process::ExitCode;

fn main() -> ExitCode {
    let given: Vec<OsString> = std::env::args_os().skip(1).collect();
    let Some((held, name)) = asked(&given) else {
        return failed("usage: convert FILE, or convert --channel N FILE, or convert --ascii FILE");
    };
    let text = match contents(name) {
        Ok(text) => text,
        Err(error) => {
            let name = name.to_string_lossy();
            return failed(&format!("convert: can't read {name}: {}", words(&error)));
        }
    };
    let converted = match held {
        Held::Trace { channel } => convert(&text, channel).map_err(|why| refusal(&text, why)),
        Held::Lines => respell(&text).map_err(|why| ascii_refusal(&text, why)),
    };
    let (output, code) = match converted {
        Ok(output) => (output, ExitCode::SUCCESS),
        Err(refusal) => (refusal, ExitCode::FAILURE),
    };
    match print(&output) {
        Ok(()) => code,
        // A reader that closes early has what it wants.
        Err(error) if error.kind() == ErrorKind::BrokenPipe => code,
        Err(error) => failed(&format!("convert: can't write: {}", words(&error))),
    }
}

/// What a file is said to hold.
enum Held {
    /// A trace, to be printed with bus 0 as this channel.
    Trace { channel: u64 },
    /// Lines of Telemotive ASCII.
    Lines,
}

/// What the arguments ask for, and the name of the file.
fn asked(given: &[OsString]) -> Option<(Held, &OsStr)> {
    match given {
        [option, name] if option == "--ascii" => Some((Held::Lines, name)),
        [option, number, name] if option == "--channel" => {
            let channel = channel_of(number)?;
            Some((Held::Trace { channel }, name))
        }
        [name] if name != "--ascii" && name != "--channel" => {
            let channel = CHANNEL_AS_BENCH;
            Some((Held::Trace { channel }, name))
        }
        _ => None,
    }
}

/// A number in decimal. One of more than 64 bits is above the last channel whatever it is.
fn channel_of(word: &OsStr) -> Option<u64> {
    let word = word.to_str()?;
    let digits = !word.is_empty() && word.bytes().all(|byte| byte.is_ascii_digit());
    digits.then(|| word.parse().unwrap_or(u64::MAX))
}

/// The bytes of a file. Of one above the limit one byte more is read than a text may have, so that it is refused as such.
fn contents(name: &OsStr) -> io::Result<Vec<u8>> {
    let mut text = Vec::new();
    let most = MOST_TEXT as u64 + 1;
    File::open(name)?.take(most).read_to_end(&mut text)?;
    Ok(text)
}

/// What is printed for a good trace, with bus 0 as this channel.
fn convert(text: &[u8], channel: u64) -> Result<Vec<u8>, Refused> {
    let (trace, records) = read_to_vec(text)?;
    let (_, lines) = export_to_vec(trace.start, channel, &records)?;
    let (version, start, rows, first) = (trace.version, trace.start, trace.rows, trace.first);
    let numbered = match rows {
        0 => String::new(),
        _ => format!(" numbered from {first}"),
    };
    let back = match trace.step_back {
        None => "no step back".to_string(),
        // The number that the row has in the file.
        Some(row) => format!("first step back at row number {}", first + row as u64 - 1),
    };
    let head = format!("version {version}, start {start}, {rows} rows{numbered}, {back}\r\n");
    Ok([head.as_bytes(), &lines].concat())
}

/// What is printed for a text that is refused, or for its channel.
fn refusal(text: &[u8], refused: Refused) -> Vec<u8> {
    let mut said = format!("refused {} at line {}\r\n", refused.number(), refused.place);
    if let Some(explanation) = explain_refusal(text, refused) {
        said += &format!("{explanation}\r\n");
    }
    if refused.reason == Reason::NoChannel {
        said += &format!("the channel of bus 0 is above {MOST_CHANNEL}\r\n");
    }
    said.into_bytes()
}

/// What is printed for good lines of Telemotive ASCII: the same lines, as an export has them.
fn respell(text: &[u8]) -> Result<Vec<u8>, Refused> {
    let (back, records) = read_ascii_to_vec(text)?;
    let (_, lines) = export_to_vec(back.start, CHANNEL_AS_BUS, &records)?;
    Ok(lines)
}

/// What is printed for lines of Telemotive ASCII that are refused.
fn ascii_refusal(text: &[u8], refused: Refused) -> Vec<u8> {
    let why = match refused.reason {
        Reason::TextTooLong => format!("the text has more than {MOST_TEXT} bytes"),
        Reason::TooManyLines => format!("there are more than {MOST_ROWS} lines"),
        _ => match explain_ascii_refusal(text, refused) {
            Some(explanation) => explanation.to_string(),
            // Records just read are not refused, and there is room for them.
            None => refused.to_string(),
        },
    };
    let (number, place) = (refused.number(), refused.place);
    format!("refused {number} at line {place}\r\n{why}\r\n").into_bytes()
}

fn print(output: &[u8]) -> io::Result<()> {
    let mut stdout = io::stdout().lock();
    stdout.write_all(output)?;
    stdout.flush()
}

/// The system's words for an error, without its number.
fn words(error: &io::Error) -> String {
    let said = error.to_string();
    said.split(" (os error")
        .next()
        .unwrap_or_default()
        .to_string()
}

/// Says why it could not be done.
fn failed(why: &str) -> ExitCode {
    // Where not even this can be written, the status is all that is left.
    let _ = writeln!(io::stderr(), "{why}");
    ExitCode::from(2)
}
