//! `owl explain`: what is wrong with a file, shown in its place.

use super::Command;
use crate::arguments::{Given, Usage};
use crate::excerpt::excerpt;
use crate::options::ASCII;
use crate::output::{say, Output};
use crate::room::{is_memory_for, Room};
use crate::status::Status;
use crate::words::{self, many};
use bushingowl::{fault_of_ascii, fault_of_trace, read, read_ascii, Fault, Refused};
use std::path::{Path, PathBuf};

pub const COMMAND: Command = Command {
    name: "explain",
    files: "FILE",
    does: "where a trace is refused, and what is wrong there",
    about: "\
Shows the line at which a trace is refused, with its number and a mark under
what is wrong, the reason in words, what was expected, and what to do about it.
Bytes that can't be seen are shown as their numbers (a tab is \\x09). With
--ascii the file is read as lines of Telemotive ASCII.

It needs at most 154 MB of memory: 134,217,729 bytes for a text and 19,999,980
for its records; less if the file is smaller.",
    options: &[&ASCII],
    run,
};

fn run(given: &Given) -> Result<Status, Usage> {
    let name = one_file(given)?;
    let Some(mut room) = loaded(name) else {
        return Ok(Status::NotDone);
    };
    let (text, records) = (room.text.bytes(), &mut room.records);
    let (found, status) = if given.has(&ASCII) {
        match read_ascii(text, records) {
            Ok(lines) => (good(lines.records, "line", "lines"), Status::AllDone),
            Err(refused) => (
                explained(refused, fault_of_ascii(text, refused)),
                Status::SomeRefused,
            ),
        }
    } else {
        match read(text, records) {
            Ok(trace) => (good(trace.rows, "row", "rows"), Status::AllDone),
            Err(refused) => (
                explained(refused, fault_of_trace(text, refused, records)),
                Status::SomeRefused,
            ),
        }
    };
    let mut output = Output::new();
    output.line(&format!("{}: {found}", words::name(name)));
    Ok(status.max(output.end()))
}

/// The one file that is named.
pub fn one_file(given: &Given) -> Result<&PathBuf, Usage> {
    match &given.names[..] {
        [name] => Ok(name),
        [] => Err(Usage("no file is named".to_string())),
        _ => Err(Usage("it takes one file".to_string())),
    }
}

/// A room with a file's text. Where it can't be had, that is said.
pub fn loaded(name: &Path) -> Option<Room> {
    if !is_memory_for(1, 0) {
        say("there is not enough memory");
        return None;
    }
    let mut room = Room::without_output();
    if let Err(error) = room.text.load(name) {
        let (name, why) = (words::name(name), words::error(&error));
        say(&format!("{name}: can't be read: {why}"));
        return None;
    }
    Some(room)
}

fn good(number: usize, one: &str, more: &str) -> String {
    format!("good, with {}", many(number as u64, one, more))
}

/// The refusal, the line with what is wrong in it, and what to do about it. Where it is the file that is too long, there is no line to show.
fn explained(refused: Refused, fault: Option<Fault>) -> String {
    let mut text = refused.to_string();
    if let Some(fault) = fault {
        let excerpt = excerpt(fault.line, fault.bytes, &fault.place);
        let (why, expected) = (fault.why, fault.expected);
        text += &format!("\n\n{excerpt}\n\n{why}\nexpected: {expected}");
    }
    if let Some(remedy) = refused.remedy() {
        text += &format!("\nwhat to do: {remedy}");
    }
    text
}
