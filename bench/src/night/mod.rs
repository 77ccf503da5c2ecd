//! A night at the office: a week of traces through `owl`, on one core and on all, with every answer checked.

#![forbid(unsafe_code)]

pub mod folder;
mod json;
pub mod known;
mod limited;
mod outputs;
pub mod processor;
pub mod python;
mod report;
pub mod run;
pub mod table;

use std::fmt::Display;
use std::io::{self, Write};
use std::path::Path;

/// The folder of the traces, that of their lines, and that of what another converter makes, in the folder of the night.
pub const TRACES: &str = "traces";
pub const LINES: &str = "lines";
pub const OTHERS: &str = "others";

/// Why a night has no result.
pub enum Trouble {
    /// Something is not as it must be.
    Differs(String),
    /// Something could not be done.
    NotDone(String),
}

pub type Tried<T> = Result<T, Trouble>;

/// Prints a line. If nobody reads it, the night goes on nevertheless, to its end, where its folder is removed.
pub fn say(line: impl Display) {
    let _ = writeln!(io::stdout(), "{line}");
}

pub fn differs<T>(what: impl Into<String>) -> Tried<T> {
    Err(Trouble::Differs(what.into()))
}

/// What an error is that was met with a file or a folder.
pub fn with(path: &Path) -> impl Fn(io::Error) -> Trouble + '_ {
    move |error| not_done(path.display(), error)
}

pub fn not_done(what: impl Display, error: impl Display) -> Trouble {
    Trouble::NotDone(format!("{what}: {error}"))
}
