//! `owl`: files and folders of CAN traces through the proved library.
//!
//! Everything that decides is in the library, which the crate `bushingowl` calls. Here is what stands around it: which files are meant, where their outputs
//! go, what is said of them.

#![forbid(unsafe_code)]

mod arguments;
mod commands;
mod counts;
mod excerpt;
mod jobs;
mod json;
mod options;
mod output;
mod part;
mod plan;
mod progress;
mod report;
mod room;
mod row;
mod run;
mod status;
mod walk;
mod words;

use status::Status;
use std::ffi::OsString;
use std::panic::catch_unwind;
use std::process::ExitCode;

fn main() -> ExitCode {
    let words: Vec<OsString> = std::env::args_os().skip(1).collect();
    // Should the program itself have a fault, the run could not be done, and nothing else.
    let status = catch_unwind(|| commands::called(&words)).unwrap_or(Status::NotDone);
    ExitCode::from(status.number())
}
