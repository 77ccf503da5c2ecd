//! `owl check`: files judged, and nothing written.

use super::{reading, Command};
use crate::arguments::{Given, Usage};
use crate::counts::Count;
use crate::jobs::{Made, Refusal, Work};
use crate::options::{ASCII, JOBS, REPORT_JSON};
use crate::report::Wording;
use crate::room::Room;
use crate::run::Run;
use crate::status::Status;

pub const COMMAND: Command = Command {
    name: "check",
    files: "FILE|FOLDER..",
    does: "each trace judged, and nothing written",
    about: "\
Judges each trace, and writes nothing. Of a folder it takes all files below it
whose names end with .trc. With --ascii the files are judged as lines of
Telemotive ASCII, and of a folder those are taken whose names end with .asc.

A refused file gets its number, its line and the reason in words, and the run
goes on.

Each job needs at most 154 MB of memory: 134,217,729 bytes for a text and
19,999,980 for its records; less if files are smaller.",
    options: &[&ASCII, &JOBS, &REPORT_JSON],
    run,
};

fn run(given: &Given) -> Result<Status, Usage> {
    if given.has(&ASCII) {
        let wording = Wording {
            done: "good",
            counts: &[Count::Lines, Count::StepsBack],
        };
        return checked(given, &CheckAscii, wording, ".asc");
    }
    let wording = Wording {
        done: "good",
        counts: &[Count::Rows, Count::StepsBack],
    };
    checked(given, &Check, wording, ".trc")
}

fn checked(
    given: &Given,
    work: &dyn Work,
    wording: Wording,
    ending: &'static str,
) -> Result<Status, Usage> {
    let run = Run {
        work,
        wording,
        ending: Some(ending),
        naming: None,
    };
    run.over(given)
}

struct Check;

impl Work for Check {
    fn most_output(&self) -> usize {
        0
    }

    fn work(&self, room: &mut Room) -> Result<Made, Refusal> {
        let trace = reading::trace(room)?;
        Ok(Made::of(&trace, &room.records))
    }
}

struct CheckAscii;

impl Work for CheckAscii {
    fn most_output(&self) -> usize {
        0
    }

    fn work(&self, room: &mut Room) -> Result<Made, Refusal> {
        let lines = reading::ascii(room)?;
        Ok(Made::of_ascii(&lines, &room.records))
    }
}
