//! `owl convert`: traces to Telemotive ASCII.

use super::{reading, Command};
use crate::arguments::{number, Given, Usage};
use crate::counts::Count;
use crate::jobs::{Made, Refusal, Work};
use crate::options::{CHANNEL, FORCE, JOBS, OUTPUT, REPORT_JSON};
use crate::plan::Naming;
use crate::report::Wording;
use crate::room::Room;
use crate::run::Run;
use crate::status::Status;
use bushingowl::{export, CHANNEL_AS_BENCH, MOST_LINE, MOST_ROWS, RECORD};
use std::path::PathBuf;

pub const COMMAND: Command = Command {
    name: "convert",
    files: "FILE|FOLDER..",
    does: "each trace to lines of Telemotive ASCII",
    about: "\
Converts each trace to lines of Telemotive ASCII: week/a.trc to week/a.asc.
Of a folder it takes all files below it whose names end with .trc; what goes to
another folder by -o keeps its path below that one.

A refused file gets its number, its line and the reason in words, and the run
goes on. An output has its name only when it is whole and on the disk. A file
that is there already is kept: if it is just what would be written, that is
said; if not, it could not be done.

Each job needs at most 240 MB of memory: 134,217,729 bytes for a text,
19,999,980 for its records and 85,999,914 for its lines; less if files are
smaller.",
    options: &[&OUTPUT, &FORCE, &CHANNEL, &JOBS, &REPORT_JSON],
    run,
};

const WORDING: Wording = Wording {
    done: "converted",
    counts: &[Count::Rows, Count::Lines, Count::LeftOut, Count::StepsBack],
};

fn run(given: &Given) -> Result<Status, Usage> {
    let run = Run {
        work: &Convert {
            channel: channel(given)?,
        },
        wording: WORDING,
        ending: Some(".trc"),
        naming: Some(Naming {
            off: &[".trc"],
            on: ".asc".to_string(),
            folder: given.value(&OUTPUT).map(PathBuf::from),
        }),
    };
    run.over(given)
}

/// The channel of rows without a bus. Which there are, the library says.
fn channel(given: &Given) -> Result<u64, Usage> {
    let Some(word) = given.value(&CHANNEL) else {
        return Ok(CHANNEL_AS_BENCH);
    };
    let channel = number(word).filter(|channel| export(0, *channel, &[], &mut []).is_ok());
    channel.ok_or_else(|| Usage("--channel takes a number from 0 to 16".to_string()))
}

struct Convert {
    channel: u64,
}

impl Work for Convert {
    fn most_output(&self) -> usize {
        MOST_ROWS * MOST_LINE
    }

    fn work(&self, room: &mut Room) -> Result<Made, Refusal> {
        let trace = reading::trace(room)?;
        let records = &room.records[..trace.rows * RECORD];
        let output = room.output.bytes();
        let exported = room
            .library
            .time(|| export(trace.start, self.channel, records, output));
        let exported = exported.map_err(Refusal::alone)?;
        let made = Made::of(&trace, &room.records);
        let counts = made
            .counts
            .with(Count::Lines, exported.lines)
            .with(Count::LeftOut, exported.left_out);
        Ok(Made {
            counts,
            bytes: exported.bytes,
            ..made
        })
    }
}
