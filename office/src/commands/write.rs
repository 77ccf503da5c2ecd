//! `owl write`: traces in the house spelling.

use super::{reading, Command};
use crate::arguments::{Given, Usage};
use crate::counts::Count;
use crate::jobs::{Made, Refusal, Work};
use crate::options::{FORCE, JOBS, OUTPUT, REPORT_JSON, VERSION, VERSION_NEEDED};
use crate::plan::Naming;
use crate::report::Wording;
use crate::room::Room;
use crate::run::Run;
use crate::status::Status;
use crate::words::{self, version_number};
use bushingowl::{fault_of_record, MOST_HEADER, MOST_ROW, MOST_ROWS, RECORD};
use std::path::PathBuf;

pub const COMMAND: Command = Command {
    name: "write",
    files: "FILE..",
    does: "each trace in the house spelling, in either version",
    about: "\
Writes each trace again in the house spelling: one blank between two fields,
capital letters, no comments. With --version 1.2, a.trc becomes a-1.2.trc.

The version may be another than that of the trace if it can carry every record:
1.1 has no buses and no parts of 0.1 ms, 1.2 needs a bus from 1 to 16. So what
can go from one to the other are traces without rows; of all others the first
record that can't is named (refusal 24).

Each job needs at most 222 MB of memory: 134,217,729 bytes for a text,
19,999,980 for its records and 66,999,982 for the trace that is written; less
if files are smaller.",
    options: &[&VERSION_NEEDED, &OUTPUT, &FORCE, &JOBS, &REPORT_JSON],
    run,
};

/// The most bytes of a trace that is written.
pub const MOST_WRITTEN: usize = MOST_HEADER + MOST_ROWS * MOST_ROW;

fn run(given: &Given) -> Result<Status, Usage> {
    let Some(version) = version(given)? else {
        return Err(Usage(
            "the version is missing: --version 1.1 or --version 1.2".to_string(),
        ));
    };
    let run = Run {
        work: &Write { version },
        wording: Wording {
            done: "written",
            counts: &[Count::Rows, Count::StepsBack],
        },
        ending: None,
        naming: Some(Naming {
            off: &[".trc"],
            on: format!("-{}.trc", words::version(version)),
            folder: given.value(&OUTPUT).map(PathBuf::from),
        }),
    };
    run.over(given)
}

/// The version that is asked for.
pub fn version(given: &Given) -> Result<Option<u32>, Usage> {
    let Some(word) = given.value(&VERSION) else {
        return Ok(None);
    };
    match version_number(word) {
        None => Err(Usage("--version takes 1.1 or 1.2".to_string())),
        version => Ok(version),
    }
}

/// Writes so many of the room's records as a trace, and gives the number of its bytes.
pub fn written(
    room: &mut Room,
    version: u32,
    start: u64,
    first: u64,
    rows: usize,
) -> Result<usize, Refusal> {
    let records = &room.records[..rows * RECORD];
    let output = room.output.bytes();
    let bytes = room
        .library
        .time(|| bushingowl::write(version, start, first, records, output));
    bytes.map_err(|refused| Refusal {
        detail: fault_of_record(version, records, refused),
        refused,
    })
}

struct Write {
    version: u32,
}

impl Work for Write {
    fn most_output(&self) -> usize {
        MOST_WRITTEN
    }

    fn work(&self, room: &mut Room) -> Result<Made, Refusal> {
        let trace = reading::trace(room)?;
        let bytes = written(room, self.version, trace.start, trace.first, trace.rows)?;
        Ok(Made {
            version: Some(self.version),
            bytes,
            ..Made::of(&trace, &room.records)
        })
    }
}
