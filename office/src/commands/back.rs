//! `owl back`: Telemotive ASCII to traces.

use super::write::{version, written, MOST_WRITTEN};
use super::{reading, Command};
use crate::arguments::{Given, Usage};
use crate::counts::Count;
use crate::jobs::{Made, Refusal, Work};
use crate::options::{FORCE, JOBS, OUTPUT, REPORT_JSON, VERSION};
use crate::plan::Naming;
use crate::report::Wording;
use crate::room::Room;
use crate::run::Run;
use crate::status::Status;
use bushingowl::{unpack, RECORD};
use std::path::PathBuf;

pub const COMMAND: Command = Command {
    name: "back",
    files: "FILE..",
    does: "each text of Telemotive ASCII to a trace",
    about: "\
Makes a trace of lines of Telemotive ASCII, as they come back from the
calibrators: a.asc or a.txt becomes a.trc. Its start is the stamp of the first
line, cut to the millisecond, and its rows are numbered from 1.

Channels 1 to 16 are the buses of version 1.2; lines of channel 0 are rows of
version 1.1, which has no buses. Without --version the first line decides; where
lines of both stand in one file, no version carries all of them (refusal 24).
What an export leaves out does not come back: remote frames, warnings, error
frames, parts of 0.1 ms, the start of the trace.

Each job needs at most 222 MB of memory: 134,217,729 bytes for a text,
19,999,980 for its records and 66,999,982 for the trace that is written; less
if files are smaller.",
    options: &[&VERSION, &OUTPUT, &FORCE, &JOBS, &REPORT_JSON],
    run,
};

fn run(given: &Given) -> Result<Status, Usage> {
    let run = Run {
        work: &Back {
            version: version(given)?,
        },
        wording: Wording {
            done: "written",
            counts: &[Count::Lines, Count::StepsBack],
        },
        ending: None,
        naming: Some(Naming {
            off: &[".asc", ".txt"],
            on: ".trc".to_string(),
            folder: given.value(&OUTPUT).map(PathBuf::from),
        }),
    };
    run.over(given)
}

struct Back {
    version: Option<u32>,
}

impl Work for Back {
    fn most_output(&self) -> usize {
        MOST_WRITTEN
    }

    fn work(&self, room: &mut Room) -> Result<Made, Refusal> {
        let lines = reading::ascii(room)?;
        let rows = lines.records;
        let version = self
            .version
            .unwrap_or_else(|| version_of(&room.records[..rows * RECORD]));
        let first = u64::from(rows > 0);
        let bytes = written(room, version, lines.start, first, rows)?;
        Ok(Made {
            version: Some(version),
            first: Some(first),
            bytes,
            ..Made::of_ascii(&lines, &room.records)
        })
    }
}

/// The version that carries the first record; which it is where there is none, does not matter.
fn version_of(records: &[u8]) -> u32 {
    let first = records.chunks(RECORD).next().map(unpack);
    match first {
        Some(Ok(record)) if record.bus == 0 => 11,
        _ => 12,
    }
}
