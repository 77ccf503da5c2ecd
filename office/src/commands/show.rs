//! `owl show`: the records of a file, one a line.

use super::explain::{loaded, one_file};
use super::{reading, Command};
use crate::arguments::{Given, Usage};
use crate::jobs::{Made, Refusal};
use crate::options::{ASCII, CSV, SHOW_JSON};
use crate::output::{say, Output};
use crate::room::Room;
use crate::row::{stamp, Row};
use crate::status::Status;
use crate::words::{self, many};
use bushingowl::{unpack, RECORD};

pub const COMMAND: Command = Command {
    name: "show",
    files: "FILE",
    does: "the records of a trace, one a line",
    about: "\
Prints the records of a trace, one a line: row number, date and time, offset in
milliseconds, bus, kind, ID, length, data, and whether the offset steps back.
With --csv and --json offsets are in microseconds. With --ascii the file is read
as lines of Telemotive ASCII, numbered from 1.

It needs at most 154 MB of memory: 134,217,729 bytes for a text and 19,999,980
for its records; less if the file is smaller.",
    options: &[&ASCII, &CSV, &SHOW_JSON],
    run,
};

fn run(given: &Given) -> Result<Status, Usage> {
    let name = one_file(given)?;
    let form = match (given.has(&CSV), given.has(&SHOW_JSON)) {
        (true, true) => return Err(Usage("--csv and --json exclude each other".to_string())),
        (true, false) => Form::Csv,
        (false, true) => Form::Json,
        (false, false) => Form::Plain,
    };
    let Some(mut room) = loaded(name) else {
        return Ok(Status::NotDone);
    };
    let (held, rows) = match held(&mut room, given.has(&ASCII)) {
        Ok(held) => held,
        Err(refusal) => {
            say(&format!("{}: {}", words::name(name), refusal.words()));
            return Ok(Status::SomeRefused);
        }
    };
    Ok(shown(&held, &room.records[..rows * RECORD], form))
}

/// What a file holds, and how many records.
fn held(room: &mut Room, ascii: bool) -> Result<(Made, usize), Refusal> {
    if ascii {
        let lines = reading::ascii(room)?;
        let rows = lines.records;
        let made = Made::of_ascii(&lines, &room.records);
        return Ok((
            Made {
                first: Some(1),
                ..made
            },
            rows,
        ));
    }
    let trace = reading::trace(room)?;
    Ok((Made::of(&trace, &room.records), trace.rows))
}

#[derive(Clone, Copy)]
enum Form {
    Plain,
    Csv,
    Json,
}

fn shown(held: &Made, records: &[u8], form: Form) -> Status {
    let mut output = Output::new();
    match form {
        Form::Plain => output.line(&head(held, records.len() / RECORD)),
        Form::Csv => output.line("row,stamp,offset_us,bus,kind,extended,id,length,data,step_back"),
        Form::Json => {}
    }
    for (packed, number) in records.chunks(RECORD).zip(held.first.unwrap_or(1)..) {
        let record = unpack(packed).expect("the records are the library's own");
        let row = Row {
            number,
            stamp: stamp(held.start, record.offset),
            record,
        };
        output.line(&match form {
            Form::Plain => row.plain(),
            Form::Csv => row.csv(),
            Form::Json => row.json(),
        });
        if output.is_closed() {
            break;
        }
    }
    output.end()
}

/// What is said of the whole trace.
fn head(held: &Made, rows: usize) -> String {
    let version = held
        .version
        .map(|version| format!("version {}, ", words::version(version)));
    let rows = many(rows as u64, "row", "rows");
    let start = stamp(held.start, 0);
    let back = match held.first_step_back {
        Some(row) => format!("first step back at row {row}"),
        None => "no step back".to_string(),
    };
    format!(
        "{}start {start}, {rows}, {back}",
        version.unwrap_or_default()
    )
}
