//! Reading what a room holds, as every command does it.

use crate::counts::{Count, Counts};
use crate::jobs::{Made, Refusal};
use crate::room::Room;
use bushingowl::{
    count_steps, fault_of_ascii, fault_of_trace, read, read_ascii, unpack, Read, ReadAscii, Reason,
    Refused, RECORD,
};

/// Reads the text as a trace.
pub fn trace(room: &mut Room) -> Result<Read, Refusal> {
    let (text, records) = (room.text.bytes(), &mut room.records);
    room.library.time(|| {
        read(text, records).map_err(|refused| Refusal {
            detail: fault_of_trace(text, refused, records).map(|fault| fault.why),
            refused,
        })
    })
}

/// Reads the text as lines of Telemotive ASCII.
pub fn ascii(room: &mut Room) -> Result<ReadAscii, Refusal> {
    let (text, records) = (room.text.bytes(), &mut room.records);
    room.library.time(|| {
        read_ascii(text, records).map_err(|refused| Refusal {
            detail: ascii_detail(text, refused),
            refused,
        })
    })
}

/// What is wrong with a line that is none; for any other refusal its own words say all.
fn ascii_detail(text: &[u8], refused: Refused) -> Option<String> {
    let is_none = refused.reason == Reason::NoAsciiLine;
    let fault = is_none.then(|| fault_of_ascii(text, refused)).flatten();
    fault.map(|fault| fault.why)
}

impl Refusal {
    /// One of which there is no more to say.
    pub fn alone(refused: Refused) -> Refusal {
        Refusal {
            refused,
            detail: None,
        }
    }
}

impl Made {
    /// What is known of a trace when it is read; the records begin with its own.
    pub fn of(trace: &Read, records: &[u8]) -> Made {
        Made {
            version: Some(trace.version),
            start: trace.start,
            first: Some(trace.first),
            first_step_back: trace.step_back.map(|at| trace.first + at as u64 - 1),
            counts: counted(Count::Rows, trace.rows, records),
            bytes: 0,
        }
    }

    /// What is known of lines of Telemotive ASCII when they are read; the records begin with theirs.
    pub fn of_ascii(lines: &ReadAscii, records: &[u8]) -> Made {
        let steps_back = |record| unpack(record).is_ok_and(|record| record.mark);
        let mut own = records.chunks(RECORD).take(lines.records);
        Made {
            version: None,
            start: lines.start,
            first: None,
            first_step_back: own.position(steps_back).map(|at| at as u64 + 1),
            counts: counted(Count::Lines, lines.records, records),
            bytes: 0,
        }
    }
}

fn counted(what: Count, number: usize, records: &[u8]) -> Counts {
    Counts::default()
        .with(what, number)
        .with(Count::StepsBack, count_steps(&records[..number * RECORD]))
}
