//! The files of the night, and what must come out of each: counts from how it was made, bytes from the second implementation.

use super::{differs, with, Tried, TRACES};
use crate::expert;
use crate::week::{Made, Plan};
use bushingowl::{MOST_LINE, MOST_ROWS, RECORD};
use std::fs::{self, File};
use std::hash::{DefaultHasher, Hasher};
use std::io::Write;
use std::path::Path;
use std::time::{Duration, Instant};

/// The channel of rows without a bus, where no other is asked for.
const CHANNEL: u64 = 1;

pub struct Known {
    pub plan: Plan,
    pub made: Made,
    /// The bytes of the trace.
    pub bytes: u64,
    pub ending: Ending,
}

#[derive(Clone, Copy)]
pub enum Ending {
    Done(Digest),
    /// The number and the line.
    Refused(u64, u64),
}

/// What is kept of an output: two that differ have the same digest once in 2^64 times.
#[derive(Clone, Copy, PartialEq, Eq)]
pub struct Digest {
    pub bytes: u64,
    hash: u64,
}

impl Digest {
    pub fn new(bytes: &[u8]) -> Digest {
        let mut hasher = DefaultHasher::new();
        hasher.write(bytes);
        Digest {
            bytes: bytes.len() as u64,
            hash: hasher.finish(),
        }
    }
}

impl Known {
    /// Its name in the folder of the night.
    pub fn trace(&self) -> String {
        format!("{TRACES}/{}.trc", self.plan.stem())
    }

    pub fn is_refused(&self) -> bool {
        matches!(self.ending, Ending::Refused(..))
    }
}

/// Makes the files, each of which is on the disk before the next, so that no run waits for them. Gives the seconds that all the writing took.
pub fn make(folder: &Path, week: &[Plan]) -> Tried<(Vec<Made>, f64)> {
    let (mut text, mut writing) = (Vec::new(), Duration::ZERO);
    let mut all_made = Vec::new();
    for plan in week {
        all_made.push(plan.make(&mut text));
        let path = folder.join(TRACES).join(plan.stem() + ".trc");
        let write = || {
            fs::create_dir_all(path.parent().unwrap_or(folder))?;
            let mut file = File::create_new(&path)?;
            file.write_all(&text)?;
            file.sync_all()
        };
        let begin = Instant::now();
        write().map_err(with(&path))?;
        writing += begin.elapsed();
    }
    Ok((all_made, writing.as_secs_f64()))
}

/// Room for the records and the lines of one file.
struct Room {
    records: Vec<u8>,
    lines: Vec<u8>,
}

/// Reads all files, and has the second implementation convert them.
pub fn read(folder: &Path, week: Vec<Plan>, all_made: Vec<Made>) -> Tried<Vec<Known>> {
    let mut room = Room {
        records: vec![0; MOST_ROWS * RECORD],
        lines: vec![0; MOST_ROWS * MOST_LINE],
    };
    let mut read = |(plan, made): (Plan, Made)| {
        let path = folder.join(TRACES).join(plan.stem() + ".trc");
        let text = fs::read(&path).map_err(with(&path))?;
        let ending = room.ending(&text, &plan, &made)?;
        let bytes = text.len() as u64;
        Ok(Known {
            plan,
            made,
            bytes,
            ending,
        })
    };
    week.into_iter().zip(all_made).map(&mut read).collect()
}

impl Room {
    /// What comes of a file, which must be what it was made for.
    fn ending(&mut self, text: &[u8], plan: &Plan, made: &Made) -> Tried<Ending> {
        let answer = expert::read(text, &mut self.records);
        let [number, place, _, start, rows, ..] = answer;
        if let Some(fault) = plan.fault {
            return match number == fault.refusal() {
                true => Ok(Ending::Refused(number, place)),
                false => astray(plan, &answer),
            };
        }
        let version = plan.version.into();
        let known = [
            0,
            0,
            version,
            made.start,
            made.rows,
            made.first_step_back,
            1,
        ];
        if answer != known {
            return astray(plan, &answer);
        }
        let records = &self.records[..rows as usize * RECORD];
        let answer = expert::export(start, CHANNEL, records, &mut self.lines);
        let [number, _, bytes, lines, _] = answer;
        if (number, lines) != (0, made.lines) {
            return astray(plan, &answer);
        }
        Ok(Ending::Done(Digest::new(&self.lines[..bytes as usize])))
    }
}

/// The second implementation does not say what the file was made for.
fn astray<T>(plan: &Plan, answer: &[u64]) -> Tried<T> {
    let stem = plan.stem();
    differs(format!(
        "the second implementation says {answer:?} of {stem}, which was not made so"
    ))
}
