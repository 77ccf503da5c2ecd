//! What is said of each file, and of all of them.

use crate::counts::{Count, Counts};
use crate::jobs::{Ending, Finished, Made, Refusal};
use crate::json::Object;
use crate::output::{say, Output};
use crate::plan::Item;
use crate::status::Status;
use crate::words::{self, many};
use bushingowl::separated;
use std::collections::BTreeMap;
use std::fs;
use std::time::Duration;

/// How a command speaks of its work.
#[derive(Clone, Copy)]
pub struct Wording {
    /// What became of a file that is done.
    pub done: &'static str,
    /// What is counted in it.
    pub counts: &'static [Count],
}

pub struct Report {
    wording: Wording,
    json: bool,
    pub output: Output,
    counts: Counts,
    done: u64,
    there: u64,
    failed: u64,
    refused: BTreeMap<u64, u64>,
    bytes_read: u64,
    bytes_written: u64,
    library: Duration,
}

impl Report {
    pub fn new(wording: Wording, json: bool) -> Report {
        Report {
            wording,
            json,
            output: Output::new(),
            counts: Counts::default(),
            done: 0,
            there: 0,
            failed: 0,
            refused: BTreeMap::new(),
            bytes_read: 0,
            bytes_written: 0,
            library: Duration::ZERO,
        }
    }

    /// Whether there is something to say of a file.
    pub fn tells_of(&self, finished: &Finished) -> bool {
        self.json || matches!(finished.ending, Ending::Refused(_) | Ending::Failed(_))
    }

    /// Says what is to be said of a file, and counts it.
    pub fn file(&mut self, item: &Item, finished: &Finished) {
        self.bytes_read += finished.bytes_read as u64;
        self.bytes_written += finished.bytes_written() as u64;
        self.library += finished.library;
        let name = words::name(&item.source);
        match &finished.ending {
            Ending::Done(made) => {
                self.done += 1;
                self.counts.add(&made.counts);
            }
            Ending::There(made) => {
                self.there += 1;
                self.counts.add(&made.counts);
            }
            Ending::Refused(refusal) => {
                *self.refused.entry(refusal.refused.number()).or_default() += 1;
                if !self.json {
                    self.output.line(&format!("{name}: {}", refusal.words()));
                }
            }
            Ending::Failed(why) => {
                self.failed += 1;
                say(&format!("{name}: {why}"));
            }
        }
        if self.json {
            self.output.line(&self.object(item, finished));
        }
        self.output.flush();
    }

    fn object(&self, item: &Item, finished: &Finished) -> String {
        let object = Object::new().name("file", item.source.as_os_str());
        let object = match &finished.ending {
            Ending::Done(made) => self.made(object.text("status", "done"), item, made),
            Ending::There(made) => self.made(object.text("status", "there"), item, made),
            Ending::Refused(Refusal { refused, detail }) => {
                let object = object
                    .text("status", "refused")
                    .plain("refusal", refused.number())
                    .plain("place", refused.place)
                    .text("reason", &refused.to_string());
                match detail {
                    Some(detail) => object.text("detail", detail),
                    None => object,
                }
            }
            Ending::Failed(why) => object.text("status", "failed").text("error", why),
        };
        object
            .plain("bytes_read", finished.bytes_read)
            .plain("bytes_written", finished.bytes_written())
            .end()
    }

    fn made(&self, object: Object, item: &Item, made: &Made) -> Object {
        let mut object = match &item.target {
            Some(target) => object.name("output", target.as_os_str()),
            None => object,
        };
        if let Some(version) = made.version {
            object = object.text("version", words::version(version));
        }
        object = object.plain("start", made.start);
        if let Some(first) = made.first {
            object = object.plain("first", first);
        }
        for count in self.wording.counts {
            object = object.plain(count.key(), made.counts.of(*count));
        }
        object.maybe("first_step_back", made.first_step_back)
    }

    /// The words, or the object, for all files.
    pub fn summary(&mut self, jobs: usize, taken: Duration) {
        if self.json {
            let summary = self.summary_object(jobs, taken);
            self.output
                .line(&Object::new().plain("summary", summary).end());
            return;
        }
        self.output.line(&self.files());
        let counts = self.wording.counts.iter().map(|count| {
            let (one, more) = count.nouns();
            many(self.counts.of(*count), one, more)
        });
        let counts: Vec<String> = counts.collect();
        self.output.line(&counts.join(", "));
        if !self.refused.is_empty() {
            let numbers = self.refused.iter();
            let numbers = numbers
                .map(|(number, files)| format!("{number} in {}", many(*files, "file", "files")));
            let numbers: Vec<String> = numbers.collect();
            self.output
                .line(&format!("refused by number: {}", numbers.join(", ")));
        }
    }

    fn refused_files(&self) -> u64 {
        self.refused.values().sum()
    }

    fn all_files(&self) -> u64 {
        self.done + self.there + self.refused_files() + self.failed
    }

    fn files(&self) -> String {
        let all = many(self.all_files(), "file", "files");
        let done = self.wording.done;
        let mut text = format!("{all}: {} {done}", separated(self.done));
        let others = [
            (self.there, "already there"),
            (self.refused_files(), "refused"),
            (self.failed, "could not be done"),
        ];
        for (number, what) in others {
            if number > 0 {
                text += &format!(", {} {what}", separated(number));
            }
        }
        text
    }

    fn summary_object(&self, jobs: usize, taken: Duration) -> String {
        let mut object = Object::new()
            .plain("files", self.all_files())
            .plain("done", self.done)
            .plain("there", self.there)
            .plain("refused", self.refused_files())
            .plain("failed", self.failed);
        for count in self.wording.counts {
            object = object.plain(count.key(), self.counts.of(*count));
        }
        let by_number = self.refused.iter();
        let by_number = by_number.fold(Object::new(), |object, (number, files)| {
            object.plain(&number.to_string(), files)
        });
        object
            .plain("bytes_read", self.bytes_read)
            .plain("bytes_written", self.bytes_written)
            .plain("refused_by_number", by_number.end())
            .plain("jobs", jobs)
            .plain("seconds", seconds(taken))
            .plain("library_seconds", seconds(self.library))
            .maybe("peak_bytes", peak_bytes())
            .end()
    }

    /// How the run ends, standard output aside.
    pub fn status(&self) -> Status {
        match (self.failed, self.refused_files()) {
            (0, 0) => Status::AllDone,
            (0, _) => Status::SomeRefused,
            _ => Status::NotDone,
        }
    }
}

impl Refusal {
    /// The reason and, where there is more to say, what is wrong.
    pub fn words(&self) -> String {
        match &self.detail {
            Some(detail) => format!("{}: {detail}", self.refused),
            None => self.refused.to_string(),
        }
    }
}

fn seconds(time: Duration) -> String {
    format!("{:.6}", time.as_secs_f64())
}

/// The most memory that this process has held, as Linux counts it.
fn peak_bytes() -> Option<u64> {
    let status = fs::read_to_string("/proc/self/status").ok()?;
    let line = status
        .lines()
        .find_map(|line| line.strip_prefix("VmHWM:"))?;
    let kilobytes: u64 = line.trim().strip_suffix(" kB")?.parse().ok()?;
    Some(kilobytes * 1024)
}
