//! A run over files: planned, worked on side by side, and reported in the order of the files.

use crate::arguments::{number, Given, Usage};
use crate::jobs::{self, Ending, Finished, Shared, Work};
use crate::options::{FORCE, JOBS, REPORT_JSON};
use crate::output::say;
use crate::part::{folder_of, sweep, sync_names};
use crate::plan::{plan, Item, Naming};
use crate::progress::{Progress, EVERY};
use crate::report::{Report, Wording};
use crate::room;
use crate::status::Status;
use crate::words::{self, many};
use std::collections::BTreeSet;
use std::path::{Path, PathBuf};
use std::sync::mpsc::{channel, Receiver, RecvTimeoutError};
use std::thread;
use std::time::Instant;

/// The most jobs.
const MOST_JOBS: u64 = 256;

/// What a command wants done.
pub struct Run<'a> {
    pub work: &'a dyn Work,
    pub wording: Wording,
    /// How the names end of the files that are taken of a folder. Without it no folders are taken.
    pub ending: Option<&'static str>,
    /// Without it nothing is written.
    pub naming: Option<Naming>,
}

impl Run<'_> {
    pub fn over(self, given: &Given) -> Result<Status, Usage> {
        let jobs = jobs_of(given)?;
        if given.names.is_empty() {
            return Err(Usage("no file is named".to_string()));
        }
        let began = Instant::now();
        let plan = plan(&given.names, self.ending, self.naming.as_ref());
        plan.notes.iter().for_each(|note| say(note));
        folders(&plan.items).into_iter().for_each(sweep);
        let wanted = jobs.min(plan.items.len()).max(1);
        let room_for = |jobs: &usize| room::is_memory_for(*jobs, self.work.most_output());
        let jobs = (1..=wanted).rev().find(room_for).unwrap_or(0);
        let shared = Shared::new(&plan.items, self.work, given.has(&FORCE));
        let mut report = Report::new(self.wording, given.has(&REPORT_JSON));
        let (jobs, written) = thread::scope(|scope| {
            let (finished, results) = channel();
            let jobs = jobs::start(scope, jobs, &shared, &finished);
            drop(finished);
            tell_if_fewer(jobs, wanted);
            (jobs, reported(&plan.items, &results, &mut report))
        });
        if jobs == 0 {
            return Ok(Status::NotDone);
        }
        let synced = synced(&written);
        report.summary(jobs, began.elapsed());
        Ok(report.status().max(synced).max(report.output.end()))
    }
}

fn tell_if_fewer(jobs: usize, wanted: usize) {
    if jobs < wanted {
        let wanted = many(wanted as u64, "job", "jobs");
        say(&format!(
            "the system has no room for {wanted}: {jobs} at work"
        ));
    }
}

fn jobs_of(given: &Given) -> Result<usize, Usage> {
    let Some(word) = given.value(&JOBS) else {
        return Ok(thread::available_parallelism().map_or(1, usize::from));
    };
    match number(word) {
        Some(jobs @ 1..=MOST_JOBS) => Ok(jobs as usize),
        _ => Err(Usage(format!(
            "--jobs takes a number from 1 to {MOST_JOBS}"
        ))),
    }
}

/// The folders that outputs go to.
fn folders(items: &[Item]) -> BTreeSet<&Path> {
    let targets = items.iter().filter_map(|item| item.target.as_deref());
    targets.map(folder_of).collect()
}

/// Reports what comes, each file behind the one before it, and gives the folders in which something was written.
fn reported(
    items: &[Item],
    results: &Receiver<Finished>,
    report: &mut Report,
) -> BTreeSet<PathBuf> {
    let mut progress = Progress::new(items.len(), items.iter().map(|item| item.size).sum());
    let mut waiting: Vec<Option<Finished>> = items.iter().map(|_| None).collect();
    let mut written = BTreeSet::new();
    let mut next = 0;
    loop {
        match results.recv_timeout(EVERY) {
            Ok(finished) => {
                let index = finished.index;
                progress.add(items[index].size);
                waiting[index] = Some(finished);
            }
            Err(RecvTimeoutError::Timeout) => {}
            Err(RecvTimeoutError::Disconnected) => break,
        }
        while let Some(finished) = waiting.get_mut(next).and_then(Option::take) {
            let item = &items[next];
            if let (Ending::Done(_), Some(target)) = (&finished.ending, &item.target) {
                written.insert(folder_of(target).to_path_buf());
            }
            if report.tells_of(&finished) {
                progress.clear();
            }
            report.file(item, &finished);
            next += 1;
        }
        progress.show();
    }
    progress.end();
    written
}

/// Waits until the names, too, are on the disk.
fn synced(folders: &BTreeSet<PathBuf>) -> Status {
    let mut status = Status::AllDone;
    for folder in folders {
        if let Err(error) = sync_names(folder) {
            let (name, why) = (words::name(folder), words::error(&error));
            say(&format!("{name}: its names can't be synced: {why}"));
            status = Status::NotDone;
        }
    }
    status
}
