//! python-can's converter on some of the same files, where it is installed. It writes another format, Vector's ASC.

use super::folder::Folder;
use super::known::Known;
use super::limited::{self, Outcome};
use super::processor::Core;
use super::table::speed;
use super::{say, with, Tried, OTHERS};
use std::fs;
use std::process::Command;

/// So many files are timed.
const TIMED: usize = 3;
const CONVERTER: [&str; 2] = ["-m", "can.logconvert"];

/// A Python that has the package.
pub struct Python<'a> {
    program: &'static str,
    version: String,
    folder: &'a Folder,
    core: &'a Core,
}

impl<'a> Python<'a> {
    pub fn find(folder: &'a Folder, core: &'a Core) -> Option<Python<'a>> {
        let programs = ["python3", "/usr/bin/python3"];
        programs.into_iter().find_map(|program| {
            let mut command = Command::new(program);
            let asked = command.args(["-c", "import can; print(can.__version__)"]);
            let output = asked.output().ok().filter(|said| said.status.success())?;
            let version = String::from_utf8_lossy(&output.stdout).trim().to_string();
            Some(Python {
                program,
                version,
                folder,
                core,
            })
        })
    }

    /// Prints what it does with some files of the night, and how fast; `owl` is the speed to set beside it, on one core.
    pub fn compare(&self, all: &[Known], owl: f64) -> Tried<()> {
        let (version, core) = (&self.version, self.core.words());
        say("");
        say(format_args!("python-can {version}, its converter, a file a run, {core}. It writes another format, Vector's ASC, and does not wait for the disk."));
        say("");
        say("| Trace | Version | What is in it | MB | Seconds | What became of it |");
        say("|---|---|---|---:|---:|---|");
        let (mut count, mut bytes, mut seconds) = (0, 0, 0.0);
        for (known, timed) in chosen(all) {
            let outcome = self.convert(known)?;
            print(known, &outcome);
            if timed && outcome.is_success() {
                count += 1;
                bytes += known.bytes;
                seconds += outcome.seconds;
            }
        }
        say("");
        if count == 0 {
            say("It converted none of the files that are good.");
            return Ok(());
        }
        let start = self.start()?;
        let (mb, whole) = (bytes as f64 / 1e6, speed(bytes, seconds));
        let speed = speed(bytes, seconds - start * f64::from(count));
        let ratio = owl / speed;
        say(format_args!("It converts what it can read of the good ones, {mb:.1} MB, at {whole:.2} MB/s, and at {speed:.2} without its start, which takes {start:.2} seconds a file."));
        say(format_args!(
            "owl on one core, at {owl:.0} MB/s, is {ratio:.0} times as fast as that."
        ));
        Ok(())
    }

    fn convert(&self, known: &Known) -> Tried<Outcome> {
        let mut command = self.core.command(self.program);
        command.args(CONVERTER).arg(known.trace());
        command.arg(format!("{OTHERS}/made.asc"));
        self.run(&mut command)
    }

    /// The seconds that it takes to begin.
    fn start(&self) -> Tried<f64> {
        let mut command = self.core.command(self.program);
        let outcome = self.run(command.args(CONVERTER).arg("--help"))?;
        Ok(outcome.seconds)
    }

    fn run(&self, command: &mut Command) -> Tried<Outcome> {
        let others = self.folder.path().join(OTHERS);
        fs::create_dir_all(&others).map_err(with(&others))?;
        command.current_dir(self.folder.path());
        limited::run(command, &others.join("errors"))
    }
}

/// Good files, old ones first, which are timed, and the broken ones whose version it may read.
fn chosen(all: &[Known]) -> Vec<(&Known, bool)> {
    let first_days = all.iter().filter(|known| known.plan.day == 1);
    let good = first_days.filter(|known| !known.is_refused());
    let of = |version: u32, asks: bool| {
        let fits = move |known: &&Known| (known.plan.version, known.plan.asks) == (version, asks);
        good.clone().filter(fits)
    };
    let old = of(11, false).take(TIMED).map(|known| (known, true));
    let asking = of(11, true).take(1);
    // If it reads version 1.2, this one is timed, too.
    let new = of(12, false).take(1).map(|known| (known, true));
    let broken = all.iter().filter(|known| known.is_refused());
    let broken = broken.filter(|known| known.plan.version == 11);
    let untimed = asking.chain(broken).map(|known| (known, false));
    old.chain(new).chain(untimed).collect()
}

fn print(known: &Known, outcome: &Outcome) {
    let (stem, part) = (known.plan.stem(), known.plan.version - 10);
    let what = match known.plan.fault {
        Some(fault) => fault.name(),
        None if known.plan.asks => "remote frames, too",
        None => "good",
    };
    let (mb, seconds) = (known.bytes as f64 / 1e6, outcome.seconds);
    let became = match outcome.status {
        None => "ended, since it took too long".to_string(),
        Some(_) if outcome.is_success() => "converted".to_string(),
        Some(status) => format!("given up, {status}"),
    };
    let said = outcome.said.as_ref();
    let said = said.map(|said| format!(", and said: {said}"));
    let said = said.unwrap_or_default();
    say(format_args!(
        "| {stem} | 1.{part} | {what} | {mb:.2} | {seconds:.2} | {became}{said} |"
    ));
}
