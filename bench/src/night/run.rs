//! One run of `owl` over the week.

use super::folder::Folder;
use super::known::Known;
use super::processor::{cores, Core, Spent};
use super::report::{self, Measured};
use super::{differs, not_done, outputs, with, Tried, LINES, TRACES};
use std::fs::File;
use std::io::Read;
use std::path::{Path, PathBuf};
use std::process::{Command, Output};
use std::time::Instant;

pub struct Night<'a> {
    /// The command.
    pub owl: PathBuf,
    pub folder: &'a Folder,
    pub core: &'a Core,
    pub known: Vec<Known>,
}

/// What a run took.
pub struct Run {
    pub measured: Measured,
    /// The seconds as they are seen from outside.
    pub outside: f64,
    pub spent: Option<Spent>,
}

/// What the command says of itself, asked before all else.
pub fn version(owl: &Path) -> Tried<String> {
    let asked = Command::new(owl).arg("--version").output();
    let output = asked.map_err(|error| not_done(owl.display(), error))?;
    let said = String::from_utf8_lossy(&output.stdout).trim().to_string();
    match output.status.success() && !said.is_empty() {
        true => Ok(said),
        false => differs(format!("{} does not say its version", owl.display())),
    }
}

impl Night<'_> {
    /// The bytes of all traces.
    pub fn bytes(&self) -> u64 {
        self.known.iter().map(|known| known.bytes).sum()
    }

    /// How many traces must be refused.
    pub fn refused(&self) -> usize {
        let refused = self.known.iter().filter(|known| known.is_refused());
        refused.count()
    }

    /// Reads all traces, so that the system has them in memory: what was read since may have taken their place.
    fn read_all(&self) -> Tried<()> {
        let mut piece = vec![0; 1 << 20];
        for known in &self.known {
            let path = self.folder.path().join(known.trace());
            let mut read = || {
                let mut file = File::open(&path)?;
                while file.read(&mut piece)? > 0 {}
                Ok(())
            };
            read().map_err(with(&path))?;
        }
        Ok(())
    }

    /// Runs it on one core or on all, and checks all that it says and leaves.
    pub fn run(&self, one_core: bool) -> Tried<Run> {
        self.folder.put_aside(LINES)?;
        self.read_all()?;
        let mut command = match one_core {
            true => self.core.command(&self.owl),
            false => Command::new(&self.owl),
        };
        command.args(["convert", TRACES, "-o", LINES, "--json"]);
        if one_core {
            command.args(["--jobs", "1"]);
        }
        let jobs = if one_core { 1 } else { cores() };
        command.current_dir(self.folder.path());
        let (before, begin) = (Spent::by_commands(), Instant::now());
        let output = command.output();
        let outside = begin.elapsed().as_secs_f64();
        let after = Spent::by_commands();
        let output = output.map_err(|error| not_done(self.owl.display(), error))?;
        Ok(Run {
            measured: self.check(&output, jobs)?,
            outside,
            spent: after.zip(before).map(|(after, before)| after.since(before)),
        })
    }

    /// The exit status is that of a run in which some files were refused, and nothing went wrong.
    fn check(&self, output: &Output, jobs: usize) -> Tried<Measured> {
        let complaint = String::from_utf8_lossy(&output.stderr);
        if !complaint.is_empty() {
            return differs(format!("owl said on standard error: {complaint}"));
        }
        if output.status.code() != Some(1) {
            let status = output.status;
            return differs(format!("owl ended with {status}, where 1 was due"));
        }
        let said = String::from_utf8_lossy(&output.stdout);
        let measured = report::check(&said, jobs, &self.known)?;
        outputs::check(self.folder.path(), &self.known)?;
        Ok(measured)
    }
}
