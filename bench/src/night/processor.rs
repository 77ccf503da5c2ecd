//! Cores, and the time on them.

use std::ffi::OsStr;
use std::fs;
use std::process::Command;
use std::thread::available_parallelism;

/// Linux tells processor times in hundredths of a second, whatever its own clock is.
const TICKS: f64 = 100.0;

/// Processor time in seconds.
#[derive(Clone, Copy, Default)]
pub struct Spent {
    pub user: f64,
    pub system: f64,
}

impl Spent {
    /// That of all commands that have been run so far; nothing where the system does not tell it.
    pub fn by_commands() -> Option<Spent> {
        let stat = fs::read_to_string("/proc/self/stat").ok()?;
        // The program's name may have blanks in it; behind its bracket the state is the third field.
        let mut fields = stat[stat.rfind(')')? + 1..].split_whitespace();
        let user: f64 = fields.nth(16 - 3)?.parse().ok()?;
        let system: f64 = fields.next()?.parse().ok()?;
        Some(Spent {
            user: user / TICKS,
            system: system / TICKS,
        })
    }

    pub fn since(self, before: Spent) -> Spent {
        Spent {
            user: self.user - before.user,
            system: self.system - before.system,
        }
    }
}

/// So many cores there are.
pub fn cores() -> usize {
    available_parallelism().map_or(1, usize::from)
}

/// The core that commands on one core are bound to.
pub struct Core(Option<String>);

impl Core {
    /// The first one that may be used, if there is a `taskset` to bind by.
    pub fn find() -> Core {
        let core = first_allowed().unwrap_or_else(|| "0".to_string());
        let bound = Command::new("taskset").args(["-c", &core, "true"]).output();
        let works = bound.is_ok_and(|output| output.status.success());
        Core(works.then_some(core))
    }

    /// Where its commands run.
    pub fn words(&self) -> String {
        match &self.0 {
            Some(core) => format!("bound to core {core}"),
            None => "not bound to a core, since there is no taskset".to_string(),
        }
    }

    /// A command on this core, or where the system puts it.
    pub fn command(&self, program: impl AsRef<OsStr>) -> Command {
        let Some(core) = &self.0 else {
            return Command::new(program);
        };
        let mut command = Command::new("taskset");
        command.args(["-c", core]).arg(program);
        command
    }
}

fn first_allowed() -> Option<String> {
    let status = fs::read_to_string("/proc/self/status").ok()?;
    let mut lines = status.lines();
    let list = lines.find_map(|line| line.strip_prefix("Cpus_allowed_list:"))?;
    let first = list.trim().split(['-', ',']).next()?;
    Some(first.to_string())
}
