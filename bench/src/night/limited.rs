//! A command that may take so long and no longer.

use super::{with, Tried};
use std::fs::{self, File};
use std::io;
use std::path::Path;
use std::process::{Child, Command, ExitStatus, Stdio};
use std::thread::sleep;
use std::time::{Duration, Instant};

const LIMIT: Duration = Duration::from_secs(120);
/// How often it is asked whether it is done.
const PATIENCE: Duration = Duration::from_millis(2);

pub struct Outcome {
    /// Nothing if it took too long, and was ended.
    pub status: Option<ExitStatus>,
    pub seconds: f64,
    /// The last line on standard error.
    pub said: Option<String>,
}

impl Outcome {
    pub fn is_success(&self) -> bool {
        self.status.is_some_and(|status| status.success())
    }
}

/// Runs a command, with its standard error kept in a file.
pub fn run(command: &mut Command, errors: &Path) -> Tried<Outcome> {
    let kept = File::create(errors).map_err(with(errors))?;
    command.stdin(Stdio::null()).stdout(Stdio::null());
    command.stderr(kept);
    let program = Path::new(command.get_program()).to_path_buf();
    let begin = Instant::now();
    let mut child = command.spawn().map_err(with(&program))?;
    let status = wait(&mut child, begin).map_err(with(&program))?;
    let seconds = begin.elapsed().as_secs_f64();
    let said = fs::read(errors).map_err(with(errors))?;
    let said = String::from_utf8_lossy(&said);
    let said = said.lines().last().map(str::to_string);
    Ok(Outcome {
        status,
        seconds,
        said,
    })
}

fn wait(child: &mut Child, begin: Instant) -> io::Result<Option<ExitStatus>> {
    while begin.elapsed() < LIMIT {
        if let Some(status) = child.try_wait()? {
            return Ok(Some(status));
        }
        sleep(PATIENCE);
    }
    child.kill()?;
    child.wait()?;
    Ok(None)
}
