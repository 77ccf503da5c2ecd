//! How far a run has come: a line on a terminal, and nothing elsewhere.

use crate::words::many;
use bushingowl::separated;
use std::io::{self, IsTerminal, Write};
use std::time::{Duration, Instant};

/// How often the line is shown anew.
pub const EVERY: Duration = Duration::from_millis(100);

/// A run that is over before needs no line.
const AFTER: Duration = Duration::from_millis(300);

pub struct Progress {
    on_terminal: bool,
    began: Instant,
    /// When the line that stands there was written.
    shown: Option<Instant>,
    /// Whether it was ever shown.
    was_shown: bool,
    files: usize,
    bytes: u64,
    files_done: usize,
    bytes_done: u64,
}

impl Progress {
    pub fn new(files: usize, bytes: u64) -> Progress {
        Progress {
            on_terminal: io::stderr().is_terminal(),
            began: Instant::now(),
            shown: None,
            was_shown: false,
            files,
            bytes,
            files_done: 0,
            bytes_done: 0,
        }
    }

    pub fn add(&mut self, bytes: u64) {
        self.files_done += 1;
        self.bytes_done += bytes;
    }

    /// Shows the line, if it is time to.
    pub fn show(&mut self) {
        let now = Instant::now();
        let is_due = self.shown.is_none_or(|shown| now - shown >= EVERY);
        if self.on_terminal && is_due && now - self.began >= AFTER {
            self.shown = Some(now);
            self.was_shown = true;
            let text = self.text(now - self.began);
            let _ = write!(io::stderr(), "\r\x1b[K{text}");
        }
    }

    /// Makes way for another line.
    pub fn clear(&mut self) {
        if self.shown.take().is_some() {
            let _ = write!(io::stderr(), "\r\x1b[K");
        }
    }

    /// What it came to, in place of the line.
    pub fn end(&mut self) {
        self.clear();
        if self.was_shown {
            let taken = self.began.elapsed();
            let (done, rate) = (megabytes(self.bytes_done), megabytes(self.rate(taken)));
            let seconds = taken.as_secs_f64();
            let _ = writeln!(io::stderr(), "{done} MB in {seconds:.1} s, {rate} MB/s");
        }
    }

    /// Bytes a second.
    fn rate(&self, taken: Duration) -> u64 {
        (self.bytes_done as f64 / taken.as_secs_f64().max(0.001)) as u64
    }

    fn text(&self, taken: Duration) -> String {
        let rate = self.rate(taken);
        let mut text = format!(
            "{} of {}, {} of {} MB, {} MB/s",
            separated(self.files_done as u64),
            many(self.files as u64, "file", "files"),
            megabytes(self.bytes_done),
            megabytes(self.bytes),
            megabytes(rate)
        );
        if rate > 0 && self.files_done < self.files {
            let left = self.bytes.saturating_sub(self.bytes_done).div_ceil(rate);
            text += &format!(", {} left", clock(left));
        }
        text
    }
}

fn megabytes(bytes: u64) -> String {
    separated(bytes / 1_000_000)
}

fn clock(seconds: u64) -> String {
    let (hours, minutes, seconds) = (seconds / 3600, seconds / 60 % 60, seconds % 60);
    match (hours, minutes) {
        (0, 0) => format!("{seconds} s"),
        (0, _) => format!("{minutes}:{seconds:02}"),
        _ => format!("{hours}:{minutes:02}:{seconds:02}"),
    }
}

#[cfg(test)]
mod tests {
    use super::*;

    #[test]
    fn the_line_tells_how_far_it_has_come() {
        let progress = Progress {
            on_terminal: false,
            began: Instant::now(),
            shown: None,
            was_shown: false,
            files: 420,
            bytes: 4_000_000_000,
            files_done: 105,
            bytes_done: 1_000_000_000,
        };
        let text = progress.text(Duration::from_secs(2));
        assert_eq!(
            text,
            "105 of 420 files, 1,000 of 4,000 MB, 500 MB/s, 6 s left"
        );
    }

    #[test]
    fn times_are_read_at_a_glance() {
        assert_eq!([5, 65, 3725].map(clock), ["5 s", "1:05", "1:02:05"]);
    }
}
