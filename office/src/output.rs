//! Standard output and standard error.

use crate::status::Status;
use crate::words;
use std::io::{self, BufWriter, ErrorKind, Write};

/// Standard output. The first error is kept, and nothing more is written behind it.
pub struct Output {
    writer: BufWriter<io::StdoutLock<'static>>,
    trouble: Option<io::Error>,
}

impl Output {
    pub fn new() -> Output {
        Output {
            writer: BufWriter::with_capacity(1 << 16, io::stdout().lock()),
            trouble: None,
        }
    }

    pub fn line(&mut self, text: &str) {
        self.tried(|writer| writeln!(writer, "{text}"));
    }

    /// Hands on what was written so far.
    pub fn flush(&mut self) {
        self.tried(|writer| writer.flush());
    }

    /// Whether nobody reads any more, or nothing can be written.
    pub fn is_closed(&self) -> bool {
        self.trouble.is_some()
    }

    fn tried(&mut self, write: impl FnOnce(&mut dyn Write) -> io::Result<()>) {
        if self.trouble.is_none() {
            self.trouble = write(&mut self.writer).err();
        }
    }

    /// A reader that has seen enough is no failure.
    pub fn end(mut self) -> Status {
        self.flush();
        match self.trouble.take() {
            None => Status::AllDone,
            Some(error) if error.kind() == ErrorKind::BrokenPipe => Status::AllDone,
            Some(error) => {
                let why = words::error(&error);
                say(&format!("standard output can't be written: {why}"));
                Status::NotDone
            }
        }
    }
}

/// Says something on standard error. Where not even that can be written, the exit status is all that is left.
pub fn say(text: &str) {
    let _ = writeln!(io::stderr(), "owl: {text}");
}
