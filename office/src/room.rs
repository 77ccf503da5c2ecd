//! What a job works with, allocated once and kept: one text, its records and its output.

use bushingowl::{MOST_ROWS, MOST_TEXT, RECORD};
use std::fs::File;
use std::io::{self, ErrorKind, Read};
use std::path::Path;
use std::sync::mpsc::Receiver;
use std::time::{Duration, Instant};

/// The room of a job. What is not used of it is not held in memory.
pub struct Room {
    pub text: Text,
    pub records: Vec<u8>,
    pub output: Lent,
    pub library: Timer,
}

impl Room {
    pub fn new(output: Lent) -> Room {
        Room {
            text: Text::new(),
            records: vec![0; MOST_RECORDS],
            output,
            library: Timer::default(),
        }
    }

    /// For a command without outputs.
    pub fn without_output() -> Room {
        Room::new(Lent::nothing())
    }
}

/// The most bytes of the records of a text.
const MOST_RECORDS: usize = MOST_ROWS * RECORD;

/// Whether the system would give so many rooms with outputs of this size. It is asked for all at once, before the first is made: a vector that can't be had
/// ends the program.
pub fn is_memory_for(rooms: usize, most_output: usize) -> bool {
    let bytes = MOST_TEXT + 1 + MOST_RECORDS + most_output + PAGE;
    let all = bytes.saturating_mul(rooms);
    Vec::<u8>::new().try_reserve_exact(all).is_ok()
}

/// The text of a file.
pub struct Text {
    bytes: Vec<u8>,
    length: usize,
}

impl Text {
    fn new() -> Text {
        // One byte more than a text may have: the library refuses what fills it.
        let bytes = vec![0; MOST_TEXT + 1];
        Text { bytes, length: 0 }
    }

    pub fn bytes(&self) -> &[u8] {
        &self.bytes[..self.length]
    }

    /// How long it is; from now on it is empty.
    pub fn take_length(&mut self) -> usize {
        std::mem::take(&mut self.length)
    }

    /// Reads a file, up to the byte that is one too many.
    pub fn load(&mut self, path: &Path) -> io::Result<()> {
        self.length = 0;
        let mut file = File::open(path)?;
        while self.length < self.bytes.len() {
            match file.read(&mut self.bytes[self.length..]) {
                Ok(0) => break,
                Ok(count) => self.length += count,
                Err(error) if error.kind() == ErrorKind::Interrupted => {}
                Err(error) => return Err(error),
            }
        }
        Ok(())
    }
}

/// Bytes that begin where a page does, so that a disk can take them from where they are.
pub struct Buffer {
    bytes: Vec<u8>,
    begin: usize,
}

/// The size of a page, and of the blocks that a disk takes.
pub const PAGE: usize = 4096;

impl Buffer {
    pub fn new(length: usize) -> Buffer {
        let mut bytes = vec![0; length + PAGE];
        let begin = bytes.as_ptr().align_offset(PAGE).min(PAGE);
        bytes.truncate(begin + length);
        Buffer { bytes, begin }
    }

    pub fn bytes(&self) -> &[u8] {
        &self.bytes[self.begin..]
    }

    pub fn bytes_mut(&mut self) -> &mut [u8] {
        &mut self.bytes[self.begin..]
    }
}

/// The output of a job. While it is being written to a file, it is lent out and comes back.
pub struct Lent {
    here: Option<Buffer>,
    back: Option<Receiver<Buffer>>,
}

impl Lent {
    pub fn new(buffer: Buffer, back: Receiver<Buffer>) -> Lent {
        Lent {
            here: Some(buffer),
            back: Some(back),
        }
    }

    fn nothing() -> Lent {
        Lent {
            here: None,
            back: None,
        }
    }

    /// All of its bytes, as soon as it is back. Nothing where it does not come back any more.
    pub fn bytes(&mut self) -> &mut [u8] {
        if self.here.is_none() {
            self.here = self.back.as_ref().and_then(|back| back.recv().ok());
        }
        self.here
            .as_mut()
            .map(Buffer::bytes_mut)
            .unwrap_or_default()
    }

    pub fn lend(&mut self) -> Option<Buffer> {
        self.here.take()
    }
}

/// The time that is spent in the library.
#[derive(Default)]
pub struct Timer(Duration);

impl Timer {
    pub fn time<T>(&mut self, call: impl FnOnce() -> T) -> T {
        let began = Instant::now();
        let answer = call();
        self.0 += began.elapsed();
        answer
    }

    /// The time since it was last asked for.
    pub fn taken(&mut self) -> Duration {
        std::mem::take(&mut self.0)
    }
}
