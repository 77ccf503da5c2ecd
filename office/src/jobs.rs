//! Files side by side.
//!
//! Each job has a room and two threads. One reads and calls the library; the other puts the outputs under their names and waits for the disk, while the first
//! has gone on to the next file.

use crate::counts::Counts;
use crate::part::{self, Put};
use crate::plan::Item;
use crate::room::{Buffer, Lent, Room};
use crate::words;
use bushingowl::Refused;
use std::path::Path;
use std::sync::atomic::{AtomicUsize, Ordering};
use std::sync::mpsc::{channel, sync_channel, Receiver, Sender, SyncSender};
use std::thread::{Builder, Scope};
use std::time::Duration;

/// What a command does with the text of a file.
pub trait Work: Sync {
    /// The most bytes that it puts out.
    fn most_output(&self) -> usize;

    /// Takes the text of the room, and leaves the output at the beginning of the room's.
    fn work(&self, room: &mut Room) -> Result<Made, Refusal>;
}

/// What was made of a text.
pub struct Made {
    /// 11 or 12; Telemotive ASCII has none.
    pub version: Option<u32>,
    pub start: u64,
    /// The number of the first row.
    pub first: Option<u64>,
    /// The number of the first row that steps back.
    pub first_step_back: Option<u64>,
    pub counts: Counts,
    /// The bytes of the output.
    pub bytes: usize,
}

pub struct Refusal {
    pub refused: Refused,
    pub detail: Option<String>,
}

pub enum Ending {
    Done(Made),
    /// The output was there already, just so.
    There(Made),
    Refused(Refusal),
    Failed(String),
}

/// A file that has been worked on.
pub struct Finished {
    /// Which of the items.
    pub index: usize,
    pub ending: Ending,
    pub bytes_read: usize,
    /// The time spent in the library.
    pub library: Duration,
}

impl Finished {
    pub fn bytes_written(&self) -> usize {
        match &self.ending {
            Ending::Done(made) => made.bytes,
            _ => 0,
        }
    }
}

/// Works on all items, so many side by side, and sends what became of each, in any order. Gives the number of jobs that were started: fewer where the system
/// gives no more threads. All rooms are made before the first thread is, which takes memory as well.
pub fn start<'scope>(
    scope: &'scope Scope<'scope, '_>,
    jobs: usize,
    shared: &'scope Shared<'scope>,
    finished: &Sender<Finished>,
) -> usize {
    let rooms: Vec<_> = (0..jobs).map(|_| shared.room()).collect();
    let started = rooms.into_iter().map(|(room, give_back)| {
        let finished = finished.clone();
        let (made, to_be_put) = sync_channel(1);
        let put = move || shared.put_all(&to_be_put, &give_back, &finished);
        let make = move || shared.make_all(room, &made);
        // Without the second thread the first one ends, as there is nobody who makes something to put.
        let put = Builder::new().spawn_scoped(scope, put);
        put.is_ok() && Builder::new().spawn_scoped(scope, make).is_ok()
    });
    started.take_while(|started| *started).count()
}

/// What all jobs share.
pub struct Shared<'a> {
    items: &'a [Item],
    work: &'a dyn Work,
    /// Whether outputs that are there are replaced.
    replace: bool,
    next: AtomicUsize,
}

/// What goes from the one thread of a job to the other.
struct ToPut {
    finished: Finished,
    output: Option<Buffer>,
}

impl<'a> Shared<'a> {
    pub fn new(items: &'a [Item], work: &'a dyn Work, replace: bool) -> Shared<'a> {
        let next = AtomicUsize::new(0);
        Shared {
            items,
            work,
            replace,
            next,
        }
    }

    /// The room of a job, and the way on which its output comes back.
    fn room(&self) -> (Room, Sender<Buffer>) {
        let (give_back, back) = channel();
        let output = Buffer::new(self.work.most_output());
        (Room::new(Lent::new(output, back)), give_back)
    }

    fn make_all(&self, mut room: Room, made: &SyncSender<ToPut>) {
        loop {
            let index = self.next.fetch_add(1, Ordering::Relaxed);
            let Some(item) = self.items.get(index) else {
                return;
            };
            let ending = self.make(item, &mut room);
            let has_output = item.target.is_some() && matches!(ending, Ending::Done(_));
            let output = if has_output { room.output.lend() } else { None };
            let finished = Finished {
                index,
                ending,
                bytes_read: room.text.take_length(),
                library: room.library.taken(),
            };
            if made.send(ToPut { finished, output }).is_err() {
                return;
            }
        }
    }

    /// Works on one file, up to its output in the room.
    fn make(&self, item: &Item, room: &mut Room) -> Ending {
        if let Some(trouble) = &item.trouble {
            return Ending::Failed(trouble.clone());
        }
        if let Err(error) = room.text.load(&item.source) {
            let why = words::error(&error);
            return Ending::Failed(format!("can't be read: {why}"));
        }
        match self.work.work(room) {
            Ok(made) => Ending::Done(made),
            Err(refusal) => Ending::Refused(refusal),
        }
    }

    fn put_all(
        &self,
        to_be_put: &Receiver<ToPut>,
        give_back: &Sender<Buffer>,
        finished: &Sender<Finished>,
    ) {
        for ToPut {
            finished: mut file,
            output,
        } in to_be_put
        {
            if let (Some(output), Some(target)) = (output, &self.items[file.index].target) {
                file.ending = self.put(target, file.ending, output.bytes());
                // Without files left, nobody waits for it.
                let _ = give_back.send(output);
            }
            if finished.send(file).is_err() {
                return;
            }
        }
    }

    /// Puts an output under its name, and tells what became of the file.
    fn put(&self, target: &Path, ending: Ending, output: &[u8]) -> Ending {
        let Ending::Done(made) = ending else {
            return ending;
        };
        match part::put(target, &output[..made.bytes], self.replace) {
            Ok(Put::Written) => Ending::Done(made),
            Ok(Put::There) => Ending::There(made),
            Ok(Put::Kept) => {
                let name = words::name(target);
                Ending::Failed(format!(
                    "{name} is there with other content, and is kept (--force replaces it)"
                ))
            }
            Err(error) => {
                let (name, why) = (words::name(target), words::error(&error));
                Ending::Failed(format!("{name} can't be written: {why}"))
            }
        }
    }
}
