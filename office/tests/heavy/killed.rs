//! Ended in the middle, at several moments: what stands under a final name is whole at any time, what is left besides is
//! parts, and the next run completes it all.

use crate::common::traces::{export, rows};
use crate::common::Scratch;
use std::collections::HashMap;
use std::fs;
use std::path::Path;
use std::process::Child;
use std::sync::atomic::{AtomicBool, Ordering};
use std::thread;
use std::time::{Duration, Instant};

const FILES: usize = 6;
const MOMENTS: u32 = 12;

struct Week {
    scratch: Scratch,
    exports: HashMap<String, Vec<u8>>,
}

impl Week {
    fn new() -> Week {
        let scratch = Scratch::new();
        let exports = (0..FILES).map(|number| {
            let text = rows(60_000 + number);
            scratch.put(format!("week/{number}.trc"), &text);
            (format!("{number}.asc"), export(&text).unwrap())
        });
        let exports = exports.collect();
        Week { scratch, exports }
    }

    fn folder(&self) -> std::path::PathBuf {
        self.scratch.path("week")
    }

    /// Whether a file that is no input is a whole output. Parts may come and go.
    fn look_at(&self, path: &Path, seen: &mut HashMap<String, bool>) {
        let name = crate::common::shown(path.file_name().unwrap());
        if name.ends_with(".trc") || (name.starts_with(".owl-") && name.ends_with(".part")) {
            return;
        }
        let export = self
            .exports
            .get(&name)
            .unwrap_or_else(|| panic!("what is {name}?"));
        let length = fs::metadata(path).unwrap().len();
        assert_eq!(length, export.len() as u64, "{name} is not whole");
        // All its bytes are compared when it is first seen, and its length always.
        let is_new = seen.insert(name, true).is_none();
        assert!(!is_new || fs::read(path).unwrap() == *export);
    }

    /// Looks at the folder again and again, and gives the number of outputs that were seen.
    fn watch(&self, done: &AtomicBool) -> usize {
        let mut seen = HashMap::new();
        loop {
            // Once more behind the end.
            let last = done.load(Ordering::SeqCst);
            for entry in fs::read_dir(self.folder()).unwrap() {
                self.look_at(&entry.unwrap().path(), &mut seen);
            }
            if last {
                return seen.len();
            }
            thread::sleep(Duration::from_micros(100));
        }
    }

    /// Runs owl, ends it at this moment in this way, and gives the outputs that there are.
    fn end_at(&self, moment: Duration, end: fn(&Scratch, &mut Child)) -> usize {
        let done = AtomicBool::new(false);
        thread::scope(|scope| {
            let watching = scope.spawn(|| self.watch(&done));
            let mut owl = self.scratch.start("convert week --jobs 2");
            thread::sleep(moment);
            end(&self.scratch, &mut owl);
            owl.wait().unwrap();
            done.store(true, Ordering::SeqCst);
            watching.join().unwrap()
        })
    }

    /// The next run: all outputs are there, and nothing else.
    fn complete(&self, outputs: usize) {
        let ran = self.scratch.owl("convert week --json").ended(0).quietly();
        let (_, summary) = ran.objects();
        assert_eq!(summary.number("there"), outputs as f64, "{ran}");
        assert_eq!(summary.number("done"), (FILES - outputs) as f64, "{ran}");
        assert_eq!(self.scratch.names("week").len(), 2 * FILES);
        for (name, export) in &self.exports {
            let path = self.folder().join(name);
            assert!(fs::read(&path).unwrap() == *export, "{name}");
            fs::remove_file(path).unwrap();
        }
    }
}

fn ended_in_the_middle(end: fn(&Scratch, &mut Child)) {
    let week = Week::new();
    let begin = Instant::now();
    week.scratch.owl("convert week --jobs 2").ended(0).quietly();
    let whole = begin.elapsed();
    week.complete(FILES);
    let (mut parts, mut between) = (0, 0);
    // A busy machine may need more than one round until it is ended in the middle of a file, and between two.
    for moment in (0..MOMENTS).cycle().take(4 * MOMENTS as usize) {
        let outputs = week.end_at(whole * moment / MOMENTS, end);
        let names = week.scratch.names("week");
        parts += names.iter().filter(|name| name.ends_with(".part")).count();
        between += usize::from(outputs > 0 && outputs < FILES);
        week.complete(outputs);
        if moment + 1 == MOMENTS && parts > 0 && between > 0 {
            return;
        }
    }
    panic!("{parts} parts were left, and {between} times some outputs but not all");
}

#[test]
fn by_kill() {
    ended_in_the_middle(|_, owl| owl.kill().unwrap());
}

#[test]
fn by_control_c() {
    ended_in_the_middle(|scratch, owl| {
        // It may have ended before.
        scratch.shell(&format!("kill -INT {} 2>/dev/null", owl.id()));
    });
}

#[test]
fn with_force_leaves_the_old_output_or_the_new() {
    let scratch = Scratch::new();
    let text = rows(300_000);
    let new = export(&text).unwrap();
    scratch.put("a.trc", &text);
    for moment in 0..10 {
        scratch.put("a.asc", "of yesterday");
        let mut owl = scratch.start("convert a.trc --force");
        thread::sleep(Duration::from_millis(8 * moment));
        owl.kill().unwrap();
        owl.wait().unwrap();
        let now = scratch.bytes("a.asc");
        assert!(now == b"of yesterday" || now == new, "{} bytes", now.len());
    }
    scratch.owl("convert a.trc --force").ended(0).quietly();
    assert!(scratch.bytes("a.asc") == new);
    assert_eq!(scratch.names(""), ["a.asc", "a.trc"]);
}
