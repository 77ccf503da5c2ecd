//! What the tests of the command share: a scratch folder, running the command in it, and what came of that.

pub mod json;
pub mod random;
pub mod traces;

use json::Json;
use std::ffi::OsStr;
use std::fmt;
use std::fs;
use std::os::unix::ffi::OsStrExt;
use std::os::unix::fs::PermissionsExt;
use std::os::unix::process::ExitStatusExt;
use std::path::{Path, PathBuf};
use std::process::{Child, Command, Output, Stdio};
use std::sync::atomic::{AtomicUsize, Ordering};

pub const OWL: &str = env!("CARGO_BIN_EXE_owl");

/// A folder that removes itself. All names are below it, and commands run in it.
pub struct Scratch(PathBuf);

impl Scratch {
    pub fn new() -> Scratch {
        static MADE: AtomicUsize = AtomicUsize::new(0);
        let number = MADE.fetch_add(1, Ordering::Relaxed);
        let name = format!("owl-test-{}-{number}", std::process::id());
        let folder = std::env::temp_dir().join(name);
        fs::create_dir(&folder).unwrap();
        Scratch(folder)
    }

    pub fn path(&self, name: impl AsRef<Path>) -> PathBuf {
        self.0.join(name)
    }

    pub fn folder(&self, name: impl AsRef<Path>) -> PathBuf {
        let folder = self.path(name);
        fs::create_dir_all(&folder).unwrap();
        folder
    }

    /// Writes a file, and makes the folders above it.
    pub fn put(&self, name: impl AsRef<Path>, bytes: impl AsRef<[u8]>) {
        let path = self.path(name);
        fs::create_dir_all(path.parent().unwrap()).unwrap();
        fs::write(path, bytes).unwrap();
    }

    /// Copies a sample of the repository.
    pub fn sample(&self, name: &str) {
        self.put(name, traces::sample(name));
    }

    pub fn bytes(&self, name: impl AsRef<Path>) -> Vec<u8> {
        let path = self.path(name);
        fs::read(&path).unwrap_or_else(|error| panic!("{}: {error}", path.display()))
    }

    pub fn has(&self, name: impl AsRef<Path>) -> bool {
        self.path(name).symlink_metadata().is_ok()
    }

    /// The names of all that is in a folder, in order.
    pub fn names(&self, folder: impl AsRef<Path>) -> Vec<String> {
        let mut names: Vec<String> = fs::read_dir(self.path(folder))
            .unwrap()
            .map(|entry| shown(&entry.unwrap().file_name()))
            .collect();
        names.sort();
        names
    }

    /// The same without the files that have this ending.
    pub fn names_but(&self, folder: impl AsRef<Path>, ending: &str) -> Vec<String> {
        let mut names = self.names(folder);
        names.retain(|name| !name.ends_with(ending));
        names
    }

    pub fn command(&self, program: impl AsRef<OsStr>) -> Command {
        let mut command = Command::new(program);
        command.current_dir(&self.0).stdin(Stdio::null());
        command
    }

    /// Runs the command with these words, which have no blanks.
    pub fn owl(&self, words: &str) -> Ran {
        self.owl_with(words.split_whitespace())
    }

    pub fn owl_with<W: AsRef<OsStr>>(&self, words: impl IntoIterator<Item = W>) -> Ran {
        Ran::of(self.command(OWL).args(words).output().unwrap())
    }

    /// Starts the command, with both outputs as pipes.
    pub fn start(&self, words: &str) -> Child {
        self.command(OWL)
            .args(words.split_whitespace())
            .stdout(Stdio::piped())
            .stderr(Stdio::piped())
            .spawn()
            .unwrap()
    }

    /// Runs a line of the shell, in which `$OWL` is the command.
    pub fn shell(&self, line: &str) -> Ran {
        let mut shell = self.command("sh");
        Ran::of(shell.args(["-c", line]).env("OWL", OWL).output().unwrap())
    }
}

impl Drop for Scratch {
    fn drop(&mut self) {
        // A failing test has said why, and a second panic would end all of them.
        if let Err(error) = fs::remove_dir_all(&self.0) {
            eprintln!("{} stays: {error}", self.0.display());
        }
    }
}

/// A file or folder that nobody may use (mode 0) or not write to, until this goes.
pub struct Closed {
    path: PathBuf,
    before: fs::Permissions,
}

impl Closed {
    pub fn with(path: PathBuf, mode: u32) -> Closed {
        let before = fs::metadata(&path).unwrap().permissions();
        fs::set_permissions(&path, fs::Permissions::from_mode(mode)).unwrap();
        Closed { path, before }
    }
}

impl Drop for Closed {
    fn drop(&mut self) {
        let _ = fs::set_permissions(&self.path, self.before.clone());
    }
}

/// What a command ended with and printed.
pub struct Ran {
    /// The exit status; of one that a signal ended 128 and its number.
    pub status: i32,
    pub out: Vec<u8>,
    pub err: Vec<u8>,
}

impl Ran {
    pub fn of(output: Output) -> Ran {
        let status = output.status;
        let number = status.code().or(status.signal().map(|number| 128 + number));
        Ran {
            status: number.unwrap(),
            out: output.stdout,
            err: output.stderr,
        }
    }

    #[track_caller]
    pub fn ended(self, status: i32) -> Ran {
        assert_eq!(self.status, status, "{self}");
        self
    }

    /// With nothing on standard error.
    #[track_caller]
    pub fn quietly(self) -> Ran {
        assert!(self.err.is_empty(), "{self}");
        self
    }

    /// With nothing on standard output, and something on standard error.
    #[track_caller]
    pub fn complaining(self) -> Ran {
        assert!(self.out.is_empty() && !self.err.is_empty(), "{self}");
        self
    }

    #[track_caller]
    pub fn out(&self) -> &str {
        std::str::from_utf8(&self.out).unwrap()
    }

    #[track_caller]
    pub fn err(&self) -> &str {
        std::str::from_utf8(&self.err).unwrap()
    }

    /// The lines of standard output.
    #[track_caller]
    pub fn lines(&self) -> Vec<&str> {
        self.out().lines().collect()
    }

    /// The line of standard output that is about a file.
    #[track_caller]
    pub fn line_of(&self, name: &str) -> &str {
        let begin = format!("{name}: ");
        let mut lines = self.out().lines().filter(|line| line.starts_with(&begin));
        let line = lines.next();
        assert!(lines.next().is_none(), "two lines of {name}: {self}");
        line.unwrap_or_else(|| panic!("no line of {name}: {self}"))
    }

    /// Says on standard error that this file could not be done, and gives the words for it.
    #[track_caller]
    pub fn failure_of(&self, name: &str) -> &str {
        let begin = format!("owl: {name}: ");
        let mut found = self
            .err()
            .lines()
            .filter_map(|line| line.strip_prefix(&begin));
        found
            .next()
            .unwrap_or_else(|| panic!("no failure of {name}: {self}"))
    }

    /// What `--json` gave: the objects of the files, and what is in that of the summary.
    #[track_caller]
    pub fn objects(&self) -> (Vec<Json>, Json) {
        let mut objects: Vec<Json> = self.out().lines().map(Json::of).collect();
        let last = objects.pop().unwrap_or_else(|| panic!("no object: {self}"));
        for object in &objects {
            assert!(!object.has("summary"), "{self}");
        }
        (objects, last.get("summary").clone())
    }
}

impl fmt::Display for Ran {
    fn fmt(&self, f: &mut fmt::Formatter) -> fmt::Result {
        let (out, err) = (&self.out, &self.err);
        let [out, err] = [out, err].map(|bytes| String::from_utf8_lossy(bytes));
        write!(
            f,
            "status {}\n{out}-- standard error --\n{err}",
            self.status
        )
    }
}

/// A name with the bytes that are no UTF-8 as their numbers.
pub fn shown(name: &OsStr) -> String {
    name.as_bytes()
        .utf8_chunks()
        .fold(String::new(), |mut shown, chunk| {
            shown += chunk.valid();
            for byte in chunk.invalid() {
                shown += &format!("\\x{byte:02X}");
            }
            shown
        })
}

/// Says that a test was not run, and why.
pub fn skip(why: &str) {
    eprintln!("skipped: {why}");
}
