//! Files that get their name only when they are whole.

use crate::room::PAGE;
use crate::words;
use std::fs::{self, File};
use std::io::{self, ErrorKind, Read};
use std::os::unix::ffi::OsStrExt;
use std::os::unix::fs::{FileExt, OpenOptionsExt};
use std::path::{Path, PathBuf};
use std::process;
use std::sync::atomic::{AtomicU64, Ordering};

/// How the name of a part begins and ends; the process and a number stand between.
const BEGINS: &str = ".owl-";
const ENDS: &str = ".part";

/// The fewest bytes that are worth a second opening of the file.
const LARGE: usize = 1 << 20;

/// Linux's O_DIRECT. Elsewhere the bytes are copied, as always.
const DIRECTLY: i32 = match cfg!(target_arch = "x86_64") {
    true => 0o40000,
    false if cfg!(target_arch = "aarch64") => 0o200000,
    false => 0,
};

/// A file in the folder of its output that does not have the output's name yet. It is locked while it is being written, so that nobody takes it for one that
/// was left behind. Dropped without its name, it is removed.
struct Part {
    file: File,
    path: PathBuf,
    /// Whether the file still has the name that it was made with.
    has_path: bool,
    target: PathBuf,
}

/// What became of an output.
#[derive(Debug, PartialEq, Eq)]
pub enum Put {
    Written,
    /// It was there already, just so.
    There,
    /// Something else was there, and was kept.
    Kept,
}

/// Puts bytes into a file of this name. Nobody sees it there before all of it is on the disk. What is there already is replaced if so wished, and kept if not.
pub fn put(target: &Path, bytes: &[u8], replace: bool) -> io::Result<Put> {
    if replace || !is_there(target) {
        let part = Part::create(target)?;
        part.fill(bytes)?;
        if let Named::Now = part.name(replace)? {
            return Ok(Put::Written);
        }
    }
    let same = holds(target, bytes)?;
    Ok(if same { Put::There } else { Put::Kept })
}

enum Named {
    Now,
    /// Another file has got the name in the meantime, and was kept.
    Taken,
}

impl Part {
    /// Begins a file, and makes its folder if it is missing.
    fn create(target: &Path) -> io::Result<Part> {
        static COUNT: AtomicU64 = AtomicU64::new(0);
        let folder = folder_of(target);
        fs::create_dir_all(folder).map_err(|error| {
            let why = words::error(&error);
            io::Error::new(error.kind(), format!("its folder can't be made: {why}"))
        })?;
        loop {
            let count = COUNT.fetch_add(1, Ordering::Relaxed);
            let path = folder.join(format!("{BEGINS}{}-{count}{ENDS}", process::id()));
            let file = match File::create_new(&path) {
                Ok(file) => file,
                Err(error) if error.kind() == ErrorKind::AlreadyExists => continue,
                Err(error) => return Err(error),
            };
            // Where the file system has no locks, nobody else gets one either, and nothing is removed.
            let _ = file.lock();
            // Before it was locked, another run may have taken it for one that was left behind.
            if is_there(&path) {
                return Ok(Part {
                    file,
                    path,
                    has_path: true,
                    target: target.to_path_buf(),
                });
            }
        }
    }

    fn fill(&self, bytes: &[u8]) -> io::Result<()> {
        let (blocks, rest) = bytes.split_at(bytes.len() / PAGE * PAGE);
        if blocks.len() >= LARGE && self.fill_directly(blocks).is_ok() {
            return self.file.write_all_at(rest, blocks.len() as u64);
        }
        self.file.write_all_at(bytes, 0)
    }

    /// Has the disk take the bytes from where they are. With a copy in the system's memory a run on one core took more than twice as long. Not every file
    /// system can do it.
    fn fill_directly(&self, blocks: &[u8]) -> io::Result<()> {
        let mut options = File::options();
        let file = options
            .write(true)
            .custom_flags(DIRECTLY)
            .open(&self.path)?;
        file.write_all_at(blocks, 0)
    }

    /// Waits until all of it is on the disk, and then gives it its name.
    fn name(mut self, replace: bool) -> io::Result<Named> {
        self.file.sync_all()?;
        if replace {
            return self.rename();
        }
        // Renaming would replace a file that came in the meantime; a link does not. The part's own name goes when it is dropped.
        match fs::hard_link(&self.path, &self.target) {
            Ok(()) => Ok(Named::Now),
            Err(error) if error.kind() == ErrorKind::AlreadyExists => Ok(Named::Taken),
            // A file system without links, such as that of most memory sticks.
            Err(_) if is_there(&self.target) => Ok(Named::Taken),
            Err(_) => self.rename(),
        }
    }

    fn rename(&mut self) -> io::Result<Named> {
        fs::rename(&self.path, &self.target)?;
        self.has_path = false;
        Ok(Named::Now)
    }
}

impl Drop for Part {
    fn drop(&mut self) {
        if self.has_path {
            let _ = fs::remove_file(&self.path);
        }
    }
}

/// The folder of a file.
pub fn folder_of(path: &Path) -> &Path {
    match path.parent() {
        Some(folder) if folder != Path::new("") => folder,
        _ => Path::new("."),
    }
}

/// Whether the name is taken, be it by a link that leads nowhere.
fn is_there(path: &Path) -> bool {
    fs::symlink_metadata(path).is_ok()
}

/// Whether a file holds just these bytes.
fn holds(path: &Path, bytes: &[u8]) -> io::Result<bool> {
    let metadata = fs::metadata(path)?;
    if !metadata.is_file() || metadata.len() != bytes.len() as u64 {
        return Ok(false);
    }
    let mut file = File::open(path)?;
    let mut piece = [0; 65536];
    let mut rest = bytes;
    loop {
        let count = file.read(&mut piece)?;
        if count == 0 {
            return Ok(rest.is_empty());
        }
        match rest.strip_prefix(&piece[..count]) {
            Some(behind) => rest = behind,
            None => return Ok(false),
        }
    }
}

/// Removes the parts that an earlier run has left in a folder: those that nobody holds locked.
pub fn sweep(folder: &Path) {
    for entry in fs::read_dir(folder).into_iter().flatten().flatten() {
        let name = entry.file_name();
        let name = name.as_bytes();
        let is_part = name.starts_with(BEGINS.as_bytes()) && name.ends_with(ENDS.as_bytes());
        if !is_part || !entry.file_type().is_ok_and(|kind| kind.is_file()) {
            continue;
        }
        // Some file systems lock only what is open for writing.
        let Ok(file) = File::options().write(true).open(entry.path()) else {
            continue;
        };
        // The lock is held until the file is gone, so that one who has just made it can't lock it in between.
        if file.try_lock().is_ok() {
            let _ = fs::remove_file(entry.path());
        }
    }
}

/// Waits until the names in a folder are on the disk. Some file systems sync no folders; theirs are there with the files.
pub fn sync_names(folder: &Path) -> io::Result<()> {
    let needless = [ErrorKind::InvalidInput, ErrorKind::Unsupported];
    match File::open(folder)?.sync_all() {
        Err(error) if needless.contains(&error.kind()) => Ok(()),
        synced => synced,
    }
}
