//! The files below a folder.

use std::fs::{self, DirEntry};
use std::io;
use std::os::unix::ffi::OsStrExt;
use std::path::{Path, PathBuf};

/// A file below a folder, or a folder that can't be read.
pub type Found = Result<PathBuf, (PathBuf, io::Error)>;

/// All files below a folder, at any depth, whose names end so in any letter case; folder by folder, in the order of their names. A link to a folder is not
/// followed, so that no file is found twice.
pub fn files(folder: &Path, ending: &str) -> Vec<Found> {
    let mut found = Vec::new();
    walk(folder, ending, &mut found);
    found
}

fn walk(folder: &Path, ending: &str, found: &mut Vec<Found>) {
    let entries = match sorted(folder) {
        Ok(entries) => entries,
        Err(error) => return found.push(Err((folder.to_path_buf(), error))),
    };
    for entry in entries {
        let path = entry.path();
        if entry.file_type().is_ok_and(|kind| kind.is_dir()) {
            walk(&path, ending, found);
        } else if ends_so(&path, ending) && may_be_read(&path) {
            found.push(Ok(path));
        }
    }
}

fn sorted(folder: &Path) -> io::Result<Vec<DirEntry>> {
    let mut entries = fs::read_dir(folder)?.collect::<io::Result<Vec<_>>>()?;
    entries.sort_by_key(DirEntry::file_name);
    Ok(entries)
}

/// Whether a name ends so, in any letter case.
pub fn ends_so(path: &Path, ending: &str) -> bool {
    let name = path.as_os_str().as_bytes();
    let at = name.len().checked_sub(ending.len());
    at.is_some_and(|at| name[at..].eq_ignore_ascii_case(ending.as_bytes()))
}

/// Neither a folder nor a pipe nor a device. A link that leads nowhere is not passed over: that it can't be read is to be said.
fn may_be_read(path: &Path) -> bool {
    fs::metadata(path).map_or(true, |metadata| metadata.is_file())
}
