//! A new folder for the night, which is removed at its end.

use super::{say, with, Tried};
use std::collections::BTreeSet;
use std::fs::{self, File};
use std::io::{self, Write};
use std::path::{Path, PathBuf};
use std::process;

pub struct Folder {
    path: PathBuf,
    keep: bool,
}

impl Folder {
    /// Makes one below a folder that is there.
    pub fn new(below: &Path, keep: bool) -> Tried<Folder> {
        let path = below.join(format!("bushingowl-night-{}", process::id()));
        fs::create_dir(&path).map_err(with(&path))?;
        // Commands are run in it, and so a relative path would not do.
        let path = fs::canonicalize(&path).map_err(with(&path))?;
        Ok(Folder { path, keep })
    }

    pub fn path(&self) -> &Path {
        &self.path
    }

    /// Puts a folder in it aside, if it is there, with its files emptied, and waits until that is on the disk. They are not removed before the end
    /// of the night: where files have just been removed, ext4 takes longer to make new ones.
    pub fn put_aside(&self, name: &str) -> Tried<()> {
        let path = self.path.join(name);
        if !path.exists() {
            return Ok(());
        }
        for file in files(&path)? {
            File::create(&file).map_err(with(&file))?;
        }
        let rename = || {
            let others = fs::read_dir(&self.path)?.count();
            fs::rename(&path, self.path.join(format!("{name}-{others}")))?;
            File::open(&self.path)?.sync_all()
        };
        rename().map_err(with(&path))
    }
}

/// All that is below a folder but folders.
pub fn files(folder: &Path) -> Tried<BTreeSet<PathBuf>> {
    let mut found = BTreeSet::new();
    for entry in fs::read_dir(folder).map_err(with(folder))? {
        let path = entry.map_err(with(folder))?.path();
        if path.is_dir() {
            found.extend(files(&path)?);
        } else {
            found.insert(path);
        }
    }
    Ok(found)
}

impl Drop for Folder {
    fn drop(&mut self) {
        let path = self.path.display();
        if self.keep {
            say(format_args!("kept: {path}"));
        } else if let Err(error) = fs::remove_dir_all(&self.path) {
            let _ = writeln!(io::stderr(), "night: {path} can't be removed: {error}");
        }
    }
}
