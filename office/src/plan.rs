//! Which files are worked on, and where the output of each goes.

use crate::part::folder_of;
use crate::walk::{self, ends_so};
use crate::words;
use std::collections::{HashMap, HashSet};
use std::ffi::{OsStr, OsString};
use std::fs;
use std::os::unix::ffi::{OsStrExt, OsStringExt};
use std::path::{Path, PathBuf};

/// A file to be worked on.
pub struct Item {
    pub source: PathBuf,
    /// Where its output goes, if there is one.
    pub target: Option<PathBuf>,
    /// Why it can't be done, where that is known before it is tried.
    pub trouble: Option<String>,
    pub size: u64,
}

/// What an output is called, and where it is put.
pub struct Naming {
    /// What is taken off the end of the input's name, the first of these that is there, in any letter case.
    pub off: &'static [&'static str],
    /// What is put behind it.
    pub on: String,
    /// The folder of all outputs. Without it they go beside their inputs.
    pub folder: Option<PathBuf>,
}

impl Naming {
    fn name(&self, source: &OsStr) -> OsString {
        let ending = self.off.iter().find(|off| ends_so(Path::new(source), off));
        let kept = source.len() - ending.map_or(0, |off| off.len());
        let mut name = source.as_bytes()[..kept].to_vec();
        name.extend(self.on.bytes());
        OsString::from_vec(name)
    }

    /// Where the output goes of a file that was found in this folder below the one that was named.
    fn target(&self, source: &Path, below: &Path) -> Option<PathBuf> {
        let name = self.name(source.file_name()?);
        let folder = match &self.folder {
            Some(folder) => folder.join(below),
            None => source.parent()?.to_path_buf(),
        };
        Some(folder.join(name))
    }
}

/// A file that was named or found.
struct Source {
    path: PathBuf,
    /// Its folder below the one that was named; empty for a file that was named itself.
    below: PathBuf,
    trouble: Option<String>,
}

impl Source {
    fn named(path: &Path, trouble: Option<String>) -> Source {
        Source {
            path: path.to_path_buf(),
            below: PathBuf::new(),
            trouble,
        }
    }
}

pub struct Plan {
    pub items: Vec<Item>,
    /// What is to be said before the work begins.
    pub notes: Vec<String>,
}

/// Plans the work on files and, if an ending is given, on all files below folders whose names end so.
pub fn plan(names: &[PathBuf], ending: Option<&str>, naming: Option<&Naming>) -> Plan {
    let mut notes = Vec::new();
    let mut sources = Vec::new();
    for name in names {
        match ending {
            _ if !name.is_dir() => sources.push(Source::named(name, None)),
            None => sources.push(Source::named(name, Some("is a folder".to_string()))),
            Some(ending) => {
                let found = found_below(name, ending);
                if found.is_empty() {
                    let name = words::name(name);
                    notes.push(format!("{name}: no file there has a name with {ending}"));
                }
                sources.extend(found);
            }
        }
    }
    let items = items(sources, naming);
    Plan { items, notes }
}

fn found_below(folder: &Path, ending: &str) -> Vec<Source> {
    let found = walk::files(folder, ending);
    let sources = found.into_iter().map(|found| match found {
        Ok(path) => {
            let parent = path.parent().unwrap_or(folder);
            let below = parent.strip_prefix(folder).unwrap_or(Path::new(""));
            Source {
                below: below.to_path_buf(),
                path,
                trouble: None,
            }
        }
        Err((folder, error)) => {
            let trouble = format!("can't be read: {}", words::error(&error));
            Source::named(&folder, Some(trouble))
        }
    });
    sources.collect()
}

/// Gives each file its output. What is named twice is done once; no output is written twice, and none over a file that is to be read.
fn items(sources: Vec<Source>, naming: Option<&Naming>) -> Vec<Item> {
    let paths = sources.iter().map(|source| &source.path);
    let read: HashSet<PathBuf> = paths.flat_map(|path| [entry(path), real(path)]).collect();
    let mut named: HashSet<PathBuf> = HashSet::new();
    let mut written: HashMap<PathBuf, PathBuf> = HashMap::new();
    let mut items = Vec::new();
    for Source {
        path,
        below,
        trouble,
    } in sources
    {
        if !named.insert(entry(&path)) {
            continue;
        }
        // What can't be done takes no name from a file that can.
        let naming = naming.filter(|_| trouble.is_none());
        let target = naming.and_then(|naming| naming.target(&path, &below));
        let clash = target.as_deref().and_then(|target| {
            let place = entry(target);
            if let Some(first) = written.get(&place) {
                let first = words::name(first);
                return Some(format!("its output would be that of {first} as well"));
            }
            if read.contains(&place) {
                let target = words::name(target);
                return Some(format!("its output would be {target}, an input"));
            }
            written.insert(place, path.clone());
            None
        });
        items.push(Item {
            size: fs::metadata(&path).map_or(0, |metadata| metadata.len()),
            source: path,
            target,
            trouble: trouble.or(clash),
        });
    }
    items
}

/// The one path of a name, whichever way it is reached; a link is a name of its own. Neither the file nor its folder need be there yet.
fn entry(path: &Path) -> PathBuf {
    match (fs::canonicalize(folder_of(path)), path.file_name()) {
        (Ok(folder), Some(name)) => folder.join(name),
        _ => std::path::absolute(path).unwrap_or_else(|_| path.to_path_buf()),
    }
}

/// Where a file really is, links followed.
fn real(path: &Path) -> PathBuf {
    fs::canonicalize(path).unwrap_or_else(|_| entry(path))
}

#[cfg(test)]
mod tests {
    use super::*;

    fn target(naming: &Naming, source: &str, below: &str) -> PathBuf {
        naming.target(Path::new(source), Path::new(below)).unwrap()
    }

    #[test]
    fn an_output_is_named_by_its_input() {
        let off = &[".asc", ".txt"];
        let naming = |folder| Naming {
            off,
            on: ".trc".to_string(),
            folder,
        };
        let beside = naming(None);
        assert_eq!(target(&beside, "a/b.asc", ""), Path::new("a/b.trc"));
        assert_eq!(target(&beside, "b.TXT", ""), Path::new("b.trc"));
        assert_eq!(target(&beside, "a/b.log", ""), Path::new("a/b.log.trc"));
        assert_eq!(target(&beside, ".asc", ""), Path::new(".trc"));
        let elsewhere = naming(Some(PathBuf::from("out")));
        assert_eq!(target(&elsewhere, "a/b.asc", ""), Path::new("out/b.trc"));
        let below = target(&elsewhere, "week/m/1/b.asc", "m/1");
        assert_eq!(below, Path::new("out/m/1/b.trc"));
    }
}
