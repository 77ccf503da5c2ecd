//! The files that `owl` has left: those that must be there, with just the bytes that they must have, and no others.

use super::folder::files;
use super::known::{Digest, Ending, Known};
use super::{differs, with, Tried, LINES};
use std::fs;
use std::path::Path;

pub fn check(folder: &Path, known: &[Known]) -> Tried<()> {
    let folder = folder.join(LINES);
    let mut found = files(&folder)?;
    for known in known {
        let path = folder.join(known.plan.stem() + ".asc");
        let Ending::Done(output) = known.ending else {
            continue;
        };
        if !found.remove(&path) {
            return differs(format!("{} is not there", path.display()));
        }
        let bytes = fs::read(&path).map_err(with(&path))?;
        if Digest::new(&bytes) != output {
            let path = path.display();
            return differs(format!(
                "{path} has other bytes than those of the second implementation"
            ));
        }
    }
    match found.first() {
        Some(path) => differs(format!("{} should not be there", path.display())),
        None => Ok(()),
    }
}
