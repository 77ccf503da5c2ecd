//! Links the library's archive, whose path the script `library` beside this file prints: that of the file that BUSHINGOWL_LIB names, or else of
//! the one that is proved and made here. Makes the functions of `src/words.rs`.

#[path = "build/words.rs"]
mod words;

use std::env;
use std::ffi::OsString;
use std::fs;
use std::path::{Path, PathBuf};
use std::process::{exit, Command, Stdio};

fn main() {
    let folder = PathBuf::from(set_by_cargo("OUT_DIR"));
    make_words(&folder);
    link(&folder);
}

/// Makes a function of each line of `words.txt`.
fn make_words(folder: &Path) {
    let here = set_by_cargo("CARGO_MANIFEST_DIR");
    let file = Path::new(&here).join("../words.txt");
    let text = fs::read_to_string(&file)
        .unwrap_or_else(|error| panic!("{} can't be read: {error}", file.display()));
    let made = folder.join("words.rs");
    if let Err(error) = fs::write(&made, words::functions(&text)) {
        panic!("{} can't be written: {error}", made.display());
    }
    println!("cargo:rerun-if-changed=../words.txt");
}

/// Links the archive.
fn link(folder: &Path) {
    let archive = archive();
    // A copy, so that an archive just made does not count as changed.
    if let Err(error) = fs::copy(&archive, folder.join("libcapi.a")) {
        panic!("{} can't be copied: {error}", archive.display());
    }
    println!("cargo:rustc-link-search=native={}", folder.display());
    println!("cargo:rustc-link-lib=static=capi");
    println!("cargo:rerun-if-env-changed=BUSHINGOWL_LIB");
    if env::var_os("BUSHINGOWL_LIB").is_some_and(|named| !named.is_empty()) {
        println!("cargo:rerun-if-changed={}", archive.display());
    } else {
        for made_of in [
            "library",
            "../tools/archive",
            "../tools/module",
            "../crates.txt",
        ] {
            println!("cargo:rerun-if-changed={made_of}");
        }
        for part in written_parts() {
            println!("cargo:rerun-if-changed={}", part.display());
        }
    }
}

/// The folders of the crates that are written by hand. Beside them stands what the check keeps.
fn written_parts() -> Vec<PathBuf> {
    let crates = fs::read_dir("../crates").expect("the folder of the crates can be read");
    let folders = crates.map(|found| found.expect("the folder of the crates can be read").path());
    let parts = folders.flat_map(|folder| ["src", "specs", "proofs"].map(|part| folder.join(part)));
    parts.filter(|part| part.is_dir()).collect()
}

fn archive() -> PathBuf {
    let here = set_by_cargo("CARGO_MANIFEST_DIR");
    let script = Path::new(&here).join("library");
    // A relative BUSHINGOWL_LIB counts from the folder in which cargo was called, not from that of this crate.
    let called_in = env::var_os("PWD").unwrap_or(here);
    let printed = Command::new(&script)
        .current_dir(called_in)
        .stderr(Stdio::inherit())
        .output()
        .unwrap_or_else(|error| panic!("{}: {error}", script.display()));
    if !printed.status.success() {
        // The script has said why.
        exit(1);
    }
    let path = String::from_utf8(printed.stdout).expect("the path of the archive is UTF-8");
    PathBuf::from(path.trim_end_matches('\n'))
}

fn set_by_cargo(name: &str) -> OsString {
    env::var_os(name).unwrap_or_else(|| panic!("cargo sets {name}"))
}
