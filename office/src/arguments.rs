//! What stands on the command line behind a command's name.

use crate::options::Opt;
use crate::words;
use std::ffi::{OsStr, OsString};
use std::os::unix::ffi::OsStrExt;
use std::path::{Path, PathBuf};

/// What is wrong with how a command was called.
#[derive(Debug, PartialEq, Eq)]
pub struct Usage(pub String);

/// The files and the options that were given.
#[derive(Debug, Default)]
pub struct Given {
    pub names: Vec<PathBuf>,
    options: Vec<(&'static Opt, OsString)>,
}

impl Given {
    pub fn has(&self, option: &Opt) -> bool {
        self.value(option).is_some()
    }

    /// The value of an option that was given; of one that has none, an empty one.
    pub fn value(&self, option: &Opt) -> Option<&OsStr> {
        let mut options = self.options.iter();
        let found = options.find(|(given, _)| given.long == option.long);
        found.map(|(_, value)| value.as_os_str())
    }

    fn add(&mut self, option: &'static Opt, value: OsString) -> Result<(), Usage> {
        if self.has(option) {
            return Err(Usage(format!("{} is given twice", option.long)));
        }
        self.options.push((option, value));
        Ok(())
    }
}

/// Takes the words apart. Options may stand before and behind files; behind `--` all words are files.
pub fn parse(line: &[OsString], options: &[&'static Opt]) -> Result<Given, Usage> {
    let mut given = Given::default();
    let mut line = line.iter();
    while let Some(word) = line.next() {
        if word == "--" {
            given.names.extend(line.by_ref().map(PathBuf::from));
            break;
        }
        if !word.as_bytes().starts_with(b"-") {
            given.names.push(PathBuf::from(word));
            continue;
        }
        let (name, attached) = cut(word);
        let known = |o: &&&Opt| name == o.long || o.short.is_some_and(|short| name == short);
        let Some(option) = options.iter().find(known) else {
            let name = words::name(Path::new(name));
            return Err(Usage(format!(
                "there is no option {name} (a file's name with - first goes behind --)"
            )));
        };
        let value = match (option.value, attached) {
            (None, None) => OsString::new(),
            (None, Some(_)) => return Err(Usage(format!("{} takes no value", option.long))),
            (Some(_), Some(value)) => value.to_os_string(),
            (Some(_), None) => line.next().cloned().unwrap_or_default(),
        };
        if let (Some(what), true) = (option.value, value.is_empty()) {
            return Err(Usage(format!("{} needs a value: {what}", option.long)));
        }
        given.add(option, value)?;
    }
    Ok(given)
}

/// An option's name, and the value that is attached to it by `=`.
fn cut(word: &OsStr) -> (&OsStr, Option<&OsStr>) {
    let bytes = word.as_bytes();
    let at = bytes.iter().position(|byte| *byte == b'=');
    match at {
        Some(at) if bytes.starts_with(b"--") => (
            OsStr::from_bytes(&bytes[..at]),
            Some(OsStr::from_bytes(&bytes[at + 1..])),
        ),
        _ => (word, None),
    }
}

/// A number in decimal digits alone. One that does not fit is larger than any that is taken.
pub fn number(word: &OsStr) -> Option<u64> {
    let word = word.to_str()?;
    let digits = !word.is_empty() && word.bytes().all(|byte| byte.is_ascii_digit());
    digits.then(|| word.parse().unwrap_or(u64::MAX))
}

#[cfg(test)]
mod tests {
    use super::*;
    use crate::options::{CHANNEL, FORCE, OUTPUT};

    fn parsed(words: &[&str]) -> Result<Given, Usage> {
        let words: Vec<OsString> = words.iter().map(OsString::from).collect();
        parse(&words, &[&CHANNEL, &FORCE, &OUTPUT])
    }

    #[test]
    fn options_stand_anywhere() {
        let given = parsed(&[
            "a",
            "-o",
            "out",
            "b",
            "--channel=2",
            "--force",
            "--",
            "-o",
            "--",
        ]);
        let given = given.unwrap();
        let names: Vec<PathBuf> = ["a", "b", "-o", "--"].map(PathBuf::from).into();
        assert_eq!(given.names, names);
        assert_eq!(given.value(&OUTPUT), Some(OsStr::new("out")));
        assert_eq!(given.value(&CHANNEL), Some(OsStr::new("2")));
        assert!(given.has(&FORCE));
    }

    #[test]
    fn what_is_wrong_is_said() {
        let wrong = |words: &[&str]| parsed(words).unwrap_err().0;
        assert!(wrong(&["-x"]).contains("no option -x"));
        assert!(wrong(&["-"]).contains("no option -"));
        assert!(wrong(&["-o"]).contains("--output needs a value: FOLDER"));
        assert!(wrong(&["--force=1"]).contains("--force takes no value"));
        assert!(wrong(&["-o", "a", "--output", "b"]).contains("--output is given twice"));
    }

    #[test]
    fn numbers_are_digits() {
        let numbers = ["0", "16", "+1", "", "1 ", "99999999999999999999"];
        let taken = numbers.map(|word| number(OsStr::new(word)));
        let expected = [Some(0), Some(16), None, None, None, Some(u64::MAX)];
        assert_eq!(taken, expected);
    }
}
