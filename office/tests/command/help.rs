//! Help and version: on standard output, with status 0.

use crate::common::{Ran, Scratch};

const COMMANDS: [(&str, &[&str]); 6] = [
    (
        "convert",
        &["--output", "--force", "--channel", "--jobs", "--json"],
    ),
    ("check", &["--ascii", "--jobs", "--json"]),
    (
        "write",
        &["--version", "--output", "--force", "--jobs", "--json"],
    ),
    (
        "back",
        &["--version", "--output", "--force", "--jobs", "--json"],
    ),
    ("explain", &["--ascii"]),
    ("show", &["--ascii", "--csv", "--json"]),
];

fn help(words: &str) -> Ran {
    let ran = Scratch::new().owl(words).ended(0).quietly();
    assert!(ran.out().ends_with('\n') && ran.lines().len() > 2, "{ran}");
    ran
}

#[test]
fn names_every_command() {
    let ran = help("--help");
    for (command, _) in COMMANDS {
        assert!(ran.out().contains(command), "{command}: {ran}");
    }
    for status in ["0", "1", "2", "64"] {
        assert!(ran.out().contains(status), "{status}: {ran}");
    }
    assert_eq!(help("-h").out, ran.out);
}

#[test]
fn lines_fit_a_terminal() {
    let commands = COMMANDS.map(|(command, _)| format!("{command} --help"));
    for words in ["--help".to_string()].iter().chain(&commands) {
        let ran = help(words);
        for line in ran.lines() {
            assert!(line.len() <= 80, "{words}: {line}");
        }
    }
}

#[test]
fn of_a_command_names_its_options() {
    for (command, options) in COMMANDS {
        let ran = help(&format!("{command} --help"));
        assert!(ran.out().contains(&format!("owl {command}")), "{ran}");
        for option in options {
            assert!(ran.out().contains(option), "{option}: {ran}");
        }
        assert_eq!(help(&format!("{command} -h")).out, ran.out);
    }
}

#[test]
fn of_a_command_names_no_option_of_another() {
    let all = COMMANDS.iter().flat_map(|(_, options)| options.iter());
    let all: Vec<&&str> = all.collect();
    for (command, options) in COMMANDS {
        let ran = help(&format!("{command} --help"));
        for other in all.iter().filter(|option| !options.contains(option)) {
            assert!(!ran.out().contains(**other), "{other}: {ran}");
        }
    }
}

#[test]
fn stands_before_what_is_done() {
    let scratch = Scratch::new();
    scratch.sample("small.trc");
    let ran = scratch.owl("convert small.trc --help").ended(0).quietly();
    assert_eq!(ran.out, help("convert --help").out);
    assert_eq!(scratch.names(""), ["small.trc"]);
}

#[test]
fn behind_two_dashes_it_is_a_file() {
    let scratch = Scratch::new();
    scratch.put("--help", crate::common::traces::rows(1));
    scratch.owl("convert -- --help").ended(0);
    assert!(scratch.has("--help.asc"));
}

#[test]
fn version_is_that_of_the_crate() {
    let ran = Scratch::new().owl("--version").ended(0).quietly();
    assert_eq!(ran.out(), concat!("owl ", env!("CARGO_PKG_VERSION"), "\n"));
}
