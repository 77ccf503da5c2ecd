//! The options, each in one place; a command names those that it takes.

/// An option of a command.
#[derive(Debug, PartialEq, Eq)]
pub struct Opt {
    /// With its two dashes.
    pub long: &'static str,
    pub short: Option<&'static str>,
    /// What stands for its value in the help; an option without one has no value.
    pub value: Option<&'static str>,
    /// Whether a command can't do without it.
    pub needed: bool,
    pub help: &'static str,
}

pub const HELP: Opt = Opt {
    long: "--help",
    short: Some("-h"),
    value: None,
    needed: false,
    help: "prints this",
};

pub const OUTPUT: Opt = Opt {
    long: "--output",
    short: Some("-o"),
    value: Some("FOLDER"),
    needed: false,
    help: "puts the outputs there, and makes the folder if it is missing",
};

pub const FORCE: Opt = Opt {
    long: "--force",
    short: None,
    value: None,
    needed: false,
    help: "replaces files that are there already",
};

pub const CHANNEL: Opt = Opt {
    long: "--channel",
    short: None,
    value: Some("N"),
    needed: false,
    help: "rows without a bus get this channel, 0 to 16; without the option 1",
};

pub const JOBS: Opt = Opt {
    long: "--jobs",
    short: None,
    value: Some("N"),
    needed: false,
    help: "so many files side by side; without the option as many as there are cores",
};

pub const REPORT_JSON: Opt = Opt {
    long: "--json",
    short: None,
    value: None,
    needed: false,
    help: "says in JSON what was done: one object a line for each file, then one for all",
};

pub const ASCII: Opt = Opt {
    long: "--ascii",
    short: None,
    value: None,
    needed: false,
    help: "the file is no trace, but has lines of Telemotive ASCII",
};

pub const VERSION: Opt = Opt {
    long: "--version",
    short: None,
    value: Some("1.1|1.2"),
    needed: false,
    help: "the version that is written",
};

pub const VERSION_NEEDED: Opt = Opt {
    needed: true,
    ..VERSION
};

pub const CSV: Opt = Opt {
    long: "--csv",
    short: None,
    value: None,
    needed: false,
    help: "as comma separated values, below a line of names",
};

pub const SHOW_JSON: Opt = Opt {
    long: "--json",
    short: None,
    value: None,
    needed: false,
    help: "as JSON, one object a line",
};
