//! The commands, a file for each.

mod back;
mod check;
mod convert;
mod explain;
mod reading;
mod show;
mod write;

use crate::arguments::{parse, Given, Usage};
use crate::options::{Opt, HELP};
use crate::output::{say, Output};
use crate::status::Status;
use crate::words::{self, wrapped};
use std::ffi::OsString;
use std::path::Path;

/// A command.
pub struct Command {
    pub name: &'static str,
    /// The files that it takes.
    pub files: &'static str,
    /// What it does, in a line.
    pub does: &'static str,
    /// All that is to be known of it.
    pub about: &'static str,
    pub options: &'static [&'static Opt],
    pub run: fn(&Given) -> Result<Status, Usage>,
}

const COMMANDS: [&Command; 6] = [
    &convert::COMMAND,
    &check::COMMAND,
    &explain::COMMAND,
    &write::COMMAND,
    &back::COMMAND,
    &show::COMMAND,
];

const STATUS: &str = "exit status: 0 all done, 1 some file was refused, 2 something could not be done, 64 wrong usage";

/// Does what the words say.
pub fn called(line: &[OsString]) -> Status {
    let Some((first, rest)) = line.split_first() else {
        return wrong("owl", "no command is named");
    };
    if let Some(command) = COMMANDS.into_iter().find(|command| first == command.name) {
        return command.called(rest);
    }
    match first.to_str() {
        Some("-h" | "--help") => printed(&help()),
        Some("--version") => printed(concat!("owl ", env!("CARGO_PKG_VERSION"))),
        _ => {
            let first = words::name(Path::new(first));
            wrong("owl", &format!("there is no command {first}"))
        }
    }
}

impl Command {
    fn called(&self, line: &[OsString]) -> Status {
        let asks =
            |word: &OsString| word == HELP.long || HELP.short.is_some_and(|short| word == short);
        if line.iter().take_while(|word| *word != "--").any(asks) {
            return printed(&self.help());
        }
        let done = parse(line, self.options).and_then(|given| (self.run)(&given));
        done.unwrap_or_else(|Usage(why)| wrong(&format!("owl {}", self.name), &why))
    }

    fn usage(&self) -> String {
        let mut usage = format!("owl {} {}", self.name, self.files);
        for option in self.options {
            let name = option.short.unwrap_or(option.long);
            let word = match option.value {
                Some(value) => format!("{name} {value}"),
                None => name.to_string(),
            };
            usage += &match option.needed {
                true => format!(" {word}"),
                false => format!(" [{word}]"),
            };
        }
        usage
    }

    fn help(&self) -> String {
        let usage = wrapped(&format!("usage: {}", self.usage()), 4);
        let mut help = format!("{usage}\n\n{}\n\n", self.about);
        for option in self.options.iter().chain([&&HELP]) {
            let short = option.short.map(|short| format!("{short}, "));
            let value = option.value.map(|value| format!(" {value}"));
            let name = [short.as_deref(), Some(option.long), value.as_deref()];
            let name: String = name.into_iter().flatten().collect();
            let line = format!("  {name:<20} {}", option.help);
            help += &(wrapped(&line, 23) + "\n");
        }
        help + "\n" + &wrapped(STATUS, 4)
    }
}

fn help() -> String {
    let mut help = String::from(
        "usage: owl COMMAND ..\n\nCAN traces (PEAK TRC 1.1 and 1.2), by the proved library.\n\n",
    );
    for command in COMMANDS {
        help += &format!(
            "  {:<8} {:<14} {}\n",
            command.name, command.files, command.does
        );
    }
    help + "\nowl COMMAND --help says more of each; owl --version prints the version.\n\n"
        + &wrapped(STATUS, 4)
}

fn printed(text: &str) -> Status {
    let mut output = Output::new();
    output.line(text);
    output.end()
}

fn wrong(caller: &str, why: &str) -> Status {
    say(why);
    say(&format!("{caller} --help says how it is called"));
    Status::WrongUsage
}
