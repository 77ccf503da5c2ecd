//! A week of traces through `owl`, on one core and on all: `night [--megabytes N] [--folder FOLDER] [--keep]`.
//! The variable OWL names the command.

use bushingowl_bench::night::folder::Folder;
use bushingowl_bench::night::known;
use bushingowl_bench::night::processor::{cores, Core};
use bushingowl_bench::night::python::Python;
use bushingowl_bench::night::run::{version, Night, Run};
use bushingowl_bench::night::table::{self, fastest};
use bushingowl_bench::night::{say, Tried, Trouble};
use bushingowl_bench::week::{week, FILES, LEAST_MEGABYTES, MOST_MEGABYTES};
use std::env;
use std::ffi::OsString;
use std::path::PathBuf;
use std::process::ExitCode;

const MEGABYTES: usize = 4000;
/// Each way of running is tried so often, by turns, and the fastest counts.
const TURNS: usize = 3;
const USAGE: &str = "\
usage: night [--megabytes N] [--folder FOLDER] [--keep]
converts a week of traces, N megabytes in 420 files (4000 without N), on one core and on all, and prints how fast;
they are made in a new folder below FOLDER (the system's for temporary files), which is removed unless it is to be kept";

struct Options {
    megabytes: usize,
    folder: PathBuf,
    keep: bool,
    owl: PathBuf,
}

fn main() -> ExitCode {
    let options = match options(env::args_os().skip(1)) {
        Ok(options) => options,
        Err(wrong) => {
            eprintln!("night: {wrong}\n{USAGE}");
            return ExitCode::from(2);
        }
    };
    match night(&options) {
        Ok(()) => ExitCode::SUCCESS,
        Err(Trouble::Differs(what)) => {
            say(what);
            ExitCode::FAILURE
        }
        Err(Trouble::NotDone(why)) => {
            eprintln!("night: {why}");
            ExitCode::from(2)
        }
    }
}

fn options(mut words: impl Iterator<Item = OsString>) -> Result<Options, String> {
    let owl = env::var_os("OWL").ok_or("the variable OWL names no command")?;
    let mut options = Options {
        megabytes: MEGABYTES,
        folder: env::temp_dir(),
        keep: false,
        owl: std::path::absolute(owl).map_err(|error| error.to_string())?,
    };
    while let Some(word) = words.next() {
        match word.to_str() {
            Some("--keep") => options.keep = true,
            Some("--folder") => options.folder = words.next().ok_or("which folder?")?.into(),
            Some("--megabytes") => options.megabytes = megabytes(words.next())?,
            _ => return Err(format!("{word:?} is no option")),
        }
    }
    Ok(options)
}

fn megabytes(word: Option<OsString>) -> Result<usize, String> {
    let word = word.ok_or("how many megabytes?")?;
    let megabytes = word.to_str().and_then(|word| word.parse().ok());
    match megabytes {
        Some(megabytes @ LEAST_MEGABYTES..=MOST_MEGABYTES) => Ok(megabytes),
        Some(megabytes) if megabytes > MOST_MEGABYTES => Err(format!(
            "{megabytes} megabytes are too many: some file would have more than 999,999 rows; the most is {MOST_MEGABYTES}"
        )),
        _ => Err(format!("{word:?} is no number of megabytes from {LEAST_MEGABYTES} on")),
    }
}

fn night(options: &Options) -> Tried<()> {
    let version = version(&options.owl)?;
    say(version);
    let folder = Folder::new(&options.folder, options.keep)?;
    let core = Core::find();
    let night = prepare(options, &folder, &core)?;
    let (mut one, mut all) = (Vec::new(), Vec::new());
    for turn in 1..=TURNS {
        one.push(timed(&night, turn, true)?);
        all.push(timed(&night, turn, false)?);
    }
    let (Some(one), Some(all)) = (fastest(one), fastest(all)) else {
        return Ok(());
    };
    table::print(night.bytes(), &one, &all);
    match Python::find(&folder, &core) {
        Some(python) => {
            let owl = table::speed(night.bytes(), one.measured.seconds);
            python.compare(&night.known, owl)
        }
        None => {
            say("python-can is not installed, and so nothing is set beside this.");
            Ok(())
        }
    }
}

/// Makes the week, and reads it.
fn prepare<'a>(options: &Options, folder: &'a Folder, core: &'a Core) -> Tried<Night<'a>> {
    let (megabytes, path) = (options.megabytes, folder.path().display());
    say(format_args!(
        "making {FILES} traces, {megabytes} MB, in {path}"
    ));
    let week = week(megabytes);
    let (made, writing) = known::make(folder.path(), &week)?;
    let speed = megabytes as f64 / writing;
    say(format_args!(
        "the disk took them at {speed:.0} MB/s, one file after the other"
    ));
    say("the second implementation reads them, and says what must come out");
    let known = known::read(folder.path(), week, made)?;
    let core_words = core.words();
    say(format_args!(
        "runs on one core have one job and are {core_words}"
    ));
    say("before each run, what the one before has written is emptied and put aside, and all traces are read once, so that each finds them in memory alike");
    Ok(Night {
        owl: options.owl.clone(),
        folder,
        core,
        known,
    })
}

/// A run, of which one line is said.
fn timed(night: &Night, turn: usize, one_core: bool) -> Tried<Run> {
    let run = night.run(one_core)?;
    let on = match (one_core, cores()) {
        (true, _) | (_, 1) => "one core".to_string(),
        (false, cores) => format!("{cores} cores"),
    };
    let (seconds, refused) = (run.measured.seconds, night.refused());
    let done = night.known.len() - refused;
    say(format_args!("turn {turn} of {TURNS}, {on}: {seconds:.3} seconds; {done} done and {refused} refused as they must be, the outputs those of the second implementation"));
    Ok(run)
}
