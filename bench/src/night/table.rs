//! What is printed of the runs.

use super::run::Run;
use super::say;

/// The fastest run, in `owl`'s own seconds.
pub fn fastest(runs: Vec<Run>) -> Option<Run> {
    let seconds = |run: &Run| run.measured.seconds;
    let fastest = runs.into_iter();
    fastest.min_by(|one, other| seconds(one).total_cmp(&seconds(other)))
}

/// Megabytes a second.
pub fn speed(bytes: u64, seconds: f64) -> f64 {
    bytes as f64 / seconds / 1e6
}

pub fn print(bytes: u64, one: &Run, all: &Run) {
    say("");
    say("| Cores | Seconds | From outside | MB/s | In the library | Peak MB | User seconds | System seconds |");
    say("|---:|---:|---:|---:|---:|---:|---:|---:|");
    print_run(bytes, one);
    print_run(bytes, all);
    let ratio = one.measured.seconds / all.measured.seconds;
    say("");
    say(format_args!(
        "All cores are {ratio:.2} times as fast as one."
    ));
}

fn print_run(bytes: u64, run: &Run) {
    let Run {
        measured, outside, ..
    } = run;
    let (jobs, seconds) = (measured.jobs, measured.seconds);
    let speed = speed(bytes, seconds);
    let share = measured.library / (seconds * jobs as f64);
    let peak = measured.peak / 1e6;
    let (user, system) = match run.spent {
        Some(spent) => (format!("{:.2}", spent.user), format!("{:.2}", spent.system)),
        None => ("-".to_string(), "-".to_string()),
    };
    say(format_args!("| {jobs} | {seconds:.3} | {outside:.3} | {speed:.0} | {share:.3} | {peak:.0} | {user} | {system} |"));
}
