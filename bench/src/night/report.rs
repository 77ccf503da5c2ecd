//! What `owl` must say, in JSON, of each file and of all.

use super::json::value;
use super::known::{Ending, Known};
use super::{differs, Tried, LINES, TRACES};
use std::collections::BTreeMap;

/// The numbers of the summary that are measured.
pub struct Measured {
    pub jobs: usize,
    pub seconds: f64,
    pub library: f64,
    pub peak: f64,
}

/// Keys, and the values that they must have.
type Pairs = Vec<(&'static str, String)>;

/// Checks each line, and gives what was measured.
pub fn check(said: &str, jobs: usize, known: &[Known]) -> Tried<Measured> {
    let lines: Vec<&str> = said.lines().collect();
    let Some((summary, files)) = lines.split_last() else {
        return differs("owl said nothing");
    };
    if files.len() != known.len() {
        let (said, files) = (files.len(), known.len());
        return differs(format!("owl said something of {said} files, not {files}"));
    }
    for (line, known) in files.iter().zip(known) {
        check_line(line, &of_file(known))?;
    }
    check_line(summary, &of_all(known))?;
    check_line(summary, &[("jobs", jobs.to_string())])?;
    Ok(Measured {
        jobs,
        seconds: number(summary, "seconds")?,
        library: number(summary, "library_seconds")?,
        peak: number(summary, "peak_bytes")?,
    })
}

fn check_line(line: &str, pairs: &[(&str, String)]) -> Tried<()> {
    for (key, known) in pairs {
        let said = value(line, key).unwrap_or("nothing");
        if said != known {
            return differs(format!("{key} is {said}, not {known}, in\n{line}"));
        }
    }
    Ok(())
}

fn number(line: &str, key: &str) -> Tried<f64> {
    let number = value(line, key).and_then(|value| value.parse().ok());
    match number {
        Some(number) if number > 0.0 => Ok(number),
        _ => differs(format!("no {key} in\n{line}")),
    }
}

fn of_file(known: &Known) -> Pairs {
    let Known { plan, made, .. } = known;
    let stem = plan.stem();
    let file = ("file", format!("\"{TRACES}/{stem}.trc\""));
    let output = match known.ending {
        Ending::Done(output) => output,
        Ending::Refused(number, place) => {
            return vec![
                file,
                ("status", "\"refused\"".to_string()),
                ("refusal", number.to_string()),
                ("place", place.to_string()),
            ]
        }
    };
    let first_step_back = match made.first_step_back {
        0 => "null".to_string(),
        row => row.to_string(),
    };
    vec![
        file,
        ("status", "\"done\"".to_string()),
        ("output", format!("\"{LINES}/{stem}.asc\"")),
        ("version", format!("\"1.{}\"", plan.version - 10)),
        ("start", made.start.to_string()),
        ("first", 1.to_string()),
        ("rows", made.rows.to_string()),
        ("lines", made.lines.to_string()),
        ("left_out", (made.rows - made.lines).to_string()),
        ("steps_back", made.steps_back.to_string()),
        ("first_step_back", first_step_back),
        ("bytes_read", known.bytes.to_string()),
        ("bytes_written", output.bytes.to_string()),
    ]
}

fn of_all(known: &[Known]) -> Pairs {
    let good = known.iter().filter(|known| !known.is_refused());
    let sum = |of: fn(&Known) -> u64| good.clone().map(of).sum::<u64>().to_string();
    let mut by_number: BTreeMap<u64, usize> = BTreeMap::new();
    let mut refused = 0;
    for known in known {
        if let Ending::Refused(number, _) = known.ending {
            *by_number.entry(number).or_default() += 1;
            refused += 1;
        }
    }
    let by_number = by_number
        .iter()
        .map(|(n, files)| format!("\"{n}\":{files}"));
    let by_number: Vec<String> = by_number.collect();
    let read: u64 = known.iter().map(|known| known.bytes).sum();
    vec![
        ("files", known.len().to_string()),
        ("done", good.clone().count().to_string()),
        ("there", 0.to_string()),
        ("refused", refused.to_string()),
        ("failed", 0.to_string()),
        ("rows", sum(|known| known.made.rows)),
        ("lines", sum(|known| known.made.lines)),
        ("left_out", sum(|known| known.made.rows - known.made.lines)),
        ("steps_back", sum(|known| known.made.steps_back)),
        ("bytes_read", read.to_string()),
        ("bytes_written", sum(bytes_written)),
        ("refused_by_number", format!("{{{}}}", by_number.join(","))),
    ]
}

fn bytes_written(known: &Known) -> u64 {
    match known.ending {
        Ending::Done(output) => output.bytes,
        Ending::Refused(..) => 0,
    }
}
