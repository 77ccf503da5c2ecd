//! Compares the library with the expert: `compare [INPUTS [SEED]]`. With `--wasm SERVE LIBRARY` before these it is the library as WebAssembly.

use bushingowl_bench::compare::ascii_limits::ascii_limits;
use bushingowl_bench::compare::channels::channels;
use bushingowl_bench::compare::every_ascii::every_ascii;
use bushingowl_bench::compare::every_field::every_field;
use bushingowl_bench::compare::every_mark::every_mark;
use bushingowl_bench::compare::every_part::every_part;
use bushingowl_bench::compare::inputs::one_input;
use bushingowl_bench::compare::limits::limits;
use bushingowl_bench::compare::lines::one_row;
use bushingowl_bench::compare::long_lines::long_lines;
use bushingowl_bench::compare::offset_limits::offset_limits;
use bushingowl_bench::compare::runs::Runs;
use bushingowl_bench::compare::Difference;
use bushingowl_bench::library::Library;
use std::process::ExitCode;

const INPUTS: u64 = 1_000_000;
/// A row whose lines are explained, some hundreds, comes with so many inputs.
const INPUTS_A_ROW: u64 = 100;
const SEED: u64 = 20_261_115;

const USAGE: &str = "compare [--wasm SERVE LIBRARY] [INPUTS [SEED]]";

fn main() -> ExitCode {
    let mut words: Vec<String> = std::env::args().skip(1).collect();
    let library = match Library::named(&mut words) {
        Ok(library) => library,
        Err(reason) => {
            eprintln!("compare: {reason}");
            return ExitCode::from(2);
        }
    };
    let mut numbers = words.iter().map(|word| word.parse());
    let (Ok(inputs), Ok(seed)) = (
        numbers.next().unwrap_or(Ok(INPUTS)),
        numbers.next().unwrap_or(Ok(SEED)),
    ) else {
        eprintln!("{USAGE}");
        return ExitCode::from(2);
    };
    println!("seed {seed}");
    let mut runs = Runs::new(seed, library);
    match all(&mut runs, inputs) {
        Ok(()) => finish(&runs, inputs),
        Err((at, difference)) => {
            println!("{at}: {}", difference.what);
            println!("{}", difference.input);
            ExitCode::FAILURE
        }
    }
}

/// Everything, up to the first difference, with where that is.
fn all(runs: &mut Runs, inputs: u64) -> Result<(), (String, Difference)> {
    for input in 1..=inputs {
        one_input(runs).map_err(|found| (format!("input {input}"), found))?;
    }
    println!("{inputs} inputs at random done, now the lines to be explained");
    for row in 1..=inputs.div_ceil(INPUTS_A_ROW) {
        one_row(runs).map_err(|found| (format!("lines of row {row}"), found))?;
    }
    let at = |place: &str| {
        let place = place.to_string();
        move |found| (place, found)
    };
    offset_limits(runs).map_err(at("offset limits"))?;
    channels(runs).map_err(at("channels"))?;
    every_mark(runs).map_err(at("marks"))?;
    every_field(runs).map_err(at("short fields"))?;
    long_lines(runs).map_err(at("long lines"))?;
    println!("lines done, now every part of a line of ASCII");
    every_ascii(runs).map_err(at("every part"))?;
    every_part(runs).map_err(at("every part"))?;
    println!("parts done, now the size limits");
    limits(runs).map_err(at("size limits"))?;
    ascii_limits(runs).map_err(at("size limits of ASCII"))
}

fn finish(runs: &Runs, inputs: u64) -> ExitCode {
    runs.tally.print();
    let unseen = runs.tally.unseen();
    if !unseen.is_empty() {
        println!("never given: {unseen:?}; try more inputs");
        return ExitCode::FAILURE;
    }
    println!("{inputs} inputs, 0 differ");
    ExitCode::SUCCESS
}
