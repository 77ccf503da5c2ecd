//! Measures the library as WebAssembly beside the one that is linked, and prints a table: `measure_wasm SERVE LIBRARY [ROWS...]`.

use bushingowl::{MOST_LINE, RECORD};
use bushingowl_bench::library::{Area, Call, Library};
use bushingowl_bench::measured::{rows, Measured, CHANNEL, FIRST, START};
use std::process::ExitCode;
use std::time::{Duration, Instant};

const USAGE: &str = "\
usage: measure-wasm [ROWS...]
times traces of so many rows, each a number from 1 to 999999; without ROWS those of 10000, 100000 and 999999";
/// How long each operation is tried, and how often at least.
const LONG_ENOUGH: Duration = Duration::from_secs(2);
const OFTEN_ENOUGH: usize = 15;
/// What the numbers of an answer are before a call.
const UNSET: u64 = u64::MAX;

fn main() -> ExitCode {
    let words: Vec<String> = std::env::args().skip(1).collect();
    let [serve, library, words @ ..] = words.as_slice() else {
        eprintln!("{USAGE}");
        return ExitCode::from(2);
    };
    let sizes = match rows(words) {
        Ok(sizes) => sizes,
        Err(word) => {
            eprintln!(
                "measure-wasm: {word:?} is no number of rows that a trace can be measured with"
            );
            eprintln!("{USAGE}");
            return ExitCode::from(2);
        }
    };
    println!("| Rows | Version | Operation | Library ns/row | WebAssembly ns/row | First call ns/row | WebAssembly/library |");
    println!("|---:|---|---|---:|---:|---:|---:|");
    for rows in sizes {
        for version in [11, 12] {
            let trace = Trace {
                serve,
                library,
                rows,
                version,
            };
            if let Err(reason) = trace.measure_all() {
                eprintln!("measure-wasm: {reason}");
                return ExitCode::FAILURE;
            }
        }
    }
    ExitCode::SUCCESS
}

struct Trace<'a> {
    serve: &'a str,
    library: &'a str,
    rows: usize,
    version: u32,
}

impl Trace<'_> {
    fn measure_all(&self) -> Result<(), String> {
        let (rows, version) = (self.rows, self.version);
        let mut of = Measured::new(rows, version);
        let (trace, lines, text) = (rows * RECORD, of.exported, of.text.len());
        self.measure::<7>("read", Call::Read, &mut of.text, trace, rows)?;
        self.measure::<7>("read columns", Call::Read, &mut of.columns, trace, rows)?;
        let write = Call::Write {
            version,
            start: START,
            first: FIRST,
        };
        self.measure::<3>("write", write, &mut of.records, text, rows)?;
        let export = Call::Export {
            start: START,
            channel: CHANNEL,
        };
        self.measure::<5>("export", export, &mut of.records, rows * MOST_LINE, rows)?;
        let room = lines * RECORD;
        self.measure::<4>("read ascii", Call::ReadAscii, &mut of.lines, room, lines)
    }

    /// Makes sure that both do the same, times them by turns, and prints the median of each, and the first call in a process that has done no other.
    fn measure<const N: usize>(
        &self,
        name: &str,
        call: Call,
        input: &mut [u8],
        room: usize,
        measured: usize,
    ) -> Result<(), String> {
        let wasm = Library::wasm(self.serve, self.library)?;
        let mut sides = [Library::Linked, wasm].map(|library| Side::new(library, room));
        let mut answers = [[UNSET; N]; 2];
        let begin = Instant::now();
        while sides[1].took.len() < OFTEN_ENOUGH || begin.elapsed() < LONG_ENOUGH {
            for (side, answer) in sides.iter_mut().zip(&mut answers) {
                *answer = side.turn(call, input)?;
            }
            if answers[0] != answers[1] || answers[0][0] != 0 || sides[0].out != sides[1].out {
                return Err(format!("{name}: {answers:?}, or other outputs"));
            }
        }
        let first = sides[1].took[0];
        let [library, wasm] = sides.map(Side::median);
        let ns = |time: Duration| time.as_secs_f64() * 1e9 / measured as f64;
        let (library, wasm, first) = (ns(library), ns(wasm), ns(first));
        let (rows, part, ratio) = (self.rows, self.version - 10, wasm / library);
        println!(
            "| {rows} | 1.{part} | {name} | {library:.1} | {wasm:.1} | {first:.1} | {ratio:.2} |"
        );
        Ok(())
    }
}

struct Side {
    library: Library,
    out: Vec<u8>,
    took: Vec<Duration>,
}

impl Side {
    fn new(library: Library, room: usize) -> Side {
        Side {
            library,
            out: vec![0; room],
            took: Vec::new(),
        }
    }

    fn turn<const N: usize>(&mut self, call: Call, input: &mut [u8]) -> Result<[u64; N], String> {
        let (input, out) = (Area::of(input), Area::of(&mut self.out));
        let (answer, took) = self.library.call(call, input, out, UNSET)?;
        self.took.push(took);
        Ok(answer)
    }

    fn median(mut self) -> Duration {
        self.took.sort_unstable();
        self.took[self.took.len() / 2]
    }
}
