//! Measures the library and the expert, and prints a table: `measure [ROWS...]`. An earlier library is measured beside them if there is one.

use bushingowl::{numbers, MOST_LINE, RECORD};
use bushingowl_bench::before::Before;
use bushingowl_bench::boundary;
use bushingowl_bench::cpu_time::cpu_time;
use bushingowl_bench::expert;
use bushingowl_bench::measured::{rows, Measured, CHANNEL, FIRST, START};
use std::hint::black_box;
use std::iter::zip;
use std::process::ExitCode;
use std::time::{Duration, Instant};

const USAGE: &str = "\
usage: measure [ROWS...]
times traces of so many rows, each a number from 1 to 999999; without ROWS those of 10000, 100000 and 999999";
/// How long each operation is tried, and how often at least.
const LONG_ENOUGH: Duration = Duration::from_millis(600);
const OFTEN_ENOUGH: usize = 7;

fn main() -> ExitCode {
    let words: Vec<String> = std::env::args().skip(1).collect();
    let sizes = match rows(&words) {
        Ok(sizes) => sizes,
        Err(word) => {
            eprintln!("measure: {word:?} is no number of rows that a trace can be measured with");
            eprintln!("{USAGE}");
            return ExitCode::from(2);
        }
    };
    let before = match Before::named() {
        Ok(before) => before,
        Err(reason) => {
            eprintln!("measure: the library before can't be used: {reason}");
            return ExitCode::from(2);
        }
    };
    print_head(before.is_some());
    let sides = sides(before);
    for rows in sizes {
        for version in [11, 12] {
            measure_all(&sides, rows, version);
        }
    }
    ExitCode::SUCCESS
}

fn print_head(with_before: bool) {
    let (before, right) = match with_before {
        true => (" Before ns/row |", "---:|"),
        false => ("", ""),
    };
    println!("| Rows | Version | Operation | Library MB/s | Expert MB/s | Library ns/row |{before} Expert ns/row | Library/expert |");
    println!("|---:|---|---|---:|---:|---:|{right}---:|---:|");
}

/// What is measured.
enum Side {
    Library,
    Before(Before),
    Expert,
}

/// The sides in the order of their turns: the library first, the expert last.
fn sides(before: Option<Before>) -> Vec<Side> {
    let mut sides = vec![Side::Library];
    sides.extend(before.map(Side::Before));
    sides.push(Side::Expert);
    sides
}

impl Side {
    fn name(&self) -> &'static str {
        match self {
            Side::Library => "library",
            Side::Before(_) => "library before",
            Side::Expert => "expert",
        }
    }

    fn read(&self, text: &[u8], out: &mut [u8]) -> [u64; 7] {
        match self {
            Side::Library => numbers::read(text, out),
            Side::Before(before) => before.read(text, out),
            Side::Expert => expert::read(text, out),
        }
    }

    /// Whether it reads ASCII, as an earlier library may not.
    fn reads_ascii(&self) -> bool {
        match self {
            Side::Before(before) => before.reads_ascii(),
            Side::Library | Side::Expert => true,
        }
    }

    fn read_ascii(&self, text: &[u8], out: &mut [u8]) -> [u64; 4] {
        let answer = match self {
            Side::Library => boundary::read_ascii(text, out, u64::MAX),
            Side::Before(before) => before.read_ascii(text, out),
            Side::Expert => Some(expert::read_ascii(text, out)),
        };
        answer.expect(
            "the library changes no numbers around its answer, and one before is asked if it can",
        )
    }

    fn write(&self, version: u32, records: &[u8], out: &mut [u8]) -> [u64; 3] {
        match self {
            Side::Library => numbers::write(version, START, FIRST, records, out),
            Side::Before(before) => before.write(version, START, FIRST, records, out),
            Side::Expert => expert::write(version, START, FIRST, records, out),
        }
    }

    fn export(&self, records: &[u8], out: &mut [u8]) -> [u64; 5] {
        match self {
            Side::Library => numbers::export(START, CHANNEL, records, out),
            Side::Before(before) => before.export(START, CHANNEL, records, out),
            Side::Expert => expert::export(START, CHANNEL, records, out),
        }
    }
}

fn measure_all(sides: &[Side], rows: usize, version: u32) {
    let Measured {
        records,
        text,
        columns,
        lines,
        exported,
    } = Measured::new(rows, version);
    let case = Case {
        sides: sides.iter().map(Some).collect(),
        rows,
        measured: rows,
        version,
    };
    for (name, text) in [("read", &text), ("read columns", &columns)] {
        case.measure(
            name,
            records.len(),
            |side, out| side.read(black_box(text), out),
            |_| text.len(),
        );
    }
    case.measure(
        "write",
        text.len(),
        |side, out| side.write(version, black_box(&records), out),
        |answer| answer[2] as usize,
    );
    case.measure(
        "export",
        rows * MOST_LINE,
        |side, out| side.export(black_box(&records), out),
        |answer| answer[2] as usize,
    );
    let case = Case {
        sides: sides
            .iter()
            .map(|side| Some(side).filter(|side| side.reads_ascii()))
            .collect(),
        measured: exported,
        ..case
    };
    case.measure(
        "read ascii",
        exported * RECORD,
        |side, out| side.read_ascii(black_box(&lines), out),
        |_| lines.len(),
    );
}

struct Case<'a> {
    /// Nothing for a side that can't do it.
    sides: Vec<Option<&'a Side>>,
    /// The rows of the trace.
    rows: usize,
    /// The rows or lines that are read or written: only some rows give a line of ASCII.
    measured: usize,
    version: u32,
}

impl Case<'_> {
    /// Makes sure that all sides do the same, times them by turns, and prints the best of each.
    fn measure<const N: usize>(
        &self,
        name: &str,
        room: usize,
        call: impl Fn(&Side, &mut [u8]) -> [u64; N],
        bytes: impl Fn(&[u64; N]) -> usize,
    ) {
        let mut outs: Vec<_> = self.sides.iter().map(|_| vec![0; room]).collect();
        let answer = self.same_answer(&mut outs, &call);
        let (begin, mut turns) = (Instant::now(), 0);
        let mut best = vec![Duration::MAX; self.sides.len()];
        while turns < OFTEN_ENOUGH || begin.elapsed() < LONG_ENOUGH {
            for ((side, out), best) in zip(zip(&self.sides, &mut outs), &mut best) {
                if let Some(side) = side {
                    *best = time(|| call(side, black_box(out))).min(*best);
                }
            }
            turns += 1;
        }
        self.print(name, bytes(&answer), &best);
    }

    /// The answer of the library, which the other sides must give with the same output.
    fn same_answer<const N: usize>(
        &self,
        outs: &mut [Vec<u8>],
        call: impl Fn(&Side, &mut [u8]) -> [u64; N],
    ) -> [u64; N] {
        let answer = call(&Side::Library, &mut outs[0]);
        assert_eq!(answer[0], 0, "refused");
        for (i, side) in self.sides.iter().enumerate().skip(1) {
            let Some(side) = side else { continue };
            let name = side.name();
            let other = call(side, &mut outs[i]);
            assert_eq!(
                answer, other,
                "the answers of the library and the {name} differ"
            );
            assert!(
                outs[0] == outs[i],
                "the outputs of the library and the {name} differ"
            );
        }
        answer
    }

    fn print(&self, name: &str, bytes: usize, best: &[Duration]) {
        let best: Vec<f64> = best.iter().map(Duration::as_secs_f64).collect();
        let speed = |seconds: f64| bytes as f64 / seconds / 1e6;
        let (library, expert) = (speed(best[0]), speed(best[best.len() - 1]));
        let row = |(side, seconds): (&Option<_>, &f64)| match side {
            Some(_) => format!("{:.1}", seconds * 1e9 / self.measured as f64),
            None => "-".to_string(),
        };
        let by_row: Vec<String> = zip(&self.sides, &best).map(row).collect();
        let by_row = by_row.join(" | ");
        let (rows, part, ratio) = (self.rows, self.version - 10, library / expert);
        println!(
            "| {rows} | 1.{part} | {name} | {library:.0} | {expert:.0} | {by_row} | {ratio:.3} |"
        );
    }
}

fn time<T>(call: impl FnOnce() -> T) -> Duration {
    let begin = cpu_time();
    black_box(call());
    cpu_time() - begin
}
