//! Explains lines of many megabytes on a small stack, and prints how long each byte takes: `long_line [BYTES...]`.
//!
//! If the stack grew with the line, or with its words, it would not be enough; if the time grew faster, so would that of a byte.

use bushingowl_bench::boundary;
use bushingowl_bench::cpu_time::cpu_time;
use bushingowl_bench::expert;
use std::hint::black_box;
use std::process::ExitCode;
use std::thread;
use std::time::Duration;

const BYTES: [usize; 4] = [12_500_000, 25_000_000, 50_000_000, 100_000_000];
/// The fewest bytes behind the row, so that some words fit.
const LEAST: usize = 100;
/// The stack on which both run.
const STACK: usize = 64 * 1024;
const TURNS: usize = 5;
const ROW: &[u8] = b"1) 0.000 1 Warng FFFFFFFF 4 00 00 00 08";
/// The fields of the row.
const FIELDS: u64 = 10;

fn main() -> ExitCode {
    let words = std::env::args().skip(1);
    let Some(mut sizes) = words.map(|word| bytes(&word)).collect::<Option<Vec<_>>>() else {
        eprintln!("long_line [BYTES...], each at least {LEAST}");
        return ExitCode::from(2);
    };
    if sizes.is_empty() {
        sizes.extend(BYTES);
    }
    println!(
        "| MB | Behind the row | Answer | Library ns/byte | Expert ns/byte | Library/expert |"
    );
    println!("|---:|---|---|---:|---:|---:|");
    for (name, word) in [
        ("words of one letter", b" A" as &[u8]),
        ("words of eight letters", b" BUSLIGHT"),
        ("one word", b"A"),
        ("blanks", b" "),
    ] {
        for &bytes in &sizes {
            let words = word.iter().cycle().take(bytes).copied();
            let mut line: Vec<u8> = ROW.iter().chain(b" ").copied().chain(words).collect();
            // The last word is whole, and ends the line.
            while word.len() > 1 && !line.ends_with(word) {
                line.pop();
            }
            let fields = line.split(|&byte| byte == b' ').filter(|f| !f.is_empty());
            let last = (fields.count() as u64).max(FIELDS + 1);
            measure(name, &line, [30, 0, 0, 0]);
            *line.last_mut().expect("not empty") = b'a';
            let name = format!("{name}, the last byte wrong");
            measure(&name, &line, [0, 0, 1, last]);
        }
    }
    ExitCode::SUCCESS
}

/// The bytes that a word asks for.
fn bytes(word: &str) -> Option<usize> {
    word.parse().ok().filter(|&bytes| bytes >= LEAST)
}

/// Has the line explained by turns, and prints the best of each in processor time.
fn measure(name: &str, line: &[u8], known: [u64; 4]) {
    let turns = || {
        let mut best = [Duration::MAX; 2];
        for _ in 0..TURNS {
            let library = || boundary::explain(black_box(line), 12, 1, u64::MAX);
            best[0] = best[0].min(time(library, Some(known)));
            let expert = || expert::explain(black_box(line), 12, 1);
            best[1] = best[1].min(time(expert, known));
        }
        best
    };
    let best = thread::scope(|scope| {
        let small = thread::Builder::new().stack_size(STACK);
        let thread = small.spawn_scoped(scope, turns).expect("a thread");
        thread.join().expect("the same answers")
    });
    let [library, expert] = best.map(|time| time.as_secs_f64() * 1e9 / line.len() as f64);
    let (mb, ratio) = (line.len() as f64 / 1e6, expert / library);
    let [number, _, reason, field] = known;
    let answer = match reason {
        0 => number.to_string(),
        _ => format!("wrong field {field}"),
    };
    println!("| {mb:.1} | {name} | {answer} | {library:.3} | {expert:.3} | {ratio:.3} |");
}

fn time<T: PartialEq>(call: impl FnOnce() -> T, known: T) -> Duration {
    let begin = cpu_time();
    let answer = black_box(call());
    let time = cpu_time() - begin;
    assert!(answer == known, "the answer differs");
    time
}
