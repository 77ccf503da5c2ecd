//! Texts at random, good and broken, and what the Rust crate tells of each: `told COUNT SEED TEXTS LINES` writes at least so many texts into one file, and a line
//! for each into the other. `bench/told` holds the bench page's script to these lines.

use bushingowl::{
    count_steps, fault_of_ascii, fault_of_trace, read_ascii_to_vec, read_to_vec, Fault, Refused,
    RECORD,
};
use bushingowl_bench::inputs::ascii::{any_stamp, first_stamp, AsciiStyle, Line};
use bushingowl_bench::inputs::ascii_spoiled::spoiled;
use bushingowl_bench::inputs::damage::damage;
use bushingowl_bench::inputs::lines::RowFields;
use bushingowl_bench::inputs::random::Random;
use bushingowl_bench::inputs::spelling::Spelled;
use bushingowl_bench::inputs::{ascii_damage, noise};
use std::fs::File;
use std::io::{self, BufWriter, Write};

const HEADS: [(u32, &str); 2] = [
    (11, ";$FILEVERSION=1.1\r\n;$STARTTIME=36585.5\r\n"),
    (12, ";$FILEVERSION=1.2\r\n;$STARTTIME=36585.5\r\n"),
];
const ROWS: [(u32, &str); 2] = [(11, "0.0 Rx 0000 0"), (12, "0.000 1 Rx 0000 0")];

fn main() -> io::Result<()> {
    let given: Vec<String> = std::env::args().skip(1).collect();
    let [count, seed, texts, lines] = &given[..] else {
        eprintln!("told COUNT SEED TEXTS LINES");
        std::process::exit(2);
    };
    let count: usize = count.parse().expect("COUNT is a number");
    let mut random = Random::new(seed.parse().expect("SEED is a number"));
    let mut texts = BufWriter::new(File::create(texts)?);
    let mut lines = BufWriter::new(File::create(lines)?);
    let mut done = 0;
    while done < count {
        let ascii = random.once_in(3);
        let made = if ascii {
            ascii_texts(&mut random)
        } else {
            traces(&mut random)
        };
        for text in &made {
            texts.write_all(&[u8::from(ascii)])?;
            texts.write_all(&(text.len() as u32).to_le_bytes())?;
            texts.write_all(text)?;
            let told = if ascii {
                of_ascii(text)
            } else {
                of_trace(text)
            };
            writeln!(lines, "{told}")?;
        }
        done += made.len();
    }
    texts.flush()?;
    lines.flush()
}

fn traces(random: &mut Random) -> Vec<Vec<u8>> {
    match random.below(10) {
        0..=2 => vec![Spelled::new(random, 40).text],
        3..=5 => {
            let mut text = Spelled::new(random, 20).text;
            damage(random, &mut text);
            vec![text]
        }
        6 => vec![noise::bytes(random), noise::letters(random)],
        7 => vec![noise::words(random)],
        _ => rows(random),
    }
}

/// A row that is wrong in many ways, one text each: behind the row before it, or as the first.
fn rows(random: &mut Random) -> Vec<Vec<u8>> {
    let row = RowFields::new(random);
    let of = |table: [(u32, &'static str); 2]| {
        table
            .into_iter()
            .find(|(version, _)| *version == row.version)
    };
    let ((_, head), (_, before)) = of(HEADS).zip(of(ROWS)).expect("there are two versions");
    let mut begin = head.to_string();
    if row.expected > 1 {
        begin += &format!("{}) {before}\r\n", row.expected - 1);
    }
    [
        row.damaged(random),
        row.rearranged(random),
        row.cut(random),
        row.with_odd_bytes(random),
        row.nearly_commented(random),
    ]
    .concat()
    .into_iter()
    .map(|line| [begin.as_bytes(), &line, b"\r\n; behind it\r\n"].concat())
    .collect()
}

fn ascii_texts(random: &mut Random) -> Vec<Vec<u8>> {
    let first = first_stamp(random);
    let stamped = |random: &mut Random| {
        let stamp = any_stamp(random, first, first);
        Line::new(random, stamp)
    };
    match random.below(8) {
        0 => vec![ascii_damage::letters(random), ascii_damage::words(random)],
        1..=3 => {
            let style = AsciiStyle::new(random);
            let mut text = Vec::new();
            for _ in 0..random.below(6) {
                let line = stamped(random);
                text.extend((style.line(random, &line) + style.end(random)).into_bytes());
            }
            if random.once_in(2) {
                ascii_damage::damage(random, &mut text);
            }
            vec![text]
        }
        _ => {
            let style = AsciiStyle::new(random);
            let (begin, line) = (Line::new(random, first), stamped(random));
            let good = style.line(random, &begin) + style.end(random);
            let last = random.once_in(4);
            vec![[good.into_bytes(), spoiled(random, &style, &line, last)].concat()]
        }
    }
}

fn of_trace(text: &[u8]) -> String {
    match read_to_vec(text) {
        Ok((trace, records)) => {
            let back = trace.step_back.unwrap_or(0);
            format!(
                "accepted\t{}\t{}\t{}\t{}\t{back}\t{}",
                trace.version,
                trace.start,
                trace.rows,
                trace.first,
                count_steps(&records),
            )
        }
        Err(refused) => {
            let mut records = vec![0; text.len() / RECORD * RECORD];
            refusal(refused, fault_of_trace(text, refused, &mut records))
        }
    }
}

fn of_ascii(text: &[u8]) -> String {
    match read_ascii_to_vec(text) {
        Ok((lines, records)) => format!(
            "accepted\t{}\t{}\t{}",
            lines.start,
            lines.records,
            count_steps(&records)
        ),
        Err(refused) => refusal(refused, fault_of_ascii(text, refused)),
    }
}

fn refusal(refused: Refused, fault: Option<Fault>) -> String {
    let remedy = refused.remedy().unwrap_or_default();
    let told = format!(
        "refused\t{}\t{}\t{refused}\t{remedy}",
        refused.number(),
        refused.place
    );
    match fault {
        None => told,
        Some(fault) => {
            let (start, end) = (fault.place.start, fault.place.end);
            format!("{told}\t{}\t{}\t{start}\t{end}", fault.why, fault.expected)
        }
    }
}
