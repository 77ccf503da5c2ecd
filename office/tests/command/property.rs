//! On random files owl writes what the crate gives, and refuses what the crate refuses.

use crate::common::random::Random;
use crate::common::traces::export;
use crate::common::{Ran, Scratch};
use bushingowl::{explain_refusal, read_ascii_to_vec, read_to_vec, write_to_vec, Refused};

const FILES: usize = 400;

/// What the crate makes of a text: the output, or the refusal.
type Made = Result<Vec<u8>, Refused>;

/// Puts texts into a folder, runs owl on them, and holds each to what the crate makes of it.
fn hold(
    words: &str,
    ending: &str,
    texts: &[Vec<u8>],
    output: fn(usize) -> String,
    make: fn(&[u8]) -> Made,
) {
    let scratch = Scratch::new();
    let names: Vec<String> = (0..texts.len())
        .map(|number| format!("{number:04}.{ending}"))
        .collect();
    for (name, text) in names.iter().zip(texts) {
        scratch.put(format!("in/{name}"), text);
    }
    let files = names.iter().map(|name| format!("in/{name}"));
    let words = words.split(' ').map(String::from).chain(files);
    let ran = scratch.owl_with(words).quietly();
    let (mut refused, mut written) = (0, Vec::new());
    for (number, text) in texts.iter().enumerate() {
        let made = make(text);
        agrees(&ran, number, text, &made);
        refused += usize::from(made.is_err());
        if let Ok(bytes) = made {
            let name = output(number);
            assert!(scratch.bytes(format!("out/{name}")) == bytes, "{name}");
            written.push(name);
        }
    }
    written.sort();
    assert_eq!(scratch.names("out"), written);
    println!("{refused} of {} were refused", texts.len());
    assert!(refused > texts.len() / 10 && refused < texts.len() * 9 / 10);
    ran.ended(1);
}

/// What the object of a file says is what the crate made of it.
#[track_caller]
fn agrees(ran: &Ran, number: usize, text: &[u8], made: &Made) {
    let object = crate::common::json::Json::of(ran.lines()[number]);
    let shown = String::from_utf8_lossy(text);
    match made {
        Ok(bytes) => {
            assert_eq!(object.text("status"), "done", "{object:?}\n{shown}");
            assert_eq!(object.number("bytes_written"), bytes.len() as f64);
            assert_eq!(object.number("bytes_read"), text.len() as f64);
        }
        Err(refused) => {
            assert_eq!(object.text("status"), "refused", "{object:?}\n{shown}");
            assert_eq!(object.number("refusal"), refused.number() as f64, "{shown}");
            assert_eq!(object.number("place"), refused.place as f64, "{shown}");
            assert_eq!(object.text("reason"), refused.to_string(), "{shown}");
            if let Some(explanation) = explain_refusal(text, *refused) {
                assert_eq!(object.text("detail"), explanation.to_string(), "{shown}");
            }
        }
    }
}

/// Texts, about half of them damaged.
fn texts(seed: u64, one: fn(&mut Random) -> Vec<u8>) -> Vec<Vec<u8>> {
    let mut random = Random(seed);
    let some = (0..FILES).map(|_| {
        let text = one(&mut random);
        match random.below(2) {
            0 => text,
            _ => random.damage(text),
        }
    });
    some.collect()
}

#[test]
fn of_convert() {
    let texts = texts(0x0171, Random::trace);
    hold(
        "convert -o out --json",
        "trc",
        &texts,
        |number| format!("{number:04}.asc"),
        export,
    );
}

#[test]
fn of_write() {
    let output = |number| format!("{number:04}-1.2.trc");
    let words = "write --version 1.2 -o out --json --jobs 3";
    let texts = texts(0x0172, Random::trace);
    hold(words, "trc", &texts, output, |text| {
        let (trace, records) = read_to_vec(text)?;
        write_to_vec(12, trace.start, trace.first, &records)
    });
}

#[test]
fn of_back() {
    let texts = texts(0x0173, |random| export(&random.trace()).unwrap());
    let output = |number| format!("{number:04}.trc");
    hold(
        "back --version 1.2 -o out --json",
        "asc",
        &texts,
        output,
        |text| {
            let (back, records) = read_ascii_to_vec(text)?;
            write_to_vec(12, back.start, u64::from(back.records > 0), &records)
        },
    );
}

#[test]
fn of_check() {
    let scratch = Scratch::new();
    for (number, text) in texts(0x0174, Random::trace).iter().enumerate() {
        scratch.put(format!("week/{number:04}.trc"), text);
    }
    let ran = scratch.owl("check week --json --jobs 4").ended(1).quietly();
    let (files, summary) = ran.objects();
    let mut rows = 0;
    for (number, text) in texts(0x0174, Random::trace).iter().enumerate() {
        let made = read_to_vec(text);
        let status = if made.is_ok() { "done" } else { "refused" };
        assert_eq!(files[number].text("status"), status);
        if let Ok((trace, _)) = made {
            assert_eq!(files[number].number("start"), trace.start as f64);
            assert_eq!(files[number].number("first"), trace.first as f64);
            assert_eq!(files[number].number("rows"), trace.rows as f64);
            rows += trace.rows;
        }
    }
    assert_eq!(summary.number("rows"), rows as f64);
}
