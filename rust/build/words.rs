//! A function in Rust for each line of `words.txt`.

use std::collections::BTreeSet;

/// The functions. Where a line is none of that file, it panics and names it.
pub fn functions(text: &str) -> String {
    let mut names = BTreeSet::new();
    let mut made = String::new();
    for (line, number) in text.lines().zip(1..) {
        if line.is_empty() || line.starts_with('#') {
            continue;
        }
        let Some((name, words)) = parted(line) else {
            panic!("words.txt, line {number} is no `name: words`: {line}");
        };
        if !names.insert(name) {
            panic!("words.txt, line {number} gives {name} a second time: {line}");
        }
        let Some(filled_in) = placeholders(words) else {
            panic!("words.txt, line {number} has a brace that is no placeholder: {line}");
        };
        made += &function(name, words, &filled_in);
    }
    made
}

/// Name and words of a line.
fn parted(line: &str) -> Option<(&str, &str)> {
    let (name, words) = line.split_once(": ")?;
    (is_name(name) && !words.trim().is_empty()).then_some((name, words))
}

/// Whether it can be a name: small letters first, then also digits and underscores.
fn is_name(word: &str) -> bool {
    let inner = |byte: u8| matches!(byte, b'a'..=b'z' | b'0'..=b'9' | b'_');
    word.starts_with(|first: char| first.is_ascii_lowercase()) && word.bytes().all(inner)
}

/// What is filled in, each once, in the order in which it first appears.
fn placeholders(words: &str) -> Option<Vec<&str>> {
    let mut found = vec![];
    let mut rest = words;
    while let Some(at) = rest.find(['{', '}']) {
        let (name, behind) = rest[at..].strip_prefix('{')?.split_once('}')?;
        if !is_name(name) {
            return None;
        }
        if !found.contains(&name) {
            found.push(name);
        }
        rest = behind;
    }
    Some(found)
}

fn function(name: &str, words: &str, filled_in: &[&str]) -> String {
    let takes: Vec<String> = filled_in
        .iter()
        .map(|name| format!("{name}: impl std::fmt::Display"))
        .collect();
    let takes = takes.join(", ");
    // As it is written in Rust, with quotes around it.
    let literal = format!("{words:?}");
    let body = match filled_in {
        [] => format!("{literal}.to_string()"),
        _ => format!("format!({literal})"),
    };
    format!("/// {words}\npub(crate) fn {name}({takes}) -> String {{\n    {body}\n}}\n")
}
