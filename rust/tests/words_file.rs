//! The functions that are made of `words.txt`.

#[path = "../build/words.rs"]
mod words;

use words::functions;

#[test]
fn have_the_words_as_they_stand_there() {
    let made = functions("# a comment: {\n\nbar: |\nquoted: a \"b\" of \\ and 'c'\n");
    assert_eq!(
        made,
        r#"/// |
pub(crate) fn bar() -> String {
    "|".to_string()
}
/// a "b" of \ and 'c'
pub(crate) fn quoted() -> String {
    "a \"b\" of \\ and 'c'".to_string()
}
"#
    );
}

#[test]
fn take_each_placeholder_once_in_the_order_in_which_it_first_appears() {
    let made = functions("in_data_12: {of}: \"{byte_1})\" {of}");
    assert_eq!(
        made,
        r#"/// {of}: "{byte_1})" {of}
pub(crate) fn in_data_12(of: impl std::fmt::Display, byte_1: impl std::fmt::Display) -> String {
    format!("{of}: \"{byte_1})\" {of}")
}
"#
    );
}

/// Holds what is said of the last of these lines.
#[track_caller]
fn refused(lines: &str, what: &str) {
    let said = *std::panic::catch_unwind(|| functions(lines))
        .expect_err(lines)
        .downcast::<String>()
        .unwrap();
    let (number, last) = lines
        .lines()
        .zip(1..)
        .map(|(line, at)| (at, line))
        .last()
        .unwrap();
    assert_eq!(said, format!("words.txt, line {number} {what}: {last}"));
}

#[test]
fn are_made_of_lines_with_a_name_and_words_alone() {
    for line in [
        "words",
        "name:words",
        "name:",
        "name: ",
        "name:  ",
        ": words",
        " name: words",
        "Name: words",
        "na-me: words",
        "1st: words",
        "_name: words",
        "a name: words",
        " # words",
        "n\u{E4}me: words",
    ] {
        refused(
            &format!("# first\n\nfirst: words\n{line}"),
            "is no `name: words`",
        );
    }
}

#[test]
fn have_names_of_their_own() {
    refused(
        "one: words\ntwo: words\none: other words",
        "gives one a second time",
    );
}

#[test]
fn know_no_brace_but_that_of_a_placeholder() {
    for words in [
        "{", "}", "{}", "{0}", "{{}}", "{{of}}", "{of", "of}", "{of}}", "{ of }", "{of:?}", "{Of}",
        "{of} {", "} {of}",
    ] {
        refused(
            &format!("good: {{of}}\nname: {words}"),
            "has a brace that is no placeholder",
        );
    }
}

#[test]
fn are_made_of_the_file() {
    let text =
        std::fs::read_to_string(concat!(env!("CARGO_MANIFEST_DIR"), "/../words.txt")).unwrap();
    let lines = text
        .lines()
        .filter(|line| !line.is_empty() && !line.starts_with('#'));
    assert_eq!(
        functions(&text).matches("pub(crate) fn ").count(),
        lines.count()
    );
}
