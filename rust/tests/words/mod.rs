//! Words for what may stand in a place, held to what is taken there.

/// Holds words to spellings that are taken in a place and to such that are refused there, with blanks between them. All
/// that the words name are among the first; a number may be named without its bracket.
#[track_caller]
pub fn hold(words: &str, taken: &str, refused: &str, takes: impl Fn(&str) -> bool) {
    for spelling in taken.split(' ') {
        assert!(takes(spelling), "{spelling} is refused, with: {words}");
    }
    for spelling in refused.split(' ') {
        assert!(!takes(spelling), "{spelling} is taken, with: {words}");
    }
    for named in named(words) {
        let bracket = format!("{named})");
        let mut taken = taken.split(' ');
        let tried = taken.any(|spelling| spelling == named || spelling == bracket);
        assert!(tried, "{named} is not tried, with: {words}");
    }
}

/// The spellings that words name: what has a digit or a capital, but for "ID" and the number of a data byte.
fn named(words: &str) -> Vec<String> {
    let mut words = words.replace("an ID", "");
    for of in 1..=8 {
        for byte in 1..=of {
            words = words.replace(&format!("data byte {byte} of {of}"), "");
        }
    }
    words
        .split([' ', ',', '"'])
        .filter(|word| word.contains(|byte: char| byte.is_ascii_digit() || byte.is_uppercase()))
        .map(str::to_string)
        .collect()
}

/// Every byte of two digits, in either letter case: those that are good, and the others with what is no byte.
pub fn bytes(good: impl Fn(u8) -> bool) -> (String, String) {
    let (mut taken, mut refused) = (vec![], vec!["0 000 0G G0 +1 0x RTRR WORD".to_string()]);
    for byte in 0..=u8::MAX {
        let list = if good(byte) { &mut taken } else { &mut refused };
        list.extend([format!("{byte:02X}"), format!("{byte:02x}")]);
    }
    (taken.join(" "), refused.join(" "))
}
