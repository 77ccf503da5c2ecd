//! Lines to be explained: a row at random, and all that comes of it.

use super::runs::Runs;
use super::Checked;
use crate::inputs::lines::{joined, noise, RowFields};
use crate::inputs::LAST_NUMBER;

/// The answer for a row, and for all else that is not explained.
const UNEXPLAINED: [u64; 4] = [30, 0, 0, 0];
const NO_VERSION: [u64; 4] = [21, 0, 0, 0];
/// The first field is wrong, or the second.
const WRONG_NUMBER: [u64; 4] = [0, 0, 1, 1];
const WRONG_OFFSET: [u64; 4] = [0, 0, 1, 2];
const VERSIONS: [u32; 11] = [
    0,
    1,
    2,
    10,
    13,
    20,
    21,
    110,
    256 + 11,
    1 << 31 | 12,
    u32::MAX,
];

pub fn one_row(runs: &mut Runs) -> Checked {
    let row = RowFields::new(&mut runs.random);
    let (version, number) = (row.version, row.expected);
    for line in row.good(&mut runs.random) {
        runs.explain("explain: row", &line, version, number, Some(UNEXPLAINED))?;
    }
    elsewhere(runs, &row)?;
    first_rows(runs, &row)?;
    let random = &mut runs.random;
    let noise = (0..20).map(|_| noise(random)).collect();
    for (kind, lines) in [
        ("explain: field damaged", row.damaged(random)),
        ("explain: fields rearranged", row.rearranged(random)),
        ("explain: row cut off", row.cut(random)),
        ("explain: odd byte in a row", row.with_odd_bytes(random)),
        ("explain: noise", noise),
    ] {
        for line in lines {
            let ended = line.iter().any(|byte| b"\r\n".contains(byte));
            let known = ended.then_some(UNEXPLAINED);
            runs.explain(kind, &line, version, number, known)?;
            if runs.random.once_in(8) {
                anywhere(runs, &line)?;
            }
        }
    }
    for line in row.commented(&mut runs.random) {
        let known = Some(UNEXPLAINED);
        runs.explain("explain: comment", &line, version, number, known)?;
    }
    for line in row.nearly_commented(&mut runs.random) {
        let known = Some(WRONG_NUMBER);
        runs.explain("explain: no comment", &line, version, number, known)?;
    }
    Ok(())
}

/// A good row, with other numbers, versions and offsets.
fn elsewhere(runs: &mut Runs, row: &RowFields) -> Checked {
    let line = row.fields.join(&b' ');
    let right = row.number;
    let far = [
        0,
        1,
        LAST_NUMBER,
        LAST_NUMBER + 1,
        1 << 32,
        1 << 63,
        u64::MAX,
    ];
    let near = [
        right - 1,
        right + 1,
        right * 10,
        right / 10,
        1 << 32 | right,
    ];
    for number in far.into_iter().chain(near) {
        let known = match number {
            1..=LAST_NUMBER if number != right => WRONG_NUMBER,
            _ => UNEXPLAINED,
        };
        let kind = "explain: row of another number";
        runs.explain(kind, &line, row.version, number, Some(known))?;
        let version = runs.random.pick(&VERSIONS);
        let kind = "explain: no version";
        runs.explain(kind, &line, version, number, Some(NO_VERSION))?;
    }
    // The digits behind the point are not as many.
    let (kind, known) = ("explain: row of another version", Some(WRONG_OFFSET));
    runs.explain(kind, &line, 23 - row.version, right, known)?;
    for power in [20, 24, 32, 48, 63] {
        // It would be explained with the number that the lower bits are.
        let (kind, number) = ("explain: past the last number", 1 << power | right);
        runs.explain(kind, &line, 23 - row.version, number, Some(UNEXPLAINED))?;
    }
    for line in row.too_late(&mut runs.random) {
        let kind = "explain: too large an offset";
        runs.explain(kind, &line, row.version, row.expected, known)?;
    }
    Ok(())
}

/// A row with other numbers, as a first row.
fn first_rows(runs: &mut Runs, row: &RowFields) -> Checked {
    let kind = "explain: first row of any number";
    let (right, any) = (row.number, 1 + runs.random.number() % LAST_NUMBER);
    let good = [1, 2, 9, 10, 4117, 99_999, 100_000, LAST_NUMBER, right, any];
    let past = [LAST_NUMBER + 1, LAST_NUMBER + 1 + any, 1 << 32 | right];
    let odd = ["0)", "00)", "01)", ")", "-1)", "+1)", "1.)", "A)"].map(str::to_string);
    let near = [
        format!("0{right})"),
        format!("{right}"),
        format!("{right}))"),
        format!("{right}]"),
        format!("{right}).0"),
    ];
    let good = good.map(|number| (format!("{number})"), UNEXPLAINED));
    let past = past.map(|number| format!("{number})"));
    let wrong = past.into_iter().chain(odd).chain(near);
    for (word, known) in good
        .into_iter()
        .chain(wrong.map(|word| (word, WRONG_NUMBER)))
    {
        let mut fields = row.fields.clone();
        fields[0] = word.into_bytes();
        let line = joined(&mut runs.random, &fields);
        runs.explain(kind, &line, row.version, 0, Some(known))?;
    }
    Ok(())
}

/// Any line, with any number and version.
fn anywhere(runs: &mut Runs, line: &[u8]) -> Checked {
    let any = runs.random.number();
    let small = 1 + any % LAST_NUMBER;
    let number = runs
        .random
        .pick(&[0, 1, 2, small, LAST_NUMBER, LAST_NUMBER + 1, any]);
    let version = runs.random.pick(&VERSIONS);
    let version = runs.random.pick(&[11, 11, 12, 12, version]);
    runs.explain(
        "explain: any number and version",
        line,
        version,
        number,
        None,
    )?;
    Ok(())
}
