//! How many calls of each kind there were, and with which answers.

use std::collections::BTreeMap;
use std::ops::RangeInclusive;

/// The numbers that must be seen.
const NUMBERS: [u64; 22] = [
    0, 1, 2, 3, 4, 5, 6, 7, 8, 20, 21, 22, 23, 24, 25, 26, 30, 31, 32, 33, 34, 35,
];
/// Those that must be seen of the reader of ASCII, and of the export.
const ASCII: [u64; 7] = [0, 1, 8, 31, 32, 33, 34];
const EXPORT: [u64; 6] = [0, 20, 22, 23, 25, 35];
/// The fields that must be seen as wrong, the last with all behind it, and those after which a line must have ended early.
const WRONG: RangeInclusive<usize> = 1..=15;
const EARLY: RangeInclusive<usize> = 0..=13;

/// How often each number was given.
type Counts = [u64; NUMBERS.len()];

#[derive(Default)]
pub struct Tally {
    kinds: BTreeMap<&'static str, Counts>,
    /// All calls of the reader of ASCII, which are among the kinds, too.
    ascii: Counts,
    /// All calls of the export, which are among the kinds, too.
    export: Counts,
    /// How often each field was given with each of the two reasons.
    fields: [[u64; 16]; 2],
}

impl Tally {
    pub fn count(&mut self, kind: &'static str, number: u64) {
        add(self.kinds.entry(kind).or_default(), number);
    }

    /// A call of the reader of ASCII.
    pub fn count_ascii(&mut self, kind: &'static str, number: u64) {
        self.count(kind, number);
        add(&mut self.ascii, number);
    }

    /// A call of the export.
    pub fn count_export(&mut self, kind: &'static str, number: u64) {
        self.count(kind, number);
        add(&mut self.export, number);
    }

    pub fn explained(&mut self, reason: u64, field: u64) {
        let field = field.min(*WRONG.end() as u64) as usize;
        if let Some(fields) = self.fields.get_mut(reason as usize - 1) {
            fields[field] += 1;
        }
    }

    /// The numbers, those of the reader of ASCII and of the export, and the fields with each reason, that were never given.
    pub fn unseen(&self) -> Vec<String> {
        let [wrong, early] = self.fields;
        let numbers = never(&NUMBERS, self.sums()).map(|number| number.to_string());
        let ascii = never(&ASCII, self.ascii).map(|number| format!("{number} for ASCII"));
        let export = never(&EXPORT, self.export).map(|number| format!("{number} for an export"));
        let wrong = WRONG.filter(|&field| wrong[field] == 0);
        let wrong = wrong.map(|field| format!("wrong field {field}"));
        let early = EARLY.filter(|&field| early[field] == 0);
        let early = early.map(|field| format!("ended early after field {field}"));
        let numbers = numbers.chain(ascii).chain(export);
        numbers.chain(wrong).chain(early).collect()
    }

    pub fn print(&self) {
        let names = NUMBERS[1..].iter().map(|number| number.to_string());
        let head = ["calls".to_string(), "accepted".to_string()];
        print_row("", head.into_iter().chain(names));
        for (kind, counts) in &self.kinds {
            print_counts(kind, counts);
        }
        print_counts("all ascii", &self.ascii);
        print_counts("all exports", &self.export);
        print_counts("all", &self.sums());
        let last = WRONG.end();
        let names = (0..*last).map(|field| field.to_string());
        let names = names.chain([format!("{last} on")]);
        print_row(
            "explained by field",
            ["calls".to_string()].into_iter().chain(names),
        );
        print_counts("wrong", &self.fields[0]);
        print_counts("ended early after it", &self.fields[1]);
    }

    fn sums(&self) -> Counts {
        let mut sums = Counts::default();
        for counts in self.kinds.values() {
            for (sum, count) in sums.iter_mut().zip(counts) {
                *sum += count;
            }
        }
        sums
    }
}

fn add(counts: &mut Counts, number: u64) {
    if let Some(column) = NUMBERS.iter().position(|&n| n == number) {
        counts[column] += 1;
    }
}

/// Those of some numbers that were never given.
fn never(numbers: &'static [u64], counts: Counts) -> impl Iterator<Item = u64> {
    let counted = NUMBERS.iter().copied().zip(counts);
    let never = counted.filter(|(number, count)| *count == 0 && numbers.contains(number));
    never.map(|(number, _)| number)
}

fn print_counts(kind: &str, counts: &[u64]) {
    let calls: u64 = counts.iter().sum();
    let cells = [calls].into_iter().chain(counts.iter().copied());
    print_row(kind, cells.map(|count| count.to_string()));
}

fn print_row(name: &str, cells: impl Iterator<Item = String>) {
    let cells: String = cells.map(|cell| format!("{cell:>9}")).collect();
    println!("{name:<34}{cells}");
}
