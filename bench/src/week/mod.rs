//! A week of traces, as the loggers of sixty machines record them: a file a day, the same ones each time. Five of them are broken, in ways that
//! happen.

#![forbid(unsafe_code)]

pub mod fault;
mod frame;
mod spelling;
#[cfg(test)]
mod tests;
mod trace;

use crate::inputs::random::Random;
use fault::Fault;
pub use trace::Made;

pub const MACHINES: usize = 60;
pub const DAYS: usize = 7;
pub const FILES: usize = MACHINES * DAYS;
/// The fewest megabytes of a week, so that each file has some rows.
pub const LEAST_MEGABYTES: usize = 4;
/// The most megabytes of a week: no file may have more than 999,999 rows.
pub const MOST_MEGABYTES: usize = 18_000;
const SEED: u64 = 20_261_117;
/// The loggers of every sixth machine are old ones that write version 1.1.
const OLD: usize = 6;
/// Every fourth machine has a controller that asks by remote frames, which J1939 has none of.
const ASKING: usize = 4;
/// The smallest and the largest file, by weight.
const WEIGHTS: (usize, usize) = (60, 140);
/// The files that are broken: machine, day and how.
const BROKEN: [(usize, usize, Fault); 5] = [
    (6, 2, Fault::CutOff),
    (17, 4, Fault::CutOff),
    (30, 5, Fault::LineFeeds),
    (42, 3, Fault::RowMissing),
    (53, 1, Fault::Version20),
];

/// One file of the week.
pub struct Plan {
    /// From 1 on, as the day.
    pub machine: usize,
    pub day: usize,
    /// 11 or 12.
    pub version: u32,
    /// Whether it has remote frames.
    pub asks: bool,
    /// It ends with the first row behind so many bytes.
    bytes: usize,
    pub fault: Option<Fault>,
}

impl Plan {
    /// Its name in the folder of the week, up to the ending.
    pub fn stem(&self) -> String {
        format!("machine-{:02}/day-{}", self.machine, self.day)
    }

    /// Makes its bytes in the place of those that are there, and says what they hold.
    pub fn make(&self, text: &mut Vec<u8>) -> Made {
        let seed = SEED + (self.machine * DAYS + self.day) as u64;
        let made = trace::make(self, &mut Random::new(seed), text);
        if let Some(fault) = self.fault {
            fault.plant(text);
        }
        made
    }
}

/// The files of a week of so many megabytes (of 10^6 bytes), in the order of their names.
pub fn week(megabytes: usize) -> Vec<Plan> {
    let mut random = Random::new(SEED);
    let weights: Vec<usize> = (0..FILES)
        .map(|_| random.between(WEIGHTS.0, WEIGHTS.1))
        .collect();
    let all: usize = weights.iter().sum();
    let plan = |(file, weight): (usize, &usize)| {
        let (machine, day) = (1 + file / DAYS, 1 + file % DAYS);
        let broken = BROKEN.iter().find(|(m, d, _)| (*m, *d) == (machine, day));
        Plan {
            machine,
            day,
            version: if machine % OLD == 0 { 11 } else { 12 },
            asks: machine % ASKING == 0,
            bytes: megabytes * 1_000_000 * weight / all,
            fault: broken.map(|(.., fault)| *fault),
        }
    };
    weights.iter().enumerate().map(plan).collect()
}
