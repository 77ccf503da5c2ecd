//! The trace of a machine's day.

use super::frame::{Frame, What};
use super::{spelling, Plan};
use crate::inputs::random::Random;

/// Days since 30 December 1899: 9 November 2026, a Monday.
const FIRST_DAY: usize = 46_335;
const DAY: u64 = 86_400_000;
const MOST_ROWS: u64 = 999_999;

/// What a file holds, before it was broken.
#[derive(Debug, Default, PartialEq, Eq)]
pub struct Made {
    /// In milliseconds.
    pub start: u64,
    pub rows: u64,
    /// The data frames, which give a line each.
    pub lines: u64,
    pub steps_back: u64,
    /// The position of the first one among the rows, or 0.
    pub first_step_back: u64,
}

/// The clock of a logger, in microseconds since its start.
struct Clock {
    now: u64,
    /// As it stood in the row before.
    before: u64,
}

impl Clock {
    /// Some 400 frames a second, rarely a pause of minutes, and yet more rarely a step back of some milliseconds.
    fn go_on(&mut self, random: &mut Random) {
        self.now += random.between(400, 4500) as u64;
        match random.below(40_000) {
            0 => {
                self.now = self
                    .now
                    .saturating_sub(random.between(5_000, 30_000) as u64)
            }
            1..=3 => self.now += random.between(60, 2400) as u64 * 1_000_000,
            _ => (),
        }
    }
}

pub fn make(plan: &Plan, random: &mut Random, text: &mut Vec<u8>) -> Made {
    text.clear();
    // Between five and nine in the morning.
    let started = random.between(5 * 3_600_000, 9 * 3_600_000) as u64;
    let columns = spelling::head(plan, FIRST_DAY, started, text);
    let mut made = Made {
        start: (FIRST_DAY + plan.day - 1) as u64 * DAY + started,
        ..Made::default()
    };
    let mut clock = Clock { now: 0, before: 0 };
    while text.len() < plan.bytes && made.rows < MOST_ROWS {
        clock.go_on(random);
        let frame = Frame::new(random, plan.asks);
        let bus = if frame.extended { 1 } else { 2 };
        let offset = columns.kept(clock.now);
        made.rows += 1;
        columns.row(text, made.rows, offset, bus, &frame);
        made.lines += u64::from(frame.what == What::Data);
        if offset < clock.before {
            made.steps_back += 1;
            if made.first_step_back == 0 {
                made.first_step_back = made.rows;
            }
        }
        clock.before = offset;
    }
    made
}
