//! Days, milliseconds and dates.

use super::tables::DECIMAL;
use super::DAY;

/// Stamps count in steps of 100 microseconds.
const SECOND: u64 = 10_000;

/// Days before each month, for common years and for leap years.
static BEFORE: [[u64; 12]; 2] = [
    [0, 31, 59, 90, 120, 151, 181, 212, 243, 273, 304, 334],
    [0, 31, 60, 91, 121, 152, 182, 213, 244, 274, 305, 335],
];
/// From 1 January 1601 to 30 December 1899. The calendar repeats after 400 years, and 1601 begins such a period.
const FIRST_DAY: u64 = 109_205;

/// The milliseconds of a fraction of a day in ten digits, to nearest, halves up.
pub fn milliseconds(fraction: u64) -> u64 {
    // 86,400,000 over 10,000,000,000 is 864 over 100,000.
    (fraction * 864 + 50_000) / 100_000
}

/// The fraction in ten digits of the milliseconds of a day, to nearest, halves up.
pub fn fraction(milliseconds: u64) -> u64 {
    (milliseconds * 10_000_000_000 + DAY / 2) / DAY
}

/// Day, month and year of a count of days since 30 December 1899.
fn date(days: u64) -> (u64, u64, u64) {
    let days = days + FIRST_DAY;
    let (period, days) = (days / 146_097, days % 146_097);
    // The last century of a period and the last year of four have a day more than the others.
    let century = (days / 36_524).min(3);
    let days = days - century * 36_524;
    let (four, days) = (days / 1_461, days % 1_461);
    let year = (days / 365).min(3);
    let day = days - year * 365;
    let leap = year == 3 && (four != 24 || century == 3);
    let before = &BEFORE[usize::from(leap)];
    let month = before.partition_point(|&before| before <= day);
    let year = 1601 + period * 400 + century * 100 + four * 4 + year;
    (day - before[month - 1] + 1, month as u64, year)
}

/// The days since 30 December 1899 of a date, if it exists and is not before.
pub fn days(day: u64, month: u64, year: u64) -> Option<u64> {
    let years = year.checked_sub(1601)?;
    let leap = year.is_multiple_of(4) && (!year.is_multiple_of(100) || year.is_multiple_of(400));
    let before = &BEFORE[usize::from(leap)];
    let month = month.checked_sub(1)? as usize;
    let first = before.get(month)?;
    let next = before
        .get(month + 1)
        .copied()
        .unwrap_or(365 + u64::from(leap));
    let day = first + day.checked_sub(1)?;
    if day >= next {
        return None;
    }
    let whole = years * 365 + years / 4 - years / 100 + years / 400;
    (whole + day).checked_sub(FIRST_DAY)
}

/// A stamp's text up to its point, kept for as long as the second lasts, and its date for as long as the day does.
pub struct Clock {
    text: [u8; 20],
    /// The beginning of the second.
    second: u64,
    day: u64,
}

impl Clock {
    pub fn new() -> Self {
        Clock {
            text: *b"00.00.0000 00:00:00.",
            second: u64::MAX,
            day: u64::MAX,
        }
    }

    #[inline(always)]
    pub fn text(&self) -> &[u8; 20] {
        &self.text
    }

    /// Sets the text for a stamp, and gives the steps since the beginning of its second.
    #[inline(always)]
    pub fn set(&mut self, stamp: u64) -> u64 {
        if stamp < self.second || stamp - self.second >= SECOND {
            self.set_second(stamp / SECOND);
        }
        stamp - self.second
    }

    fn set_second(&mut self, seconds: u64) {
        self.second = seconds * SECOND;
        let (day, seconds) = (seconds / 86_400, seconds % 86_400);
        if day != self.day {
            self.set_day(day);
        }
        self.two(11, seconds / 3600);
        self.two(14, seconds / 60 % 60);
        self.two(17, seconds % 60);
    }

    fn set_day(&mut self, days: u64) {
        self.day = days;
        let (day, month, year) = date(days);
        self.two(0, day);
        self.two(3, month);
        self.two(6, year / 100);
        self.two(8, year % 100);
    }

    fn two(&mut self, at: usize, n: u64) {
        self.text[at..at + 2].copy_from_slice(&DECIMAL[n as usize]);
    }
}

#[cfg(test)]
mod tests {
    use super::*;

    fn leap(year: u64) -> bool {
        matches!((year % 4, year % 100, year % 400), (0, 1.., _) | (_, _, 0))
    }

    #[test]
    fn every_date() {
        let mut expected = (30, 12, 1899);
        for days in 0..200_000 {
            assert_eq!(date(days), expected);
            let (day, month, year) = expected;
            assert_eq!(super::days(day, month, year), Some(days));
            let last = match month {
                2 => 28 + u64::from(leap(year)),
                4 | 6 | 9 | 11 => 30,
                _ => 31,
            };
            expected = match (day == last, month) {
                (false, _) => (day + 1, month, year),
                (true, 12) => (1, 1, year + 1),
                (true, _) => (1, month + 1, year),
            };
        }
    }

    #[test]
    fn no_other_dates() {
        let mut dates = 0;
        for year in 0..=9999 {
            for (month, day) in (0..=13).flat_map(|month| (0..=33).map(move |day| (month, day))) {
                dates += u64::from(days(day, month, year).is_some_and(|days| days < 200_000));
            }
        }
        assert_eq!(dates, 200_000);
        for (day, month, year) in [
            (29, 12, 1899),
            (31, 12, 1898),
            (0, 1, 2000),
            (1, 0, 2000),
            (1, 13, 2000),
            (29, 2, 1900),
            (29, 2, 2100),
            (30, 2, 2000),
            (31, 4, 2000),
            (32, 12, 2000),
            (99, 99, 9999),
        ] {
            assert_eq!(days(day, month, year), None);
        }
    }

    #[test]
    fn of_the_paper() {
        assert_eq!(days(30, 12, 1899), Some(0));
        assert_eq!(days(13, 10, 2173), Some(99_999));
        assert_eq!(days(14, 10, 2173), Some(100_000));
        assert_eq!(date(36_585), (29, 2, 2000));
        assert_eq!(date(25_569), (1, 1, 1970));
        assert_eq!(milliseconds(6_772_258_947), 58_512_317);
        assert_eq!(
            37_704 * DAY + milliseconds(5_364_870_833),
            3_257_671_952_484
        );
    }

    #[test]
    fn fractions_and_back() {
        for ms in (0..DAY).step_by(997).chain([DAY - 1]) {
            assert_eq!(milliseconds(fraction(ms)), ms);
        }
    }
}
