//! Numbers as they are shown.

/// The versions, by their numbers and as a trace spells them.
pub const VERSIONS: [(u32, &str); 2] = [(11, "1.1"), (12, "1.2")];

/// A number with its thousands separated.
///
/// ```
/// assert_eq!([0, 999, 1000, 1_002_003].map(bushingowl::separated), ["0", "999", "1,000", "1,002,003"]);
/// ```
pub fn separated(number: u64) -> String {
    match number / 1000 {
        0 => number.to_string(),
        thousands => format!("{},{:03}", separated(thousands), number % 1000),
    }
}

/// An offset, which counts microseconds, as milliseconds with three digits behind the point.
///
/// ```
/// assert_eq!([0, 1_500_250].map(bushingowl::milliseconds), ["0.000", "1500.250"]);
/// ```
pub fn milliseconds(offset: u64) -> String {
    format!("{}.{:03}", offset / 1000, offset % 1000)
}
