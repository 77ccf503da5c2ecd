//! The marks of a list's records, one after the other.

use super::record::Fields;
use super::RECORD;

/// The offset of the record before. No offset is below 0, so that the first record has no mark.
#[derive(Default)]
pub struct Marks {
    before: u64,
}

impl Marks {
    /// The mark of the next record: 1 exactly if its offset is below that of the record before.
    #[inline(always)]
    pub fn next(&mut self, offset: u64) -> u64 {
        let mark = u64::from(offset < self.before);
        self.before = offset;
        mark
    }

    /// The fields of the next record, if it is well formed and its mark is true.
    #[inline(always)]
    pub fn judge(&mut self, record: &[u8; RECORD]) -> Option<Fields> {
        let fields = Fields::judge(record)?;
        (self.next(fields.offset) == fields.mark).then_some(fields)
    }
}
