//! REPORT: the totals of the rows whose keys begin with a prefix.
use crate::bucket::{Bucket, DATA, KIND, LENGTH};
use crate::locks::locked;

#[derive(Clone, Copy, Debug, Default, PartialEq, Eq)]
pub struct Totals {
    pub data: u64,
    pub markers: u64,
    /// The sum of the data rows' lengths.
    pub length: u64,
    /// The data rows that are locked without bypass.
    pub locked: u64,
}

impl Bucket {
    /// The totals of a prefix's rows at an instant.
    pub fn report(&self, prefix: &[u8], now: u64) -> Totals {
        let page = self.matching(prefix, 0, self.used());
        let mut totals = Totals::default();
        for row in &self.rows[page.from..page.from + page.rows] {
            let data = u64::from(row[KIND] == DATA);
            totals.data += data;
            totals.length += data * row[LENGTH];
            totals.locked += data & u64::from(locked(row, now, false));
        }
        totals.markers = page.rows as u64 - totals.data;
        totals
    }
}
