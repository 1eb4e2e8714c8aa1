//! A table as a call is lent it: a count, and slices that may be too short or have a tail.

use crate::table::Entry;
use crate::words::In;

pub struct LentTable {
    count: usize,
    rows: Vec<usize>,
    cols: Vec<usize>,
    values: Vec<i64>,
    /// The most entries that the call takes.
    limit: usize,
}

impl LentTable {
    pub fn read(words: &mut In, limit: usize) -> Result<Self, String> {
        Ok(Self {
            count: words.count()?,
            rows: words.counts()?,
            cols: words.counts()?,
            values: words.wholes()?,
            limit,
        })
    }

    /// 13, of the count.
    pub fn bad_count(&self) -> bool {
        self.count > self.limit
    }

    /// 31 for the three slices and for others that must hold as many; not tested where the count
    /// that they rest on is itself refused.
    pub fn short(&self, others: &[usize]) -> bool {
        let lengths = [self.rows.len(), self.cols.len(), self.values.len()];
        !self.bad_count() && lengths.iter().chain(others).any(|&length| length < self.count)
    }

    /// The first `count` entries; asked only once the slices are known to hold them.
    pub fn entries(&self) -> Vec<Entry> {
        let entry = |k| Entry { row: self.rows[k], col: self.cols[k], value: self.values[k] };
        (0..self.count).map(entry).collect()
    }
}
