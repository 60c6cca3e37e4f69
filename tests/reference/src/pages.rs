//! LIST: the rows that a page shows.
use crate::bucket::{begins, block, Bucket};
use crate::requests::Place;

/// So many rows from a position on.
#[derive(Clone, Copy, Debug, PartialEq, Eq)]
pub struct Page {
    pub from: usize,
    pub rows: usize,
}

impl Bucket {
    /// The first count rows, or all if fewer, whose keys begin with the prefix and which come after a place.
    pub fn page(&self, prefix: &[u8], after: Place, count: usize) -> Page {
        self.matching(prefix, self.behind(after), count)
    }

    /// The first count rows, or all if fewer, from a position on whose keys begin with the prefix.
    ///
    /// Keys with one prefix stand together in the order, so that the rows are neighbours.
    pub fn matching(&self, prefix: &[u8], from: usize, count: usize) -> Page {
        let prefix = block(prefix);
        let from = self.first_place(&prefix).max(from);
        let end = self.used().min(from + count);
        let rows = self.keys[from..end].partition_point(|key| begins(&prefix, key));
        Page { from, rows }
    }

    /// The first position whose row comes after a place.
    fn behind(&self, place: Place) -> usize {
        let key = block(place.key);
        match place.version {
            0 => self.first_place(&key),
            version => self.place(&key, version - 1),
        }
    }
}
