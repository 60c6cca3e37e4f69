//! How often a sweep compares a rule's prefix with a key, found a second time: no prefix is looked at, the rules with a day
//! count are counted, and the keys are gathered in a set.
use reference::Bucket;
use std::collections::BTreeSet;

/// What the comparisons of a sweep come from.
pub struct Comparisons {
    /// The numbers of the rules that are set.
    rules: Vec<usize>,
    keys: usize,
    rows: usize,
}

impl Comparisons {
    /// Those of a sweep of this bucket.
    pub fn of(bucket: &Bucket) -> Comparisons {
        let days = bucket.settings.rules.iter().map(|rule| rule.current + rule.noncurrent);
        let rules = days.enumerate().filter(|(_, days)| *days > 0).map(|(number, _)| number).collect();
        let rows = bucket.used();
        let keys: BTreeSet<&[u8]> = bucket.keys[..rows].iter().map(|key| &key[1..=key[0] as usize]).collect();
        Comparisons { rules, keys: keys.len(), rows }
    }

    /// The rules set times the different keys.
    pub fn count(&self) -> u64 {
        (self.rules.len() * self.keys) as u64
    }

    /// What a sweep would count that compares the rules with the key of each row.
    pub fn by_rows(&self) -> u64 {
        (self.rules.len() * self.rows) as u64
    }

    /// Whether there are any; whether some key has several rows; whether a rule that isn't set stands between two that are.
    pub fn kinds(&self) -> [bool; 3] {
        let any = self.count() > 0;
        let span = self.rules.last().zip(self.rules.first()).map_or(0, |(last, first)| last - first + 1);
        [any, any && self.rows > self.keys, any && span > self.rules.len()]
    }
}
