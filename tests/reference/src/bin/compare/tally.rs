//! How often each number came, by verb, and each entry was called.
use crate::carried::PARTS;
use crate::comparisons::Comparisons;
use crate::midnights::Midnights;
use crate::numbers::TELLING_NUMBERS;
use crate::sides::ENTRIES;
use crate::totals::TELLING_REPORTS;
use crate::years::{Contract, TELLING_YEARS};
use reference::dates;

const VERBS: [&str; 12] =
    ["PUT", "COPY", "RETAIN", "HOLD", "DELETE", "DEFAULT", "RULE", "SWEEP", "GET", "LIST", "REPORT", "other"];
const NUMBERS: usize = 14;
/// The first days of years, 28 and 29 February, 1 March and the last day of all, as they stand in a printed date.
const TELLING_DAYS: [&str; 5] = ["-01-01T", "-02-28T", "-02-29T", "-03-01T", "9999-12-31T"];
/// The kinds of sweeps that tell a count from others: see `Comparisons::kinds`.
const TELLING_COUNTS: [&str; 3] = ["above 0", "a key with several rows", "a rule not set between set ones"];

#[derive(Default)]
pub struct Tally {
    pub lists: u64,
    pub lines: u64,
    pub fresh: [u64; 2],
    pub keys: u64,
    /// The pages that were followed to their end, and the rows that they showed.
    pub pages: u64,
    pub rows: u64,
    /// The PUTs that were accepted as retries, and of those the ones that 10, 11 and 12 would have met as other PUTs, and
    /// the ones whose lock was dropped.
    retries: u64,
    spared: [u64; 3],
    pub dropped: u64,
    /// The sweeps that rounding decided, those of them on each telling day, and what it decided in all sweeps.
    rounded: u64,
    telling: [u64; TELLING_DAYS.len()],
    midnights: Midnights,
    /// The sweeps with each telling count.
    compared: [u64; TELLING_COUNTS.len()],
    /// The lines under a default of years of each kind.
    years: [u64; TELLING_YEARS.len()],
    /// The reports that were counted by pages, and those of them of each kind.
    totals: u64,
    reports: [u64; TELLING_REPORTS.len()],
    /// The lines of each kind that tells where numbers go on and end.
    numbers: [u64; TELLING_NUMBERS.len()],
    /// The buckets that were carried over, and how often a line left a row of theirs that each part of the clause bound.
    pub buckets: u64,
    carried: [u64; PARTS.len()],
    entries: [u64; ENTRIES.len()],
    counts: [[u64; NUMBERS]; VERBS.len()],
}

/// The place of a verb, by its word.
fn place_of(word: &[u8]) -> usize {
    VERBS.iter().position(|verb| verb.as_bytes() == word).unwrap_or(VERBS.len() - 1)
}

/// The place of a line's verb, by its third field.
fn verb_of(line: &[u8]) -> usize {
    place_of(line.split(|&byte| byte == b'\t').nth(2).unwrap_or(b""))
}

/// The names whose counts are 0.
fn uncounted<T>(names: impl IntoIterator<Item = T>, counts: &[u64]) -> Vec<T> {
    names.into_iter().zip(counts).filter(|(_, &count)| count == 0).map(|(name, _)| name).collect()
}

/// The place of the telling day that an instant is on.
fn telling_day(instant: u64) -> Option<usize> {
    let date = dates::print(instant);
    TELLING_DAYS.iter().position(|day| String::from_utf8_lossy(&date).contains(day))
}

impl Tally {
    pub fn count(&mut self, line: &[u8], number: u64) {
        self.lines += 1;
        self.counts[verb_of(line)][number as usize] += 1;
    }

    pub fn count_retry(&mut self, spared: [bool; 3], drops_lock: bool) {
        self.retries += 1;
        self.spared.iter_mut().zip(spared).for_each(|(sum, is)| *sum += u64::from(is));
        self.dropped += u64::from(drops_lock);
    }

    pub fn count_sweep(&mut self, midnights: &Midnights, now: u64) {
        self.midnights.add(midnights);
        if midnights.decided() {
            self.rounded += 1;
            telling_day(now).into_iter().for_each(|place| self.telling[place] += 1);
        }
    }

    pub fn count_comparisons(&mut self, comparisons: &Comparisons) {
        self.compared.iter_mut().zip(comparisons.kinds()).for_each(|(sum, is)| *sum += u64::from(is));
    }

    pub fn count_years(&mut self, contract: &Contract, number: u64) {
        self.years.iter_mut().zip(contract.kinds(number)).for_each(|(sum, is)| *sum += u64::from(is));
    }

    pub fn count_report(&mut self, kinds: [bool; TELLING_REPORTS.len()]) {
        self.totals += 1;
        self.reports.iter_mut().zip(kinds).for_each(|(sum, is)| *sum += u64::from(is));
    }

    pub fn count_numbers(&mut self, kinds: [bool; TELLING_NUMBERS.len()]) {
        self.numbers.iter_mut().zip(kinds).for_each(|(sum, is)| *sum += u64::from(is));
    }

    /// The kinds of lines that tell of numbers and never came.
    pub fn unnumbered(&self) -> Vec<&str> {
        uncounted(TELLING_NUMBERS, &self.numbers)
    }

    pub fn count_carried(&mut self, rows: [u64; PARTS.len()]) {
        self.carried.iter_mut().zip(rows).for_each(|(sum, count)| *sum += count);
    }

    /// The parts of the lock clause that bound no row carried over.
    pub fn unbound(&self) -> Vec<&str> {
        uncounted(PARTS, &self.carried)
    }

    /// The kinds of reports that were never counted by pages.
    pub fn untold(&self) -> Vec<&str> {
        uncounted(TELLING_REPORTS, &self.reports)
    }

    /// How often each number came to a REPORT.
    fn reported(&self) -> &[u64; NUMBERS] {
        &self.counts[place_of(b"REPORT")]
    }

    /// The numbers from 0 to 13 that came to some REPORT.
    pub fn report_numbers(&self) -> Vec<usize> {
        (0..NUMBERS).filter(|&number| self.reported()[number] > 0).collect()
    }

    /// The kinds of lines under a default of years that never came.
    pub fn unended(&self) -> Vec<&str> {
        uncounted(TELLING_YEARS, &self.years)
    }

    /// The telling counts that no sweep had.
    pub fn uncompared(&self) -> Vec<&str> {
        uncounted(TELLING_COUNTS, &self.compared)
    }

    /// The telling days on which rounding decided no sweep.
    pub fn undecided(&self) -> Vec<&str> {
        uncounted(TELLING_DAYS, &self.telling)
    }

    /// Whether some kind of row that rounding decides never came.
    pub fn lacks_midnights(&self) -> bool {
        let Midnights { left, never, exact, .. } = self.midnights;
        [left, never, exact].concat().contains(&0)
    }

    /// Adds how often each entry has served a line.
    pub fn served(&mut self, served: &[u64]) {
        self.entries.iter_mut().zip(served).for_each(|(sum, count)| *sum += count);
    }

    /// The numbers from 0 to 13 that never came.
    pub fn missing(&self) -> Vec<usize> {
        (0..NUMBERS).filter(|&number| self.counts.iter().all(|row| row[number] == 0)).collect()
    }

    /// Of 10 to 12, those that no retry was spared.
    pub fn unspared(&self) -> Vec<usize> {
        uncounted(10.., &self.spared)
    }

    /// The entries that never served a line.
    pub fn idle(&self) -> Vec<&str> {
        uncounted(ENTRIES.map(|(name, _)| name), &self.entries)
    }

    pub fn print(&self) {
        println!("{} lists, {} lines", self.lists, self.lines);
        for ((name, _), count) in ENTRIES.iter().zip(&self.entries) {
            println!("{name}: {count} lines");
        }
        println!("serve_counted: {} lines", self.lines);
        println!("fresh buckets: {} made, {} refused; {} keys", self.fresh[0], self.fresh[1], self.keys);
        println!("followed to their end: {} pages with {} rows", self.pages, self.rows);
        let [late, spent, full] = self.spared;
        println!(
            "retries: {}, of which {late} were spared 10, {spent} spared 11 and {full} spared 12; {} had a lock dropped",
            self.retries, self.dropped
        );
        let Midnights { left, never, exact, .. } = self.midnights;
        println!(
            "sweeps that rounding to midnight decided: {}, of which on {TELLING_DAYS:?}: {:?}",
            self.rounded, self.telling
        );
        println!("current and other rows that it left: {left:?}, of which for ever: {never:?};");
        println!("rows that went exactly at their midnight: {exact:?}");
        println!("sweeps by their count of comparisons, {TELLING_COUNTS:?}: {:?}", self.compared);
        println!("lines under a default of years:");
        for (kind, count) in TELLING_YEARS.iter().zip(&self.years) {
            println!("  {kind}: {count}");
        }
        println!("reports: {} accepted, of which {} counted by pages:", self.reported()[0], self.totals);
        for (kind, count) in TELLING_REPORTS.iter().zip(&self.reports) {
            println!("  {kind}: {count}");
        }
        println!("lines that tell of version numbers:");
        for (kind, count) in TELLING_NUMBERS.iter().zip(&self.numbers) {
            println!("  {kind}: {count}");
        }
        println!("carried over: {} buckets; rows held, by {PARTS:?}: {:?}", self.buckets, self.carried);
        print!("{:8}", "number");
        (0..NUMBERS).for_each(|number| print!("{number:>9}"));
        println!();
        for (verb, row) in VERBS.iter().zip(&self.counts) {
            print!("{verb:8}");
            row.iter().for_each(|count| print!("{count:>9}"));
            println!();
        }
    }
}
