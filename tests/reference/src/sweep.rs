//! SWEEP: judged on the table before the line, then carried out without a second table.
use crate::bucket::{Block, Bucket, Row, CREATED, DATA, KIND, MARKER, MAX_CAPACITY};
use crate::bytes::{same_64, word};
use crate::dates::DAY;
use crate::locks::locked;
use crate::settings::{Rule, Settings};

/// The rows that a sweep takes out, the markers that it adds, and how often it compares a rule's prefix with a key.
#[derive(Clone, Copy, Debug, Default, PartialEq, Eq)]
pub struct Counts {
    pub removed: usize,
    pub added: usize,
    pub comparisons: u64,
}

/// A rule that is set, with the last eight bytes of its prefix, or all of them with a mask, and their place: most keys differ there.
#[derive(Clone, Copy)]
struct SetRule<'a> {
    rule: &'a Rule,
    place: usize,
    last: u64,
    mask: u64,
}

impl<'a> SetRule<'a> {
    fn of(rule: &'a Rule) -> SetRule<'a> {
        let length = usize::from(rule.prefix[0]);
        let place = 1 + length.saturating_sub(8);
        let mask = u64::MAX.checked_shr(64 - 8 * length.min(8) as u32).unwrap_or(0);
        SetRule { rule, place, last: word(&rule.prefix, place), mask }
    }

    /// Whether the rule's prefix begins a key: a sweep compares the two only here, so that each comparison is counted.
    #[inline(always)]
    fn compare(&self, key: &Block, comparisons: &mut u64) -> bool {
        *comparisons += 1;
        (self.last ^ word(key, self.place)) & self.mask == 0 && (self.place == 1 || self.rule.covers(key))
    }
}

/// The rules that are set, laid side by side once for a sweep; a rule that isn't is never compared.
fn set_rules<'a>(settings: &'a Settings, room: &'a mut [SetRule<'a>; 8]) -> &'a [SetRule<'a>] {
    let mut count = 0;
    for rule in settings.rules.iter().filter(|rule| rule.is_set()) {
        room[count] = SetRule::of(rule);
        count += 1;
    }
    &room[..count]
}

/// The fewest days of the rules that cover a key, `NEVER` where no rule has an action.
#[derive(Clone, Copy)]
struct Days {
    current: u64,
    noncurrent: u64,
}

/// More days than any rule has.
const NEVER: u64 = u64::MAX;

/// The lesser of two counts, of which the second is no action where it is 0.
fn fewest(least: u64, days: u64) -> u64 {
    if days == 0 {
        least
    } else {
        least.min(days)
    }
}

impl Days {
    const NONE: Days = Days { current: NEVER, noncurrent: NEVER };

    /// The days of a key, by one comparison with each of the rules.
    #[inline(always)]
    fn of(rules: &[SetRule], key: &Block, comparisons: &mut u64) -> Days {
        let mut days = Days::NONE;
        for set in rules {
            if set.compare(key, comparisons) {
                days.current = fewest(days.current, set.rule.current);
                days.noncurrent = fewest(days.noncurrent, set.rule.noncurrent);
            }
        }
        days
    }
}

/// The last creation after which so many days are over, if any are. Days end at a midnight, so they are over just if they would
/// be at the last midnight without being rounded.
#[inline(always)]
fn last_due(days: u64, midnight: u64) -> Option<u64> {
    if days == NEVER {
        return None;
    }
    midnight.checked_sub(days * DAY)
}

/// What a sweep does with a row.
#[derive(Clone, Copy, PartialEq, Eq)]
enum Fate {
    Stays,
    Goes,
    Gains,
}

/// Whether a current row gains a marker.
#[inline(always)]
fn gains(row: &Row, last_due: Option<u64>) -> bool {
    row[KIND] == DATA && last_due.is_some_and(|last| row[CREATED] <= last)
}

/// Judges the rows of a key behind its current one by the last creation that is due, and says how many go: those whose next newer
/// row was created by then, unless they are locked.
#[inline(always)]
fn judge_noncurrent(rows: &[Row], fates: &mut [Fate], last_due: u64, now: u64) -> usize {
    let mut removed = 0;
    let mut newer = rows[0][CREATED];
    for (row, fate) in rows[1..].iter().zip(&mut fates[1..]) {
        if newer <= last_due && !locked(row, now, false) {
            *fate = Fate::Goes;
            removed += 1;
        }
        newer = row[CREATED];
    }
    removed
}

impl Bucket {
    /// Where the rows of a key end whose first row is at a place: by steps that double, and then by halves.
    #[inline(always)]
    fn end_of_key(&self, first: usize) -> usize {
        let keys = &self.keys[..self.used()];
        let key = &keys[first];
        let (mut low, mut step) = (first + 1, 1);
        while low + step <= keys.len() && same_64(&keys[low + step - 1], key) {
            low += step;
            step *= 2;
        }
        let mut high = keys.len().min(low + step - 1);
        while low < high {
            let middle = (low + high) / 2;
            if same_64(&keys[middle], key) {
                low = middle + 1;
            } else {
                high = middle;
            }
        }
        low
    }

    /// Each row's fate in a sweep at this now, and what the sweep comes to. A key's rows stand together, so that the rules are
    /// compared with it once.
    fn judge(&self, now: u64, fates: &mut [Fate; MAX_CAPACITY]) -> Counts {
        let mut room = [SetRule::of(&Rule::ABSENT); 8];
        let rules = set_rules(&self.settings, &mut room);
        let midnight = now - now % DAY;
        let mut counts = Counts::default();
        let mut first = 0;
        while first < self.used() {
            let end = self.end_of_key(first);
            let days = Days::of(rules, &self.keys[first], &mut counts.comparisons);
            if gains(&self.rows[first], last_due(days.current, midnight)) {
                fates[first] = Fate::Gains;
                counts.added += 1;
            }
            if let Some(last) = last_due(days.noncurrent, midnight) {
                counts.removed += judge_noncurrent(&self.rows[first..end], &mut fates[first..end], last, now);
            }
            first = end;
        }
        counts
    }

    /// Sweeps at this now, or leaves all as it is where the outcome doesn't fit.
    pub fn sweep(&mut self, now: u64) -> Result<Counts, u64> {
        let mut fates = [Fate::Stays; MAX_CAPACITY];
        let counts = self.judge(now, &mut fates);
        self.fits(counts.removed, counts.added)?;
        if counts.removed > 0 {
            self.sweep_out(&mut fates);
        }
        if counts.added > 0 {
            self.sweep_in(now, counts.added, &fates);
        }
        Ok(counts)
    }

    /// Closes the gaps of the rows that go; fates move with their rows.
    fn sweep_out(&mut self, fates: &mut [Fate; MAX_CAPACITY]) {
        let used = self.used();
        let mut kept = 0;
        for at in 0..used {
            if fates[at] != Fate::Goes {
                self.rows[kept] = self.rows[at];
                self.keys[kept] = self.keys[at];
                fates[kept] = fates[at];
                kept += 1;
            }
        }
        self.rows[kept..used].fill([0; 8]);
        self.keys[kept..used].fill([0; 64]);
        self.settings.used = kept as u64;
    }

    /// Opens a gap for each marker, from the last row to the first.
    fn sweep_in(&mut self, now: u64, added: usize, fates: &[Fate; MAX_CAPACITY]) {
        let used = self.used();
        let mut left = added;
        for at in (0..used).rev() {
            if left == 0 {
                break;
            }
            self.rows[at + left] = self.rows[at];
            self.keys[at + left] = self.keys[at];
            if fates[at] == Fate::Gains {
                left -= 1;
                let number = self.settings.next + left as u64;
                self.rows[at + left] = [number, MARKER, now, 0, 0, 0, 0, 0];
                self.keys[at + left] = self.keys[at];
            }
        }
        self.settings.used += added as u64;
        self.settings.next += added as u64;
    }
}
