//! What rounding decides in a sweep. Whose days are over is judged a second time, each row by itself and by the last
//! midnight up to now; which rows are locked, and whether a rule covers a key, the reference's own functions say.
use reference::bucket::{CREATED, DATA, KIND, MODE, UNTIL};
use reference::dates::{up_to_midnight, DAY, LAST};
use reference::locks::locked;
use reference::sweep::Counts;
use reference::Bucket;

/// A sweep: the bucket before it, and its now.
pub struct Sweep {
    pub bucket: Bucket,
    pub now: u64,
}

impl Sweep {
    /// The bucket after the same sweep without rounding, and what that comes to: at midnight rounding changes nothing, so
    /// the reference sweeps with all instants moved on to the next midnight.
    pub fn unrounded(&self) -> Result<(Bucket, Counts), u64> {
        let mut bucket = self.bucket.clone();
        let midnight = up_to_midnight(self.now);
        let ahead = (midnight - self.now) as i64;
        move_instants(&mut bucket, ahead);
        let counts = bucket.sweep(midnight)?;
        move_instants(&mut bucket, -ahead);
        bucket.settings.time = self.now;
        Ok((bucket, counts))
    }
}

/// Moves the creations and the lock dates of all rows.
fn move_instants(bucket: &mut Bucket, by: i64) {
    let used = bucket.used();
    for row in &mut bucket.rows[..used] {
        row[CREATED] = row[CREATED].wrapping_add_signed(by);
        if row[MODE] != 0 {
            row[UNTIL] = row[UNTIL].wrapping_add_signed(by);
        }
    }
}

/// The rows of sweeps by how rounding decides them: current ones first, then the others.
#[derive(Clone, Copy, Default)]
pub struct Midnights {
    /// Those that are marked or removed.
    pub taken: [u64; 2],
    /// Those among them whose midnight is now.
    pub exact: [u64; 2],
    /// Those that rounding leaves, and that a sweep without it takes.
    pub left: [u64; 2],
    /// Those among these whose midnight is after the last instant.
    pub never: [u64; 2],
}

impl Midnights {
    pub fn of(sweep: &Sweep) -> Midnights {
        let (bucket, now) = (&sweep.bucket, sweep.now);
        let mut midnights = Midnights::default();
        for at in 0..bucket.used() {
            let (row, key) = (&bucket.rows[at], &bucket.keys[at]);
            let current = at == 0 || bucket.keys[at - 1] != *key;
            let stays = if current { row[KIND] != DATA } else { locked(row, now, false) };
            let start = if current { row } else { &bucket.rows[at - 1] }[CREATED];
            let rules = bucket.settings.rules.iter().filter(|rule| rule.covers(key));
            let counts = rules.map(|rule| if current { rule.current } else { rule.noncurrent });
            if let (false, Some(days)) = (stays, counts.filter(|&days| days > 0).min()) {
                midnights.judge(usize::from(!current), start + days * DAY, now);
            }
        }
        midnights
    }

    /// Counts a row whose days end at an instant, before that is rounded.
    fn judge(&mut self, place: usize, end: u64, now: u64) {
        let midnight = now - now % DAY;
        let (taken, left) = (end <= midnight, midnight < end && end <= now);
        self.taken[place] += u64::from(taken);
        self.exact[place] += u64::from(taken && now == midnight && now < end + DAY);
        self.left[place] += u64::from(left);
        self.never[place] += u64::from(left && midnight + DAY > LAST);
    }

    pub fn add(&mut self, other: &Midnights) {
        let sums = [&mut self.taken, &mut self.exact, &mut self.left, &mut self.never];
        let counts = [other.taken, other.exact, other.left, other.never];
        for (sum, count) in sums.into_iter().zip(counts) {
            sum.iter_mut().zip(count).for_each(|(sum, count)| *sum += count);
        }
    }

    /// Whether rounding left rows, or rows went exactly at their midnight.
    pub fn decided(&self) -> bool {
        [self.left, self.exact].concat().iter().any(|&count| count > 0)
    }

    /// The answer of the sweep.
    pub fn answer(&self) -> String {
        let [added, removed] = self.taken;
        format!("ok\t{removed}\t{added}\n")
    }
}
