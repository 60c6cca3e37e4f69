//! Whether what was carried over is held, judged by the engine's bytes alone and by a second reading of the lock clause: a
//! data row counts as put under its mode until its date, and as put on hold where its hold is on.
use crate::random::Random;
use crate::sides::Side;
use std::collections::HashMap;

/// The parts of the lock clause, in the order in which rows are counted.
pub const PARTS: [&str; 3] = ["COMPLIANCE", "GOVERNANCE", "hold"];
/// The next number that meant spent before numbers grew past 32 bits.
pub const ONCE_SPENT: u64 = 4294967296;

const DATA: u64 = 1;
const GOVERNANCE: u64 = 1;
const COMPLIANCE: u64 = 2;

/// A row as its bytes say it.
struct Row {
    key: Vec<u8>,
    number: u64,
    kind: u64,
    /// Creation, body and length, which never change.
    made: [u64; 3],
    mode: u64,
    until: u64,
    hold: u64,
}

/// The row at a position.
fn row_at(side: &Side, at: usize) -> Row {
    let [number, kind, created, body, length, mode, until, hold] =
        [0, 1, 2, 3, 4, 5, 6, 7].map(|place| side.rows.word(64 * at + 8 * place));
    let block = &side.keys.seen()[64 * at..64 * at + 64];
    let key = block[1..=usize::from(block[0])].to_vec();
    Row { key, number, kind, made: [created, body, length], mode, until, hold }
}

fn rows(side: &Side) -> impl Iterator<Item = Row> + '_ {
    (0..side.settings.word(8) as usize).map(|at| row_at(side, at))
}

/// How an accepted line releases the version that it names.
enum Release {
    Bypass,
    HoldOff,
}

/// A version that a line releases.
pub struct Released {
    number: u64,
    by: Release,
}

/// The key's current version: the largest of its numbers.
fn current(side: &Side, key: &[u8]) -> Option<u64> {
    rows(side).filter(|row| row.key == key).map(|row| row.number).max()
}

/// The version that a line releases if it is accepted on this bucket.
pub fn released(line: &[u8], before: &Side) -> Option<Released> {
    let fields: Vec<&[u8]> = line.split(|&byte| byte == b'\t').collect();
    let [_, _, verb, key, version, rest @ ..] = &fields[..] else { return None };
    let by = match (*verb, rest) {
        (b"RETAIN", [_, _, b"yes"]) | (b"DELETE", [b"yes"]) => Release::Bypass,
        (b"HOLD", [b"OFF"]) => Release::HoldOff,
        _ => return None,
    };
    let number = match (*verb, *version) {
        (b"DELETE", b"-") => return None,
        (_, b"-") => current(before, key)?,
        (_, digits) => std::str::from_utf8(digits).ok()?.parse().ok()?,
    };
    Some(Released { number, by })
}

/// A data row that was carried over, and what has released it since.
struct Kept {
    row: Row,
    bypassed: bool,
    hold_off: bool,
}

impl Kept {
    /// Which parts bind it at a time of the bucket, in their order.
    fn bound(&self, time: u64) -> [bool; 3] {
        let dated = |mode| self.row.mode == mode && time < self.row.until;
        [dated(COMPLIANCE), dated(GOVERNANCE) && !self.bypassed, self.row.hold == 1 && !self.hold_off]
    }

    /// Which parts a row of the table upholds.
    fn upheld_by(&self, now: &Row) -> [bool; 3] {
        let same = now.kind == DATA && now.key == self.row.key && now.made == self.row.made;
        let dated = same && now.until >= self.row.until;
        let governed = now.mode == GOVERNANCE || now.mode == COMPLIANCE;
        [dated && now.mode == COMPLIANCE, dated && governed, same && now.hold == 1]
    }
}

/// The data rows of a bucket at a moment from which the clause runs on.
pub struct Carried {
    kept: Vec<Kept>,
}

impl Carried {
    /// What a sound bucket carries over, if its numbers all differ.
    pub fn of(side: &Side) -> Option<Carried> {
        let mut numbers: Vec<u64> = rows(side).map(|row| row.number).collect();
        numbers.sort_unstable();
        let differ = numbers.windows(2).all(|pair| pair[0] < pair[1]);
        let data = rows(side).filter(|row| row.kind == DATA);
        let kept = data.map(|row| Kept { row, bypassed: false, hold_off: false }).collect();
        differ.then_some(Carried { kept })
    }

    /// Takes note of what an accepted line released.
    pub fn release(&mut self, released: &Released) {
        for kept in self.kept.iter_mut().filter(|kept| kept.row.number == released.number) {
            match released.by {
                Release::Bypass => kept.bypassed = true,
                Release::HoldOff => kept.hold_off = true,
            }
        }
    }

    /// Whether the bucket that an accepted line left upholds what was carried over: how many rows each part bound.
    pub fn check(&self, side: &Side) -> Result<[u64; 3], String> {
        let time = side.settings.word(0);
        let mut table: HashMap<u64, Vec<Row>> = HashMap::new();
        rows(side).for_each(|row| table.entry(row.number).or_default().push(row));
        let mut counts = [0; 3];
        for kept in &self.kept {
            let upheld = match table.get(&kept.row.number).map(Vec::as_slice) {
                Some([row]) => kept.upheld_by(row),
                _ => [false; 3],
            };
            for (part, bound) in kept.bound(time).into_iter().enumerate() {
                if bound && !upheld[part] {
                    return Err(format!(
                        "version {}, carried over, is not held: {}",
                        kept.row.number, PARTS[part]
                    ));
                }
                counts[part] += u64::from(bound);
            }
        }
        Ok(counts)
    }

    /// Weakens a row that was carried over and still is bound, by its date or by its hold.
    pub fn spoil(&self, side: &mut Side, random: &mut Random) {
        let time = side.settings.word(0);
        let part = random.below(PARTS.len());
        let weak = self.kept.iter().find(|kept| kept.bound(time)[part]);
        let at = weak.and_then(|weak| rows(side).position(|row| row.number == weak.row.number));
        if let (Some(at), Some(weak)) = (at, weak) {
            match PARTS[part] {
                "hold" => side.rows.set_word(64 * at + 56, 0),
                _ => side.rows.set_word(64 * at + 48, weak.row.until - 1),
            }
        }
    }
}
