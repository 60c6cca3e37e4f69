//! Writes a load: request lines that fill a table and then go on around so many rows, the same for each run.
//!
//! `loads NAME ROWS LINES [SHAPE [SEED]]` prints the lines; the share that the reference accepts goes to standard error. The shape
//! of the keys is `usual` and the seed 1 where they are not given.
//!
//! `loads swept ROWS LINES KEYS RULES` prints 0 to 8 rules, then ROWS lines that spread rows evenly over so many different keys,
//! and then LINES sweeps, which change no row: with LINES 0 it is what stands before the sweeps.
use reference::answers::page_buffer;
use reference::bucket::{block, DATA, KIND, UNTIL, VERSION};
use reference::locks::locked;
use reference::{dates, Bucket};
use std::collections::BTreeSet;
use std::io::{self, BufWriter, Write};

#[path = "compare/random.rs"]
mod random;
use random::Random;

const CAPACITY: usize = 1024;
/// 2024-01-01T00:00:00Z.
const START: u64 = 1704067200000;
const PREFIXES: [&str; 8] =
    ["gauge/", "hub-7/", "level/east/", "level/west/", "log/2024/", "q/", "rain/", "calib."];
/// What short keys start with.
const SHORT: [&str; 8] = ["g", "h", "k", "l", "m", "q", "r", "c"];
/// What long keys start with before one of the prefixes: 48 bytes.
const LONG: &str = "region-north/catchment-of-the-upper-river/plant/";
const USAGE: &str =
    "usage: loads NAME ROWS LINES [usual|short|long|one|hundred [SEED]], or loads swept ROWS LINES KEYS RULES (1 to ROWS keys, 0 to 8 rules)";
const LETTERS: &[u8; 36] = b"abcdefghijklmnopqrstuvwxyz0123456789";

/// What a load needs to name rows that are there: the bucket that its lines have made so far.
struct Load {
    bucket: Bucket,
    random: Random,
    shape: Shape,
    prefixes: [String; 8],
    keys: Vec<String>,
    clock: u64,
    /// The milliseconds between two lines.
    step: u64,
    rows: usize,
    /// The rules that a load of sweeps alone sets.
    rules: usize,
}

/// What the keys of a load are like.
#[derive(Clone, Copy, PartialEq, Eq)]
enum Shape {
    /// 8 to 24 bytes, about two versions each.
    Usual,
    /// 1 to 4 bytes.
    Short,
    /// 63 bytes, of which the first 48 are the same.
    Long,
    /// As usual, but only keys without rows are put.
    One,
    /// As usual, but about a hundred versions each.
    Hundred,
}

impl Shape {
    fn read(word: &str) -> Option<Shape> {
        match word {
            "usual" => Some(Shape::Usual),
            "short" => Some(Shape::Short),
            "long" => Some(Shape::Long),
            "one" => Some(Shape::One),
            "hundred" => Some(Shape::Hundred),
            _ => None,
        }
    }

    /// The different beginnings of the keys.
    fn prefixes(self) -> [String; 8] {
        match self {
            Shape::Short => SHORT.map(String::from),
            Shape::Long => PREFIXES.map(|prefix| format!("{LONG}{prefix}")),
            _ => PREFIXES.map(String::from),
        }
    }

    /// The fewest bytes of a key, and how many more it may have.
    fn lengths(self) -> (usize, usize) {
        match self {
            Shape::Short => (1, 3),
            Shape::Long => (63, 0),
            _ => (8, 16),
        }
    }

    /// How many keys a load has whose table has so many rows.
    fn keys(self, name: &str, rows: usize) -> usize {
        match (self, name) {
            (Shape::One, _) => 2 * rows.max(CAPACITY),
            (Shape::Hundred, _) => rows.div_ceil(100),
            (_, "sweeps") => rows * 5 / 8,
            (_, "pages" | "reports" | "pages-10" | "pages-255" | "totals") => rows.div_ceil(4),
            _ => rows.div_ceil(2),
        }
    }

    fn key(self, random: &mut Random, prefixes: &[String; 8]) -> String {
        let (least, more) = self.lengths();
        let length = least + random.below(more + 1);
        let mut key = prefixes[random.below(8)].clone();
        while key.len() < length {
            key.push(char::from(random.pick(LETTERS)));
        }
        key
    }
}

/// A date as clocks write it: without a fraction where it is a whole second.
fn date(instant: u64) -> String {
    let printed = dates::print(instant);
    let text = String::from_utf8_lossy(&printed);
    text.strip_suffix(".000Z").map_or(text.to_string(), |whole| format!("{whole}Z"))
}

impl Load {
    fn new(name: &str, rows: usize, shape: Shape, seed: u64) -> Load {
        let mut random = Random::new(seed, 1);
        let prefixes = shape.prefixes();
        let keys = (0..shape.keys(name, rows)).map(|_| shape.key(&mut random, &prefixes)).collect();
        // Days expire at midnight, so a sweep finds something to do where one has passed since the last.
        let step = if name == "sweeps" { 8 * 3600000 } else { 2000 };
        let bucket = Bucket::fresh(CAPACITY);
        Load { bucket, random, shape, prefixes, keys, clock: START, step, rows, rules: 0 }
    }

    /// A load of sweeps alone, whose keys all differ, if that many rows fit the table and that many keys the rows.
    fn swept(rows: usize, keys: usize, rules: usize) -> Option<Load> {
        if rows > CAPACITY || keys > rows || (keys == 0) != (rows == 0) || rules > PREFIXES.len() {
            return None;
        }
        let mut load = Load { rows, rules, ..Load::new("swept", 0, Shape::Usual, 1) };
        let mut different = BTreeSet::new();
        while different.len() < keys {
            different.insert(load.shape.key(&mut load.random, &load.prefixes));
        }
        load.keys = different.into_iter().collect();
        Some(load)
    }

    /// A date after now, up to so many days.
    fn later(&mut self, days: u64) -> u64 {
        self.clock + 1000 * (1 + self.random.next() % (days * 86400))
    }

    /// A key to add a row to: any, or one without rows where each is to have one; then of 16 tries one nearly always finds it.
    fn some_key(&mut self) -> usize {
        let mut key = self.random.below(self.keys.len());
        for _ in 0..16 {
            if self.shape != Shape::One || self.bucket.find(&block(self.keys[key].as_bytes()), None).is_none()
            {
                break;
            }
            key = self.random.below(self.keys.len());
        }
        key
    }

    fn put(&mut self) -> String {
        let key = self.some_key();
        self.put_to(key)
    }

    fn put_to(&mut self, key: usize) -> String {
        let (body, length) = (self.random.next(), self.random.below(1 << 24));
        let until = date(self.later(2));
        let (rights, lock) = match self.random.below(8) {
            0 => ("wt", format!("GOVERNANCE\t{until}\t-")),
            1 => ("wth", format!("GOVERNANCE\t{until}\tOFF")),
            _ => ("w", "-\t-\t-".to_string()),
        };
        format!("{rights}\tPUT\t{}\t{body}\t{length}\t{lock}", self.keys[key])
    }

    /// A row of the table; a data row, unless the first tries all meet markers.
    fn row(&mut self) -> usize {
        let mut at = self.random.below(self.bucket.used());
        for _ in 0..8 {
            if self.bucket.rows[at][KIND] == DATA {
                break;
            }
            at = self.random.below(self.bucket.used());
        }
        at
    }

    fn key_at(&self, at: usize) -> String {
        let block = &self.bucket.keys[at];
        String::from_utf8_lossy(&block[1..=block[0] as usize]).into_owned()
    }

    /// The key and version fields that name a row, the current one half the time by `-`.
    fn name(&mut self, at: usize) -> String {
        let key = self.key_at(at);
        let current = self.bucket.first_place(&self.bucket.keys[at]) == at;
        if current && self.random.once_in(2) {
            return format!("{key}\t-");
        }
        format!("{key}\t{}", self.bucket.rows[at][VERSION])
    }

    fn get(&mut self) -> String {
        let at = self.row();
        format!("r\tGET\t{}", self.name(at))
    }

    /// Removes a version of any kind, with bypass where it is locked.
    fn remove(&mut self) -> String {
        let at = self.random.below(self.bucket.used());
        let (key, row) = (self.key_at(at), &self.bucket.rows[at]);
        let (rights, bypass) = if locked(row, self.clock, false) { ("db", "yes") } else { ("d", "no") };
        format!("{rights}\tDELETE\t{key}\t{}\t{bypass}", row[VERSION])
    }

    fn mark(&mut self) -> String {
        let key = self.some_key();
        format!("d\tDELETE\t{}\t-\tno", self.keys[key])
    }

    /// Moves a row's date on, or takes its retention away.
    fn retain(&mut self) -> String {
        let at = self.row();
        let until = self.bucket.rows[at][UNTIL].max(self.later(30));
        let compliance = self.bucket.rows[at][VERSION] % 8 == 0;
        let name = self.name(at);
        if compliance {
            return format!("t\tRETAIN\t{name}\tCOMPLIANCE\t{}\tno", date(until));
        }
        match self.random.below(4) {
            0 => format!("tb\tRETAIN\t{name}\t-\t-\tyes"),
            _ => format!("t\tRETAIN\t{name}\tGOVERNANCE\t{}\tno", date(until)),
        }
    }

    fn hold(&mut self) -> String {
        let at = self.row();
        let on = self.random.pick(&["ON", "OFF"]);
        format!("h\tHOLD\t{}\t{on}", self.name(at))
    }

    /// A page of all keys or of one prefix, from the start or after some row of it.
    fn list(&mut self, count: usize) -> String {
        let at = self.random.below(self.bucket.used());
        let (key, version) = (self.key_at(at), self.bucket.rows[at][VERSION]);
        let random = &mut self.random;
        let prefix = self.prefixes.iter().find(|prefix| key.starts_with(*prefix) && random.once_in(2));
        let place = if random.once_in(2) { "\t0".to_string() } else { format!("{key}\t{version}") };
        format!("r\tLIST\t{}\t{place}\t{count}", prefix.map_or("", |prefix| prefix))
    }

    /// A page of so many rows, which are there, somewhere in the table.
    fn full_page(&mut self, count: usize) -> String {
        let at = self.random.below(self.bucket.used().saturating_sub(count).max(1));
        format!("r\tLIST\t\t{}\t{}\t{count}", self.key_at(at), self.bucket.rows[at][VERSION])
    }

    /// A key that is there; no bare prefix, which begins other keys too, unless the first tries all meet one.
    fn lone_key(&mut self) -> String {
        let mut at = self.row();
        for _ in 0..8 {
            if !self.prefixes.contains(&self.key_at(at)) {
                break;
            }
            at = self.row();
        }
        self.key_at(at)
    }

    /// The totals of every row, of the keys under one prefix and of one key, in turn.
    fn report(&mut self, number: usize) -> String {
        let prefix = match number % 3 {
            0 => String::new(),
            1 => self.prefixes[self.random.below(8)].clone(),
            _ => self.lone_key(),
        };
        format!("r\tREPORT\t{prefix}")
    }

    /// A rule for each prefix but the last, and one for every key.
    fn rule(&mut self, number: usize) -> String {
        let prefix = if number == 7 { "" } else { &self.prefixes[number] };
        let (mut current, noncurrent) = if number == 7 { (40, 12) } else { (28 + number, 8 + number / 2) };
        if self.shape == Shape::One {
            // A marker would be a key's second row, and as many markers as there are keys would not fit.
            current = 0;
        }
        format!("c\tRULE\t{number}\t{prefix}\t{}\t{}", 48 * current, 48 * noncurrent)
    }

    /// A rule whose days last longer than the load; every other prefix ends in a byte that no key has there.
    fn lasting_rule(&self, number: usize) -> String {
        let end = ["", "!"][number % 2];
        format!("c\tRULE\t{number}\t{}{end}\t36500\t36500", PREFIXES[number])
    }

    /// A line of a load of sweeps alone: its rules, its rows by turns of its keys, then sweeps.
    fn swept_line(&mut self, number: usize) -> String {
        if number < self.rules {
            return self.lasting_rule(number);
        }
        match number - self.rules {
            row if row < self.rows => self.put_to(row % self.keys.len()),
            _ => "c\tSWEEP".to_string(),
        }
    }

    /// Adds or removes a row, so that the table stays between two sizes.
    fn turn(&mut self, least: usize, most: usize, marks: usize) -> String {
        let used = self.bucket.used();
        if used >= most || used > least && self.random.once_in(2) {
            return self.remove();
        }
        if marks > 0 && self.random.once_in(marks) {
            return self.mark();
        }
        self.put()
    }

    fn line(&mut self, name: &str, number: usize) -> Option<String> {
        if name == "swept" {
            return Some(self.swept_line(number));
        }
        if name == "sweeps" && number < 8 {
            return Some(self.rule(number));
        }
        if number < self.rows {
            let marked = matches!(name, "pages" | "reports" | "pages-10" | "pages-255" | "totals")
                && self.random.once_in(8);
            return Some(if marked { self.mark() } else { self.put() });
        }
        let rows = self.rows;
        let spread = rows.div_ceil(50);
        Some(match (name, self.random.below(10)) {
            ("mixed", 0..=5) => self.get(),
            ("mixed", _) => self.turn(rows - spread, rows + spread, 8),
            ("churn", _) => self.turn(CAPACITY - 4, CAPACITY, 0),
            ("retention", 0..=3) => self.retain(),
            ("retention", 4..=5) => self.hold(),
            ("retention", _) => self.get(),
            ("pages", _) => self.list(if number % 2 == 0 { 10 } else { 200 }),
            ("reports", _) => self.report(number),
            ("pages-10", _) => self.full_page(10),
            ("pages-255", _) => self.full_page(255),
            ("totals", _) => self.report(0),
            ("sweeps", 0..=1) if self.shape == Shape::One => self.turn(rows - spread, rows + spread, 0),
            ("sweeps", 0..=1) if self.bucket.used() < CAPACITY => self.put(),
            ("sweeps", _) => "c\tSWEEP".to_string(),
            _ => return None,
        })
    }
}

/// Writes the lines and returns how many of them the reference accepts, if the load is known.
fn write(mut load: Load, name: &str, lines: usize, out: &mut impl Write) -> io::Result<Option<usize>> {
    let mut answer = vec![0; page_buffer(255)];
    let mut accepted = 0;
    for number in 0..lines {
        load.clock = START + load.step * number as u64;
        if load.random.once_in(4) {
            load.clock += load.random.next() % 1000;
        }
        let Some(rest) = load.line(name, number) else { return Ok(None) };
        let line = format!("{}\t{rest}", date(load.clock));
        accepted += usize::from(load.bucket.serve(line.as_bytes(), &mut answer).is_ok());
        writeln!(out, "{line}")?;
    }
    Ok(Some(accepted))
}

fn main() -> io::Result<()> {
    let words: Vec<String> = std::env::args().skip(1).collect();
    let number = |at: usize| words.get(at).and_then(|word| word.parse::<usize>().ok());
    let (Some(name), Some(rows), Some(lines)) = (words.first(), number(1), number(2)) else {
        return Err(io::Error::other(USAGE));
    };
    let load = match (name.as_str(), number(3), number(4)) {
        ("swept", Some(keys), Some(rules)) => Load::swept(rows, keys, rules),
        ("swept", _, _) => None,
        (_, _, seed) if seed.is_some() || words.len() < 5 => words
            .get(3)
            .map_or(Some(Shape::Usual), |word| Shape::read(word))
            .map(|shape| Load::new(name, rows, shape, seed.unwrap_or(1) as u64)),
        _ => None,
    };
    let Some(load) = load else { return Err(io::Error::other(USAGE)) };
    let lines = if name == "swept" { load.rules + rows + lines } else { lines };
    let mut out = BufWriter::new(io::stdout().lock());
    let Some(accepted) = write(load, name, lines, &mut out)? else {
        return Err(io::Error::other(
            "the loads are mixed, churn, retention, sweeps, pages, pages-10, pages-255, reports, totals and swept",
        ));
    };
    out.flush()?;
    eprintln!("{name}: {:.1} % of the lines accepted", 100.0 * accepted as f64 / lines as f64);
    Ok(())
}
