//! Request lines that fit the bucket's state often enough to reach every number.
use crate::carried::ONCE_SPENT;
use crate::random::Random;
use crate::sides::Side;
use crate::years::year_of;
use reference::bucket::{CREATED, MAX_LENGTH, MAX_VERSION, UNTIL, VERSION};
use reference::dates::{self, up_to_midnight, DAY, LAST};
use reference::settings::{MAX_YEARS, SPENT, YEARS};

const KEYS: [&str; 8] = ["a", "b", "a/1", "a/2", "a/", "-", "!", "~"];
/// The key and version fields of the place before every row.
pub const START: &str = "\t0";
/// Version numbers around both ends, and one more than the last.
const VERSIONS: [u64; 9] =
    [1, 2, 5, ONCE_SPENT - 1, ONCE_SPENT, ONCE_SPENT + 1, MAX_VERSION - 1, MAX_VERSION, SPENT];
const PREFIXES: [&str; 6] = ["", "a", "a/", "-", "b", "zz"];

/// First days of years, 29 February, 1 March of common and leap years, and the last day of all.
const SOME_DAYS: [&[u8]; 8] = [
    b"2000-01-01T00:00:00Z",
    b"2000-02-29T00:00:00Z",
    b"2023-03-01T00:00:00Z",
    b"2024-02-29T00:00:00Z",
    b"2024-03-01T00:00:00Z",
    b"2025-01-01T00:00:00Z",
    b"2100-03-01T00:00:00Z",
    b"9999-12-31T00:00:00Z",
];

/// The days of a year that tell how years are counted.
const DAYS_OF_YEARS: [&str; 6] = ["-01-01", "-02-28", "-02-29", "-02-29", "-03-01", "-12-31"];
/// Leap and common years, among them centuries, and some of the last.
const SOME_YEARS: [u64; 10] = [1996, 1999, 2000, 2024, 2096, 2100, 2396, 9896, 9900, 9999];

/// One of these days, or a day or two before it.
pub fn some_day(random: &mut Random) -> u64 {
    let day = dates::read(random.pick(&SOME_DAYS)).expect("a date");
    day - random.pick(&[0, DAY, 2 * DAY])
}

/// An instant moved within its day: to its midnight, 1 ms after that, or 1 ms before the next; or as it is.
pub fn near_midnight(instant: u64, random: &mut Random) -> u64 {
    let midnight = instant - instant % DAY;
    random.pick(&[midnight, midnight + 1, midnight + DAY - 1, instant])
}

/// The year that an instant is in.
fn year_in(instant: u64) -> u64 {
    year_of(&String::from_utf8_lossy(&dates::print(instant)))
}

/// The last instant of a year.
fn last_instant(year: u64) -> u64 {
    dates::read(format!("{year}-12-31T23:59:59.999Z").as_bytes()).expect("a date")
}

/// A random line over the state of a bucket.
pub struct Maker<'a> {
    pub random: &'a mut Random,
    pub side: &'a Side,
    /// How many keys are in use; few keys hit often.
    pub keys: usize,
}

impl Maker<'_> {
    fn time(&self) -> u64 {
        self.side.settings.word(0)
    }

    /// The place of some used row, if the settings say that there is one.
    fn row(&mut self) -> Option<usize> {
        let fitting = self.side.rows.seen().len().min(self.side.keys.seen().len()) / 64;
        let used = self.side.settings.word(8).min(fitting as u64) as usize;
        (used > 0).then(|| self.random.below(used))
    }

    fn number_of(&mut self, place: usize) -> Option<u64> {
        self.row().map(|at| self.side.rows.word(64 * at + 8 * place))
    }

    /// Instants at which something changes: lock dates, sweeps, the bucket's time and the last instant.
    fn instant(&mut self) -> u64 {
        let days = self.random.below(4) as u64 * DAY;
        let base = match self.random.below(8) {
            0 => self.number_of(UNTIL).unwrap_or(0),
            1 => self.number_of(CREATED).unwrap_or(0) + days,
            2 => LAST,
            3 => up_to_midnight(self.number_of(CREATED).unwrap_or(0) + days),
            _ => self.time() + days,
        };
        let nudged = match self.random.below(4) {
            0 => base.saturating_sub(1),
            1 => base + 1,
            2 => base + self.random.next() % DAY,
            _ => base,
        };
        nudged.min(LAST)
    }

    /// A clock: mostly the bucket's time or soon after it, seldom far, sometimes set back.
    fn clock(&mut self) -> u64 {
        match self.random.below(20) {
            0 => self.time().saturating_sub(self.random.next() % (3 * DAY)),
            1 => self.instant().min(self.time() + 40 * DAY),
            2 => (self.time() + DAY).min(LAST),
            3 => (self.time() + DAY - 1).min(LAST),
            4 => (self.time() + 1).min(LAST),
            5 => (self.time() + self.random.next() % (DAY / 2)).min(LAST),
            6 => self.number_of(UNTIL).map_or(self.time(), |date| date.min(self.time() + 5 * DAY)),
            7 => self.last_default(),
            8 => up_to_midnight(self.time()).min(LAST),
            9 => (up_to_midnight(self.time() + 1) - 1).min(LAST),
            10 => (up_to_midnight(self.time()) + 1).min(LAST),
            _ => self.time(),
        }
    }

    /// A clock at or next to which a sweep's days end for some row, before or after they are rounded, where that is not far.
    fn expiry(&mut self) -> u64 {
        let days = self.random.pick(&[1, 1, 2, 3]) * DAY;
        let end = self.number_of(CREATED).unwrap_or(0) + days;
        let midnight = up_to_midnight(end);
        let clock = self.random.pick(&[end, midnight - 1, midnight, midnight + 1]);
        clock.clamp(self.time(), self.time() + 4 * DAY).min(LAST)
    }

    /// A clock at or next to the date of some row, where one is found that is to come and not far.
    fn deadline(&mut self) -> u64 {
        let near = self.time() + 1..=self.time() + 4 * DAY;
        let date = (0..10).filter_map(|_| self.number_of(UNTIL)).find(|date| near.contains(date));
        date.map_or(self.time(), |date| self.random.pick(&[date - 1, date, date, date + 1]).min(LAST))
    }

    /// The clock at which the default's date is the last instant or 1 ms after it, where that is not far.
    fn last_default(&mut self) -> u64 {
        let [count, unit] = [32, 40].map(|at| self.side.settings.word(at));
        let last = if unit == YEARS { last_instant(9999 - count) } else { LAST - count * DAY };
        let clock = last + self.random.next() % 2;
        if (self.time()..LAST.min(self.time() + 5 * DAY)).contains(&clock) {
            clock
        } else {
            self.time()
        }
    }

    fn date(&mut self, instant: u64) -> String {
        let text = String::from_utf8(dates::print(instant).to_vec()).expect("dates are ASCII");
        match self.random.below(4) {
            0 if instant % 1000 == 0 => text.replace(".000Z", "Z"),
            1 => text.replace('Z', &format!("{}Z", self.random.below(1000000))),
            2 if instant % 10 == 0 => text.replace("0Z", "Z"),
            _ => text,
        }
    }

    fn rights(&mut self) -> String {
        let mut letters: Vec<char> = "rwdthbc".chars().collect();
        for at in (1..letters.len()).rev() {
            letters.swap(at, self.random.below(at + 1));
        }
        let count = if self.random.once_in(6) { self.random.below(8) } else { 7 };
        let field: String = letters[..count].iter().collect();
        if field.is_empty() {
            "-".into()
        } else {
            field
        }
    }

    fn key(&mut self) -> String {
        match self.random.below(40) {
            0 => "k".repeat(63),
            1 => self.long_key(),
            2 => format!("r{}", self.random.below(100000)),
            _ => {
                let count = self.keys.min(KEYS.len());
                KEYS[self.random.below(count)].into()
            }
        }
    }

    /// A key that differs from others like it only behind some words of eight bytes, or just before their end.
    fn long_key(&mut self) -> String {
        let alike = self.random.pick(&[6, 7, 8, 9, 15, 16, 24, 31, 32, 61]);
        format!("{}{}", "k".repeat(alike), self.random.pick(&["", "!", "~", "~k"]))
    }

    /// The key and the version number of a row.
    fn named(&self, at: usize) -> (String, u64) {
        let block = &self.side.keys.seen()[64 * at..64 * at + 64];
        let key = String::from_utf8_lossy(&block[1..=(block[0] as usize).min(63)]).into_owned();
        (key, self.side.rows.word(64 * at + 8 * VERSION))
    }

    /// A key and a version field, mostly of a row that is there.
    fn name(&mut self) -> String {
        if let (false, Some(at)) = (self.random.once_in(8), self.row()) {
            let (key, version) = self.named(at);
            return format!("{key}\t{}", self.version(version));
        }
        let version = self.random.pick(&VERSIONS);
        format!("{}\t{}", self.key(), self.version(version))
    }

    /// A version field: mostly a number, seldom one that has it in its lower half, else the current one.
    fn version(&mut self, number: u64) -> String {
        match self.random.below(32) {
            0..=7 => "-".into(),
            8 => number.wrapping_add(ONCE_SPENT).to_string(),
            _ => number.to_string(),
        }
    }

    /// A mode and a date, seldom only one of them.
    fn retention(&mut self, none: usize) -> String {
        let mode = self.random.pick(&["GOVERNANCE", "COMPLIANCE"]);
        let instant = if self.random.once_in(3) { self.instant() } else { self.soon() };
        let date = self.date(instant);
        match self.random.below(24) {
            0 => format!("{mode}\t-"),
            1 => format!("-\t{date}"),
            chance if chance < 2 + none => "-\t-".into(),
            _ => format!("{mode}\t{date}"),
        }
    }

    fn soon(&mut self) -> u64 {
        (self.time() + self.random.below(4) as u64 * DAY + self.random.below(3) as u64).min(LAST)
    }

    fn bypass(&mut self) -> &'static str {
        self.random.pick(&["yes", "no"])
    }

    fn days(&mut self) -> u64 {
        self.random.pick(&[0, 0, 1, 1, 1, 2, 3, 36500])
    }

    fn new_row(&mut self) -> String {
        let retention = self.retention(15);
        format!("{retention}\t{}", self.random.pick(&["-", "-", "-", "-", "OFF", "OFF", "ON"]))
    }

    fn put(&mut self) -> String {
        let body = if self.random.once_in(9) { u64::MAX } else { self.random.next() % 100 };
        let length = self.random.pick(&[0, 1, 300, MAX_LENGTH]);
        format!("PUT\t{}\t{body}\t{length}\t{}", self.key(), self.new_row())
    }

    fn default(&mut self) -> String {
        let mode = self.random.pick(&["GOVERNANCE", "COMPLIANCE", "-"]);
        let period = if self.random.once_in(2) {
            self.random.pick(&["1d", "2d", "36500d"]).into()
        } else {
            format!("{}y", self.some_years())
        };
        let odd = self.random.once_in(12);
        format!("DEFAULT\t{mode}\t{}", if (mode == "-") != odd { "-" } else { &period })
    }

    fn some_years(&mut self) -> u64 {
        let any = 1 + self.random.next() % MAX_YEARS;
        self.random.pick(&[1, 4, 100, any])
    }

    fn rule(&mut self) -> String {
        let number = self.random.below(8);
        let prefix = if self.random.once_in(3) { self.prefix() } else { self.random.pick(&PREFIXES).into() };
        format!("RULE\t{number}\t{prefix}\t{}\t{}", self.days(), self.days())
    }

    /// A prefix, mostly some first bytes of a key that is there.
    fn prefix(&mut self) -> String {
        match self.row() {
            Some(at) if !self.random.once_in(4) => {
                let (key, _) = self.named(at);
                let length = self.random.below(key.len() + 1);
                key.chars().take(length).collect()
            }
            _ => self.random.pick(&PREFIXES).into(),
        }
    }

    /// The key and version fields of a place: at, before or behind a row that is there, or anywhere.
    fn place(&mut self) -> String {
        let version = self.random.pick(&VERSIONS);
        let any = self.random.pick(&[0, 0, 100, version, version, version]);
        let Some(at) = self.row().filter(|_| !self.random.once_in(6)) else {
            return if self.random.once_in(2) { START.into() } else { format!("{}\t{any}", self.key()) };
        };
        let (key, number) = self.named(at);
        match self.random.below(10) {
            0 => format!("{key}\t0"),
            1 => format!("{key}\t{}", number.saturating_sub(1)),
            2 => format!("{key}\t{}", number.saturating_add(1)),
            3 => format!("{key}\t{any}"),
            4 => format!("{key}!\t{any}"),
            5 => format!("{}\t{any}", self.prefix()),
            _ => format!("{key}\t{number}"),
        }
    }

    fn used(&self) -> usize {
        self.side.settings.word(8) as usize
    }

    /// A page's count: mostly small, some at or over its limits, some up to as many as there are rows.
    fn count(&mut self) -> usize {
        match self.random.below(16) {
            0 => self.random.pick(&[0, 999, 1000, 1001]),
            1 => self.random.pick(&[254, 255, 256, 1000]),
            2..=4 => 1 + self.random.below(1 + self.used().min(999)),
            5..=6 => 1 + self.random.below(40),
            _ => 1 + self.random.below(4),
        }
    }

    /// A prefix and a count whose pages are to be followed: at most some forty of them.
    pub fn pages(&mut self) -> (String, usize) {
        let least = 1 + self.used() / 40;
        let spread = self.random.pick(&[1, 1, 3, 10, 100, 900]);
        (self.prefix(), least + self.random.below(spread))
    }

    /// The line that asks for one page.
    pub fn page(&mut self, prefix: &str, place: &str, count: usize) -> Vec<u8> {
        let instant = self.clock();
        format!("{}\tr\tLIST\t{prefix}\t{place}\t{count}", self.date(instant)).into_bytes()
    }

    /// A clock, and the line that asks for a prefix's totals by it.
    pub fn report(&mut self, prefix: &str) -> (u64, Vec<u8>) {
        let clock = if self.random.once_in(3) { self.clock() } else { self.deadline() };
        (clock, format!("{}\tr\tREPORT\t{prefix}", self.date(clock)).into_bytes())
    }

    fn verb(&mut self) -> String {
        match self.random.below(132) {
            0..=25 => self.put(),
            26..=36 => format!("COPY\t{}\t{}\t{}", self.name(), self.key(), self.new_row()),
            37..=50 => format!("RETAIN\t{}\t{}\t{}", self.name(), self.retention(5), self.bypass()),
            51..=58 => format!("HOLD\t{}\t{}", self.name(), self.random.pick(&["ON", "OFF", "OFF"])),
            59..=72 => format!("DELETE\t{}\t{}", self.name(), self.bypass()),
            73..=76 => format!("DELETE\t{}\t-\t{}", self.key(), self.bypass()),
            77..=79 => self.default(),
            80..=84 => self.rule(),
            85..=91 => "SWEEP".into(),
            92..=99 => format!("GET\t{}", self.name()),
            100..=119 => format!("LIST\t{}\t{}\t{}", self.prefix(), self.place(), self.count()),
            120..=122 => format!("REPORT\t{}", self.key()),
            _ => format!("REPORT\t{}", self.prefix()),
        }
    }

    pub fn line(&mut self) -> String {
        let verb = self.verb();
        let decides = self.random.once_in(2);
        let instant = match verb.split('\t').next() {
            Some("SWEEP") if decides => self.expiry(),
            Some("REPORT") if decides => self.deadline(),
            _ => self.clock(),
        };
        let clock = self.date(instant);
        format!("{clock}\t{}\t{verb}", self.rights())
    }

    /// Lines up to the midnights of two day counts: two versions of a key, the newer one made a day or two after the other,
    /// a rule whose counts differ, and sweeps at and before both ends of each count.
    pub fn night(&mut self) -> Vec<String> {
        let day = if self.random.once_in(2) { some_day(self.random) - DAY } else { self.time() };
        let older = near_midnight(day, self.random).max(self.time());
        let newer = near_midnight(older + self.random.pick(&[DAY, DAY, 2 * DAY]), self.random);
        let [fewer, more] = self.random.pick(&[[1, 2], [1, 3], [2, 3]]);
        let (current, noncurrent) = self.random.pick(&[(fewer, more), (more, fewer)]);
        let (key, rule) = (self.key(), self.random.below(8));
        let mut verbs = vec![
            (older, format!("PUT\t{key}\t1\t1\t-\t-\t-")),
            (newer, format!("PUT\t{key}\t2\t2\t-\t-\t-")),
            (newer, format!("RULE\t{rule}\t{key}\t{current}\t{noncurrent}")),
        ];
        for end in [fewer, more].map(|days| newer + days * DAY) {
            let midnight = up_to_midnight(end);
            verbs.extend([end - 1, end, midnight - 1, midnight].map(|clock| (clock, "SWEEP".into())));
        }
        verbs.push((newer, format!("RULE\t{rule}\t\t0\t0")));
        let line = |(clock, verb): (u64, String)| format!("{}\trwdthbc\t{verb}", self.date(clock.min(LAST)));
        verbs.into_iter().map(line).collect()
    }

    /// Lines that add rows where few numbers are left: a sweep that marks what it can, and PUT, COPY and DELETE from some
    /// turn on, the PUT sent again at last.
    pub fn ending(&mut self) -> Vec<String> {
        let (now, later) = (self.time(), up_to_midnight(self.time() + DAY).min(LAST));
        let (key, target) = (self.key(), self.key());
        let put = format!("PUT\t{key}\t{}\t7\t-\t-\t-", self.random.next());
        let mut adding = [
            (later, "SWEEP".to_string()),
            (later, format!("PUT\t{target}\t{}\t8\t-\t-\t-", self.random.next())),
            (later, format!("COPY\t{key}\t-\t{target}\t-\t-\t-")),
            (later, format!("DELETE\t{target}\t-\tno")),
        ];
        let turn = self.random.below(adding.len());
        adding.rotate_left(turn);
        let mut verbs = vec![(now, "RULE\t0\t\t1\t0".to_string()), (now, put.clone())];
        verbs.extend(adding.iter().chain(&adding).cloned());
        verbs.push((later, put));
        let line = |(clock, verb): (u64, String)| format!("{}\trwdthbc\t{verb}", self.date(clock));
        verbs.into_iter().map(line).collect()
    }

    /// Lines that keep a row that is there, and a new one, until the same date soon.
    pub fn locks(&mut self) -> Vec<String> {
        let (now, instant) = (self.time(), self.soon().max(self.time() + 1).min(LAST));
        let date = self.date(instant);
        let verbs = [
            format!("RETAIN\t{}\tGOVERNANCE\t{date}\tyes", self.name()),
            format!("PUT\t{}\t1\t{MAX_LENGTH}\tCOMPLIANCE\t{date}\t-", self.key()),
        ];
        verbs.map(|verb| format!("{}\trwdthbc\t{verb}", self.date(now))).to_vec()
    }

    /// A clock on a day that tells how years are counted, of the year of the bucket's time or of a later one, and years.
    fn telling_years(&mut self) -> (u64, u64) {
        let soon = year_in(self.time()) + self.random.below(5) as u64;
        let year = if self.random.once_in(2) { soon } else { self.random.pick(&SOME_YEARS).max(soon) };
        let day = self.random.pick(&DAYS_OF_YEARS);
        let mut dates = (year..year + 8).map(|year| format!("{year}{day}T12:34:56.789Z"));
        let instant = dates.find_map(|date| dates::read(date.as_bytes())).unwrap_or(self.time());
        (near_midnight(instant, self.random), self.some_years())
    }

    /// A clock in the last hundred years, and the years from it that end in 9999, at the last instant or after it.
    fn last_years(&mut self) -> (u64, u64) {
        let first = year_in(self.time()).clamp(9899, 9998);
        let year = first + self.random.next() % (9999 - first);
        let (last, any) = (last_instant(year), self.random.next() % (365 * DAY));
        (last - any * self.random.pick(&[0, 1]) + self.random.pick(&[0, 1]), 9999 - year)
    }

    /// Lines under a default of years: a PUT, a COPY and the PUT again on a day that tells, another PUT soon after it, and
    /// mostly what takes all of that away.
    pub fn contract(&mut self) -> Vec<String> {
        let (clock, years) = if self.random.once_in(5) { self.last_years() } else { self.telling_years() };
        let later = clock + self.random.pick(&[0, 1, DAY, DAY, 366 * DAY]);
        let mode = self.random.pick(&["GOVERNANCE", "GOVERNANCE", "GOVERNANCE", "COMPLIANCE"]);
        let (key, target, body) = (self.key(), self.key(), self.random.next() % 100);
        let put = |length| format!("PUT\t{key}\t{body}\t{length}\t-\t-\t-");
        let mut verbs = vec![
            (clock, format!("DELETE\t{}\tyes", self.name())),
            (clock, format!("DEFAULT\t{mode}\t{years}y")),
            (clock, put(7)),
            (clock, format!("COPY\t{key}\t-\t{target}\t-\t-\t-")),
            (later, put(7)),
            (later, put(8)),
            (later, format!("GET\t{key}\t-")),
        ];
        if !self.random.once_in(4) {
            let next = self.side.settings.word(16);
            let made =
                [(&key, 0), (&target, 1), (&key, 2)].map(|(key, behind)| (key, next.saturating_add(behind)));
            verbs.extend(made.map(|(key, number)| (later, format!("DELETE\t{key}\t{number}\tyes"))));
            verbs.push((later, "DEFAULT\t-\t-".into()));
        }
        let line = |(clock, verb): (u64, String)| format!("{}\trwdthbc\t{verb}", self.date(clock.min(LAST)));
        verbs.into_iter().map(line).collect()
    }

    /// A PUT sent again: as it was, at another clock, with another lock, or with another body, length or key.
    pub fn again(&mut self, put: &str) -> String {
        let mut fields: Vec<String> = put.split('\t').map(str::to_string).collect();
        match self.random.below(10) {
            0..=2 => {
                let instant = self.clock();
                fields[0] = self.date(instant);
            }
            3 | 4 => {
                fields.truncate(6);
                fields.push(self.new_row());
            }
            5 => self.nudge(&mut fields[4]),
            6 => self.nudge(&mut fields[5]),
            7 => fields[3] = self.key(),
            _ => {}
        }
        fields.join("\t")
    }

    /// Makes a number greater or less by one, or greater by what only its upper half shows.
    fn nudge(&mut self, field: &mut String) {
        let value: u64 = field.parse().expect("a body or a length");
        *field = value.wrapping_add(self.random.pick(&[1, 1, u64::MAX, u64::MAX, 1 << 32])).to_string();
    }
}
