//! What a REPORT is to print, counted a second time: by the fields of the lines that pages show, and by no row.
use crate::plain::date;
use reference::bucket::MAX_LENGTH;
use reference::dates;

/// The kinds of reports that tell what is counted: see `Report::kinds`.
pub const TELLING_REPORTS: [&str; 11] = [
    "no rows",
    "data and markers",
    "a sum above the largest length",
    "a row kept by GOVERNANCE",
    "a row kept by COMPLIANCE",
    "a row on hold without a mode",
    "a row on hold with its date passed",
    "a date equal to now",
    "a date 1 ms after now",
    "from the bucket's time",
    "several pages",
];

/// What a row's line says of its length and its lock.
struct Shown<'a> {
    data: bool,
    length: &'a str,
    mode: &'a str,
    date: &'a str,
    held: bool,
}

impl Shown<'_> {
    fn read(line: &String) -> Shown<'_> {
        let fields: Vec<&str> = line.split('\t').collect();
        let [_, _, kind, _, _, length, mode, date, hold] = fields[..] else { panic!("nine fields: {line}") };
        Shown { data: kind == "data", length, mode, date, held: hold == "ON" }
    }

    /// Whether its date is after now: the texts of dates stand in the order of their instants.
    fn kept(&self, now: &str) -> bool {
        ["GOVERNANCE", "COMPLIANCE"].contains(&self.mode) && self.date > now
    }
}

/// The data rows and the markers that lines show.
fn rows(lines: &[String]) -> (Vec<Shown<'_>>, Vec<Shown<'_>>) {
    lines.iter().map(Shown::read).partition(|row| row.data)
}

fn sum(data: &[Shown]) -> u64 {
    data.iter().map(|row| row.length.parse::<u64>().expect("a data row's length")).sum()
}

/// The answer to a REPORT at an instant, its rows being those that these lines show.
pub fn answer(lines: &[String], now: u64) -> String {
    let ((data, markers), now) = (rows(lines), date(now));
    let locked = data.iter().filter(|row| row.held || row.kept(&now)).count();
    format!("ok\t{}\t{}\t{}\t{locked}\n", data.len(), markers.len(), sum(&data))
}

/// An accepted REPORT: its answer, its clock and its now.
pub struct Report {
    pub answer: String,
    pub clock: u64,
    pub now: u64,
}

impl Report {
    /// Which kinds it is of, in the order of their names, where these lines are shown by one page or by several.
    pub fn kinds(&self, lines: &[String], several: bool) -> [bool; TELLING_REPORTS.len()] {
        let (data, markers) = rows(lines);
        let now = date(self.now);
        let any = |test: &dyn Fn(&Shown) -> bool| data.iter().any(test);
        let kept_by = |mode| any(&|row| row.mode == mode && !row.held && row.kept(&now));
        [
            lines.is_empty(),
            !data.is_empty() && !markers.is_empty(),
            sum(&data) > MAX_LENGTH,
            kept_by("GOVERNANCE"),
            kept_by("COMPLIANCE"),
            any(&|row| row.held && row.mode == "-"),
            any(&|row| row.held && row.mode != "-" && !row.kept(&now)),
            any(&|row| !row.held && row.date == now),
            any(&|row| !row.held && dates::read(row.date.as_bytes()) == Some(self.now + 1)),
            self.clock < self.now,
            several,
        ]
    }
}
