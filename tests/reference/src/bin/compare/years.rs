//! The dates that a default of years gives, found a second time: in the texts of dates, and without counting a day.
use crate::sides::Side;
use reference::bucket::{block, Block, UNTIL};
use reference::dates::{self, DAY};
use reference::requests::{self, Verb};
use reference::settings::YEARS;

/// The kinds of lines that tell how years are counted: see `Contract::kinds`.
pub const TELLING_YEARS: [&str; 16] = [
    "29 February to a common year",
    "29 February to a leap year",
    "28 February to a common year",
    "28 February to a leap year",
    "1 March",
    "31 December",
    "1 January",
    "to a common year",
    "to a leap year",
    "to 9999",
    "to the last instant",
    "by a COPY",
    "from the bucket's time",
    "10",
    "10 by 1 ms",
    "10 by a COPY",
];

/// A PUT or a COPY that takes its date from a default of years.
pub struct Contract {
    key: Block,
    clock: u64,
    now: u64,
    years: u64,
    copies: bool,
}

fn text(instant: u64) -> String {
    String::from_utf8_lossy(&dates::print(instant)).into_owned()
}

/// Whether a year has a 29 February: every fourth one, and of those that end a century every fourth.
fn leap(year: u64) -> bool {
    let count = if year % 100 == 0 { year / 100 } else { year };
    count % 4 == 0
}

/// The year that a date's text begins with.
pub fn year_of(date: &str) -> u64 {
    date[..4].parse().expect("a year")
}

impl Contract {
    /// That of a line which refusals 1 to 9 haven't met and which is no retry, if it is one; the bucket is as the line left it.
    pub fn of(line: &[u8], side: &Side) -> Option<Contract> {
        let request = requests::read(line)?;
        let (key, retention, copies) = match request.verb {
            Verb::Put { key, retention, .. } => (key, retention, false),
            Verb::Copy { target, retention, .. } => (target, retention, true),
            _ => return None,
        };
        let [time, years, unit] = [0, 32, 40].map(|at| side.settings.word(at));
        let (key, clock, now) = (block(key), request.clock, request.clock.max(time));
        (unit == YEARS && retention.mode.is_none()).then_some(Contract { key, clock, now, years, copies })
    }

    /// The text of the date: now's with its year raised, and 29 February the 28th in a common year; none after 9999.
    fn end(&self) -> Option<String> {
        let now = text(self.now);
        let year = year_of(&now) + self.years;
        let behind = if leap(year) { now[4..].into() } else { now[4..].replace("-02-29T", "-02-28T") };
        (year <= 9999).then(|| format!("{year}{behind}"))
    }

    /// The place of the date of the row that the line made.
    fn place(&self, side: &Side) -> usize {
        let bucket = side.bucket().expect("an accepted line leaves a sound bucket");
        64 * bucket.first_place(&self.key) + 8 * UNTIL
    }

    /// Whether the number that came, and the date of the row if one was made, are those of the texts.
    pub fn check(&self, number: u64, side: &Side) -> Result<(), String> {
        let end = self.end();
        if (number == 10) != end.is_none() {
            return Err(format!("{number} came, where the years end at {end:?}"));
        }
        match end {
            Some(end) if number == 0 && text(side.rows.word(self.place(side))) != end => {
                Err(format!("the row's date is another than {end}"))
            }
            _ => Ok(()),
        }
    }

    /// Gives the row that the line made the date that years of 365 days would.
    pub fn spoil(&self, side: &mut Side) {
        side.rows.set_word(self.place(side), self.now + self.years * 365 * DAY);
    }

    /// Which kinds a line is of, in the order of their names: 10, or those of a row that was made.
    pub fn kinds(&self, number: u64) -> [bool; TELLING_YEARS.len()] {
        let now = text(self.now);
        let from = |day| now.contains(day);
        let end = self.end().filter(|_| number == 0);
        let to = |test: fn(&str) -> bool| end.as_deref().is_some_and(test);
        let (common, leap) = (to(|end| !leap(year_of(end))), to(|end| leap(year_of(end))));
        let (made, late) = (end.is_some(), number == 10);
        [
            from("-02-29T") && common,
            from("-02-29T") && leap,
            from("-02-28T") && common,
            from("-02-28T") && leap,
            from("-03-01T") && made,
            from("-12-31T") && made,
            from("-01-01T") && made,
            common,
            leap,
            to(|end| end.starts_with("9999-")),
            to(|end| end == "9999-12-31T23:59:59.999Z"),
            self.copies && made,
            self.clock < self.now && made,
            late,
            late && year_of(&now) + self.years == 10000 && from("-01-01T00:00:00.000Z"),
            late && self.copies,
        ]
    }
}
