//! What each verb does: refusals 7 to 12 in their order, and then the change.
use crate::answers::Answer;
use crate::bucket::{
    block, Block, Bucket, Row, BODY, DATA, HOLD, KIND, LENGTH, MARKER, MODE, UNTIL, VERSION,
};
use crate::bytes::same_64;
use crate::dates;
use crate::locks::{admits, locked};
use crate::refusals::{refuse, DATE_TOO_FAR, FULL, IS_MARKER, LOCKED, NO_ROW, NUMBERS_SPENT};
use crate::requests::{Name, Period, Retention, Verb};
use crate::settings::{DefaultRetention, Rule, SPENT};

/// A key, and the place where its current version stands or its first row would.
struct Top {
    key: Block,
    at: usize,
}

impl Bucket {
    /// Judges a screened verb and, if nothing refuses it, carries it out.
    pub fn carry_out(&mut self, verb: &Verb, now: u64) -> Result<Answer, u64> {
        match *verb {
            Verb::Put { key, body, length, retention, hold } => {
                let top = self.top(key);
                match self.retried(&top, body, length) {
                    Some(number) => Ok(Answer::Added(number)),
                    None => self.put(top, [body, length], retention, hold, now),
                }
            }
            Verb::Copy { source, target, retention, hold } => {
                let row = self.rows[self.named_data(source)?];
                self.put(self.top(target), [row[BODY], row[LENGTH]], retention, hold, now)
            }
            Verb::Retain { name, retention, bypass } => self.retain(name, retention, bypass, now),
            Verb::Hold { name, on } => {
                let at = self.named_data(name)?;
                self.rows[at][HOLD] = u64::from(on);
                Ok(Answer::Plain)
            }
            Verb::Delete { name, bypass } => match name.version {
                None => self.mark(name.key, now),
                Some(number) => self.delete(name, number, bypass, now),
            },
            Verb::Default { mode, period } => Ok(self.set_default(mode, period)),
            Verb::Rule { number, prefix, current, noncurrent } => {
                let rule = Rule { prefix: block(prefix), current, noncurrent };
                self.settings.rules[number] = if rule.is_set() { rule } else { Rule::ABSENT };
                Ok(Answer::Plain)
            }
            Verb::Sweep => self.sweep(now).map(Answer::Swept),
            Verb::Get { name } => self.named_data(name).map(Answer::Got),
            Verb::List { prefix, after, count } => Ok(Answer::Listed(self.page(prefix, after, count))),
            Verb::Report { prefix } => Ok(Answer::Reported(self.report(prefix, now))),
        }
    }

    #[inline(always)]
    fn named(&self, name: Name) -> Result<usize, u64> {
        self.find(&block(name.key), name.version).ok_or(NO_ROW)
    }

    fn named_data(&self, name: Name) -> Result<usize, u64> {
        let at = self.named(name)?;
        refuse(self.rows[at][KIND] == MARKER, IS_MARKER)?;
        Ok(at)
    }

    #[inline(always)]
    fn top(&self, key: &[u8]) -> Top {
        let key = block(key);
        Top { at: self.first_place(&key), key }
    }

    /// The number of the key's current row, if it is data with the same body and length: then a PUT is a retry.
    fn retried(&self, top: &Top, body: u64, length: u64) -> Option<u64> {
        if !self.keys.get(top.at).is_some_and(|key| same_64(key, &top.key)) {
            return None;
        }
        let row = &self.rows[top.at];
        (row[KIND] == DATA && row[BODY] == body && row[LENGTH] == length).then_some(row[VERSION])
    }

    /// Refusals 11 and 12.
    pub fn fits(&self, removed: usize, added: usize) -> Result<(), u64> {
        refuse(added as u64 > SPENT - self.settings.next, NUMBERS_SPENT)?;
        refuse(self.used() - removed + added > self.capacity(), FULL)
    }

    /// Adds a row with the next number before the key's other rows.
    #[inline(always)]
    fn add(&mut self, top: Top, mut row: Row) -> Result<u64, u64> {
        self.fits(0, 1)?;
        let number = self.settings.next;
        row[VERSION] = number;
        self.insert(top.at, row, &top.key);
        self.settings.next += 1;
        Ok(number)
    }

    /// The mode and date of a new data row; the default applies where no mode is given.
    fn new_retention(&self, given: Retention, now: u64) -> Result<[u64; 2], u64> {
        if let (Some(mode), Some(date)) = (given.mode, given.date) {
            return Ok([mode, date]);
        }
        let default = &self.settings.default;
        if default.mode == 0 {
            return Ok([0, 0]);
        }
        let date = default.end(now);
        refuse(date > dates::LAST, DATE_TOO_FAR)?;
        Ok([default.mode, date])
    }

    #[inline(always)]
    fn put(
        &mut self,
        top: Top,
        [body, length]: [u64; 2],
        retention: Retention,
        hold: Option<bool>,
        now: u64,
    ) -> Result<Answer, u64> {
        let [mode, until] = self.new_retention(retention, now)?;
        let hold = u64::from(hold == Some(true));
        self.add(top, [0, DATA, now, body, length, mode, until, hold]).map(Answer::Added)
    }

    fn mark(&mut self, key: &[u8], now: u64) -> Result<Answer, u64> {
        self.add(self.top(key), [0, MARKER, now, 0, 0, 0, 0, 0]).map(Answer::Marked)
    }

    fn retain(&mut self, name: Name, wish: Retention, bypass: bool, now: u64) -> Result<Answer, u64> {
        let at = self.named_data(name)?;
        refuse(!admits(&self.rows[at], now, bypass, wish), LOCKED)?;
        self.rows[at][MODE] = wish.mode.unwrap_or(0);
        self.rows[at][UNTIL] = wish.date.unwrap_or(0);
        Ok(Answer::Plain)
    }

    fn delete(&mut self, name: Name, number: u64, bypass: bool, now: u64) -> Result<Answer, u64> {
        let at = self.named(name)?;
        refuse(locked(&self.rows[at], now, bypass), LOCKED)?;
        let marker = self.rows[at][KIND] == MARKER;
        self.remove(at);
        Ok(Answer::Removed { number, marker })
    }

    fn set_default(&mut self, mode: Option<u64>, period: Option<Period>) -> Answer {
        self.settings.default = match (mode, period) {
            (Some(mode), Some(Period { count, unit })) => DefaultRetention { mode, count, unit },
            _ => DefaultRetention::default(),
        };
        Answer::Plain
    }
}
