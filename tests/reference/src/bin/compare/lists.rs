//! One list of lines, from a fresh bucket or a filled one.
use crate::carried::{self, Carried, Released};
use crate::comparisons::Comparisons;
use crate::damage;
use crate::lines::{near_midnight, some_day, Maker, START};
use crate::midnights::{Midnights, Sweep};
use crate::mutate::mutated;
use crate::random::Random;
use crate::sides::{asks_for, put_in, Fault, Put, Side, Sides};
use crate::tally::Tally;
use crate::totals::{self, Report};
use crate::{numbers, pages, plain};
use reference::answers::{page_buffer, LEAST_BUFFER};
use reference::bucket::{block, HOLD, MODE, UNTIL};
use reference::dates::{self, DAY, LAST};
use reference::settings::SPENT;
use reference::Bucket;

/// How one list is served.
struct List<'a> {
    sides: Sides,
    random: Random,
    keys: usize,
    /// The PUTs that have added rows, to be sent again.
    puts: Vec<String>,
    /// What was carried over at some moment, until something other than a line changes the bucket.
    carried: Option<Carried>,
    tally: &'a mut Tally,
}

fn some_capacity(random: &mut Random) -> usize {
    match random.below(40) {
        0..=23 => 1 + random.below(8),
        24..=35 => 9 + random.below(40),
        36..=38 => 50 + random.below(200),
        _ => 1024 - random.below(2) * random.below(700),
    }
}

/// A bucket that the reference has filled to some height, and the PUTs that filled it.
fn filled(capacity: usize, random: &mut Random) -> (Side, Vec<String>) {
    let mut bucket = Bucket::fresh(capacity);
    let mut answer = [0; 256];
    let mut puts = Vec::new();
    let last = some_day(random);
    for number in 0..capacity - random.below(capacity.min(4)) {
        let before = (capacity - 1 - number) as u64 * 27 * DAY / capacity as u64;
        let created = near_midnight(last - before, random);
        let clock = String::from_utf8_lossy(&dates::print(created)).into_owned();
        let key = random.below(capacity);
        let line = format!("{clock}\tw\tPUT\ta/{key}\t{number}\t1\t-\t-\t-");
        bucket.serve(line.as_bytes(), &mut answer).expect("the table has room");
        puts.push(line);
    }
    let mut side = Side::new(capacity);
    bucket.to_bytes(side.settings.bytes(), side.rows.bytes(), side.keys.bytes());
    (side, puts)
}

/// What to print of a line in which the sides differ.
fn shown(line: &[u8]) -> String {
    format!("line \"{}\" ({} bytes)", line.escape_ascii(), line.len())
}

/// Which of refusals 10, 11 and 12 a retry that left this bucket would have met as another PUT.
fn spared(bucket: &Bucket, put: &Put) -> [bool; 3] {
    let settings = &bucket.settings;
    let takes_default = settings.default.mode != 0 && put.retention.mode.is_none();
    [
        takes_default && settings.default.end(settings.time) > LAST,
        settings.next == SPENT,
        bucket.used() == bucket.capacity(),
    ]
}

/// Whether a retry that left this bucket named a lock that its row doesn't have.
fn drops_lock(bucket: &Bucket, put: &Put) -> bool {
    let row = bucket.rows[bucket.first_place(&block(put.key))];
    let other_mode = put.retention.mode.is_some_and(|mode| mode != row[MODE]);
    let other_date = put.retention.date.is_some_and(|date| date != row[UNTIL]);
    other_mode || other_date || put.hold == Some(true) && row[HOLD] == 0
}

impl List<'_> {
    fn maker(&mut self) -> Maker<'_> {
        Maker { random: &mut self.random, side: &self.sides.engine, keys: self.keys }
    }

    /// Some PUT of the list, mostly one of the last.
    fn some_put(&mut self) -> Option<String> {
        let last = if self.random.once_in(3) { self.puts.len() } else { self.puts.len().min(4) };
        let back = self.random.below(last.max(1));
        self.puts.iter().rev().nth(back).cloned()
    }

    fn line(&mut self) -> Vec<u8> {
        let sent = if self.random.once_in(8) { self.some_put() } else { None };
        let line = match sent {
            Some(put) => self.maker().again(&put),
            None => self.maker().line(),
        };
        if self.random.once_in(10) {
            mutated(line.as_bytes(), &mut self.random)
        } else {
            line.into_bytes()
        }
    }

    /// The length of a line's answer buffer: at, below or above the least that serves it.
    fn some_room(&mut self, line: &[u8]) -> usize {
        let least = asks_for(line).map_or(LEAST_BUFFER, page_buffer);
        match self.random.below(40) {
            0 => self.random.below(LEAST_BUFFER),
            1 => LEAST_BUFFER - 1,
            2..=5 => least + 1 + self.random.below(100),
            6 => 65536,
            7..=12 if least > LEAST_BUFFER => self.random.pick(&[LEAST_BUFFER, least - 1, least - 1]),
            13 if least > LEAST_BUFFER => self.random.below(least),
            _ => least,
        }
    }

    /// An answer buffer of a length that is full of junk, and a number that is junk for the count of comparisons.
    fn lend_answer(&mut self, length: usize) {
        let junk = self.random.next();
        self.sides.engine.comparisons = junk;
        let answer = &mut self.sides.engine.answer;
        answer.refill(length, junk as u8);
        for (at, byte) in answer.bytes().iter_mut().take(400).enumerate() {
            *byte = (junk >> (at % 57)) as u8;
        }
    }

    fn serve(&mut self, line: &[u8]) -> Result<(), String> {
        let room = self.some_room(line);
        self.serve_in(room, line).map(drop)
    }

    fn serve_in(&mut self, room: usize, line: &[u8]) -> Result<u64, String> {
        self.lend_answer(room);
        let next = self.sides.engine.next_number();
        let released = self.carried.as_ref().and_then(|_| carried::released(line, &self.sides.engine));
        let served = self.sides.serve(line).map_err(|difference| format!("{}\n{difference}", shown(line)))?;
        self.tally.count(line, served.number);
        self.tally.count_numbers(numbers::kinds(line, served.number, next, &self.sides.engine));
        if served.number == 0 {
            self.check_carried(released).map_err(|said| format!("{}\n{said}", shown(line)))?;
        }
        if let Some(sweep) = &served.swept {
            self.check_sweep(sweep, served.comparisons).map_err(|said| format!("{}\n{said}", shown(line)))?;
        }
        if let Some(contract) = &served.contract {
            let checked = contract.check(served.number, &self.sides.engine);
            checked.map_err(|said| format!("{}\n{said}", shown(line)))?;
            self.tally.count_years(contract, served.number);
        }
        match put_in(line) {
            Some(put) if served.retried => {
                let bucket = self.bucket();
                self.tally.count_retry(spared(&bucket, &put), drops_lock(&bucket, &put));
            }
            Some(_) if served.number == 0 => {
                self.puts.push(String::from_utf8(line.to_vec()).expect("accepted lines are ASCII"));
            }
            _ => {}
        }
        Ok(served.number)
    }

    /// Has the bucket carried over as it is: from here on what it holds is held.
    fn carry_over(&mut self) {
        self.carried = Carried::of(&self.sides.engine);
        self.tally.buckets += u64::from(self.carried.is_some());
    }

    /// Whether what was carried over is held after an accepted line, but for what the line has released.
    fn check_carried(&mut self, released: Option<Released>) -> Result<(), String> {
        let Some(carried) = &mut self.carried else { return Ok(()) };
        released.iter().for_each(|released| carried.release(released));
        if self.sides.fault == Fault::Carried {
            carried.spoil(&mut self.sides.engine, &mut self.random);
        }
        let rows = carried.check(&self.sides.engine)?;
        self.tally.count_carried(rows);
        Ok(())
    }

    /// Judges a sweep a second time: the rows whose midnights have come, and how many comparisons it was to make.
    fn check_sweep(&mut self, sweep: &Sweep, counted: u64) -> Result<(), String> {
        let midnights = Midnights::of(sweep);
        if !self.sides.engine.answer.seen().starts_with(midnights.answer().as_bytes()) {
            return Err("the rows whose midnights have come are others".into());
        }
        let comparisons = Comparisons::of(&sweep.bucket);
        if comparisons.count() != counted {
            return Err(format!("{counted} are counted, rules times keys are {}", comparisons.count()));
        }
        self.tally.count_sweep(&midnights, sweep.now);
        self.tally.count_comparisons(&comparisons);
        Ok(())
    }

    fn bucket(&self) -> Bucket {
        self.sides.engine.bucket().expect("an accepted line leaves a sound bucket")
    }

    /// The rows of the bucket, looked at one by one, that pages of a prefix are to show.
    fn matching(&self, prefix: &str) -> Vec<String> {
        let mut rows = plain::matching(&self.bucket(), prefix);
        if self.sides.fault == Fault::Following {
            rows.pop();
        }
        rows
    }

    /// Serves a line that nothing is to refuse, in an answer buffer of a length.
    fn serve_accepted(&mut self, room: usize, line: &[u8]) -> Result<(), String> {
        match self.serve_in(room, line)? {
            0 => Ok(()),
            number => Err(format!("{}\nrefused with {number}", shown(line))),
        }
    }

    /// The rows of the page after a place, as the engine's answer shows them.
    fn page(&mut self, prefix: &str, place: &str, count: usize) -> Result<Vec<String>, String> {
        let line = self.maker().page(prefix, place, count);
        self.serve_accepted(page_buffer(count), &line)?;
        pages::shown(self.sides.engine.answer.seen()).ok_or(format!("{}\nno page is shown", shown(&line)))
    }

    /// The rows that the pages of a prefix show, up to their end or to more than there can be.
    fn followed(&mut self, prefix: &str, count: usize, most: usize) -> Result<Vec<String>, String> {
        let (mut rows, mut place) = (Vec::new(), START.to_string());
        loop {
            let page = self.page(prefix, &place, count)?;
            let full = page.len() == count;
            rows.extend(page);
            self.tally.pages += 1;
            if !full || rows.len() > most {
                self.tally.rows += rows.len() as u64;
                return Ok(rows);
            }
            place = pages::place_of(&rows[rows.len() - 1]);
        }
    }

    /// Follows the pages of a prefix to their end: they show every matching row once and no others, and come to what a
    /// REPORT prints before them and after them.
    fn follow(&mut self) -> Result<(), String> {
        let (prefix, count) = self.maker().pages();
        let matching = self.matching(&prefix);
        let before = self.report(&prefix)?;
        let rows = self.followed(&prefix, count, matching.len())?;
        let after = self.report(&prefix)?;
        if rows != matching {
            return Err(format!(
                "pages of {count} rows of the prefix {prefix:?} show other rows than match it"
            ));
        }
        for report in [before, after] {
            let totals = self.check_report(&report, &rows);
            totals.map_err(|said| format!("the prefix {prefix:?}, pages of {count} rows: {said}"))?;
            self.tally.count_report(report.kinds(&rows, rows.len() >= count));
        }
        Ok(())
    }

    /// The REPORT of a prefix, in the least answer buffer.
    fn report(&mut self, prefix: &str) -> Result<Report, String> {
        let (clock, line) = self.maker().report(prefix);
        self.serve_accepted(LEAST_BUFFER, &line)?;
        let side = &self.sides.engine;
        let answer = side.answer.seen().split_inclusive(|&byte| byte == b'\n').next().unwrap_or(b"");
        let answer = String::from_utf8_lossy(answer).into_owned();
        Ok(Report { answer, clock, now: side.settings.word(0) })
    }

    /// Compares what a REPORT printed with the totals of the rows that pages show.
    fn check_report(&self, report: &Report, rows: &[String]) -> Result<(), String> {
        let early = u64::from(self.sides.fault == Fault::Totals);
        let totals = totals::answer(rows, report.now.saturating_sub(early));
        if report.answer != totals {
            return Err(format!("their totals are {totals:?}, a report printed {:?}", report.answer));
        }
        Ok(())
    }

    /// Follows pages whose rows are likely to have dates that come.
    fn pass_dates(&mut self) -> Result<(), String> {
        self.maker().locks().iter().try_for_each(|line| self.serve(line.as_bytes()))?;
        self.follow()
    }

    fn pass_midnight(&mut self) -> Result<(), String> {
        self.maker().night().iter().try_for_each(|line| self.serve(line.as_bytes()))
    }

    /// Passes days that tell how years are counted; some of the lines are served on a damaged bucket too.
    fn pass_years(&mut self) -> Result<(), String> {
        for line in self.maker().contract() {
            if self.random.once_in(10) {
                self.serve_changed(damage::bucket, line.as_bytes())?;
            }
            self.serve(line.as_bytes())?;
        }
        Ok(())
    }

    /// Meets the end of the numbers on the bucket as it is carried over with few left, and then puts the bucket back.
    fn pass_the_end(&mut self) -> Result<(), String> {
        let (before, held) = (self.sides.engine.clone(), self.carried.take());
        damage::leave_few(&mut self.sides.engine, &mut self.random);
        self.carry_over();
        self.maker().ending().iter().try_for_each(|line| self.serve(line.as_bytes()))?;
        self.follow()?;
        self.sides.engine = before;
        self.carried = held;
        Ok(())
    }

    /// Changes the bucket as no line does, and has it carried over from there.
    fn change(&mut self) {
        damage::sound_change(&mut self.sides.engine, &mut self.random);
        self.carry_over();
    }

    /// Serves a line on a bucket that something was done to, and then puts the bucket back.
    fn serve_changed(&mut self, change: fn(&mut Side, &mut Random), line: &[u8]) -> Result<(), String> {
        let (before, held) = (self.sides.engine.clone(), self.carried.take());
        change(&mut self.sides.engine, &mut self.random);
        self.serve(line)?;
        if self.random.once_in(8) {
            self.ask_keys()?;
            self.make_fresh()?;
        }
        self.sides.engine = before;
        self.carried = held;
        Ok(())
    }

    fn make_fresh(&mut self) -> Result<(), String> {
        let words = self.random.once_in(2);
        let number = self.sides.fresh(words).map_err(|difference| format!("fresh\n{difference}"))?;
        self.tally.fresh[number as usize] += 1;
        Ok(())
    }

    fn ask_keys(&mut self) -> Result<(), String> {
        self.tally.keys += self.sides.keys()? as u64;
        Ok(())
    }

    fn step(&mut self) -> Result<(), String> {
        let line = self.line();
        match self.random.below(60) {
            0..=2 => self.serve_changed(damage::bucket, &line)?,
            3 => self.serve_changed(damage::lengths, &line)?,
            4 if self.random.once_in(2) => self.change(),
            5 if self.random.once_in(3) => self.follow()?,
            6 if self.random.once_in(3) => self.pass_midnight()?,
            7 if self.random.once_in(3) => self.pass_years()?,
            8 if self.random.once_in(3) => self.pass_dates()?,
            9 if self.random.once_in(3) => self.pass_the_end()?,
            10 => self.carry_over(),
            _ => {}
        }
        self.serve(&line)
    }
}

/// Serves the next list of a run; an error says in which line the sides differ.
pub fn run(seed: u64, fault: Fault, tally: &mut Tally) -> Result<(), String> {
    let mut random = Random::new(seed, tally.lists);
    let capacity = some_capacity(&mut random);
    let fill = capacity > 8 && random.once_in(3);
    let (side, puts) = if fill { filled(capacity, &mut random) } else { (Side::new(capacity), Vec::new()) };
    let keys = 1 + random.below(8);
    let steps = 50 + random.below(300);
    let mut list = List { sides: Sides::new(side, fault), random, keys, puts, carried: None, tally };
    if !fill {
        list.make_fresh()?;
    }
    list.carry_over();
    for step in 0..steps {
        list.step().map_err(|said| format!("step {step}, capacity {capacity}, {said}"))?;
    }
    list.pass_dates()?;
    list.ask_keys()?;
    list.tally.served(&list.sides.served);
    Ok(())
}
