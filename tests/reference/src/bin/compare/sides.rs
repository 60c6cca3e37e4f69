//! The sides that are compared: equal buffers, lent to two entries of the engine and to the reference.
use crate::carried::ONCE_SPENT;
use crate::comparisons::Comparisons;
use crate::midnights::Sweep;
use crate::years::Contract;
use crate::{engine, pages};
use reference::refusals::NUMBERS_SPENT;
use reference::requests::{self, Retention, Verb};
use reference::settings::{word, BYTES};
use reference::Bucket;

/// The bytes before and after each lent buffer, which nobody may touch.
const GUARD: usize = 32;
const GUARD_BYTE: u8 = 0xA5;

/// A buffer with guards around it.
#[derive(Clone, PartialEq, Eq)]
pub struct Lent {
    whole: Vec<u8>,
}

impl Lent {
    pub fn new(length: usize) -> Lent {
        let mut lent = Lent { whole: vec![GUARD_BYTE; length + 2 * GUARD] };
        lent.bytes().fill(0);
        lent
    }

    pub fn bytes(&mut self) -> &mut [u8] {
        let end = self.whole.len() - GUARD;
        &mut self.whole[GUARD..end]
    }

    pub fn seen(&self) -> &[u8] {
        &self.whole[GUARD..self.whole.len() - GUARD]
    }

    /// Makes the buffer of a length and fills it with a byte.
    pub fn refill(&mut self, length: usize, byte: u8) {
        if self.seen().len() != length {
            *self = Lent::new(length);
        }
        self.bytes().fill(byte);
    }

    /// Makes the buffer longer with zeros or shorter.
    pub fn resize(&mut self, length: usize) {
        let mut bytes = self.seen().to_vec();
        bytes.resize(length, 0);
        *self = Lent::new(length);
        self.bytes().copy_from_slice(&bytes);
    }

    pub fn word(&self, at: usize) -> u64 {
        word(&self.seen()[at..at + 8])
    }

    pub fn set_word(&mut self, at: usize, value: u64) {
        self.bytes()[at..at + 8].copy_from_slice(&value.to_le_bytes());
    }

    fn first_difference(&self, other: &Lent) -> Option<usize> {
        (0..self.whole.len()).find(|&at| self.whole[at] != other.whole[at])
    }
}

/// A bucket in bytes, the answer buffer, and the number that is lent for the count of comparisons.
#[derive(Clone, PartialEq, Eq)]
pub struct Side {
    pub settings: Lent,
    pub rows: Lent,
    pub keys: Lent,
    pub answer: Lent,
    pub comparisons: u64,
}

impl Side {
    pub fn new(capacity: usize) -> Side {
        let table = Lent::new(64 * capacity);
        let (settings, answer) = (Lent::new(BYTES), Lent::new(256));
        Side { settings, rows: table.clone(), keys: table, answer, comparisons: 0 }
    }

    /// Has an entry that doesn't count serve a line.
    fn serve(&mut self, serve: Serve, line: &[u8]) -> u64 {
        serve(self.settings.bytes(), self.rows.bytes(), self.keys.bytes(), line, self.answer.bytes())
    }

    /// Has the engine's entry that counts serve a line.
    fn serve_counted(&mut self, line: &[u8]) -> u64 {
        engine::serve_counted(
            self.settings.bytes(),
            self.rows.bytes(),
            self.keys.bytes(),
            line,
            self.answer.bytes(),
            &mut self.comparisons,
        )
    }

    /// Has the reference serve a line: a refusal leaves the count as it was.
    fn serve_reference(&mut self, line: &[u8]) -> u64 {
        let counted = reference::serve_bytes_counted(
            self.settings.bytes(),
            self.rows.bytes(),
            self.keys.bytes(),
            line,
            self.answer.bytes(),
        );
        self.comparisons = counted.unwrap_or(self.comparisons);
        counted.err().unwrap_or(0)
    }

    /// The next version number that the settings say.
    pub fn next_number(&self) -> u64 {
        self.settings.word(16)
    }

    /// The bucket that the bytes say, if it is sound.
    pub fn bucket(&self) -> Option<Bucket> {
        Bucket::from_bytes(self.settings.seen(), self.rows.seen(), self.keys.seen()).filter(Bucket::sound)
    }

    /// Makes the side what a sweep without rounding leaves, where that fits.
    fn sweep_unrounded(&mut self, sweep: &Sweep) {
        if let Ok((bucket, counts)) = sweep.unrounded() {
            bucket.to_bytes(self.settings.bytes(), self.rows.bytes(), self.keys.bytes());
            let said = format!("ok\t{}\t{}\n", counts.removed, counts.added);
            self.answer.bytes()[..said.len()].copy_from_slice(said.as_bytes());
        }
    }

    /// Where the other side differs, in words.
    fn difference(&self, other: &Side) -> Option<String> {
        let parts = [
            ("settings", &self.settings, &other.settings),
            ("rows", &self.rows, &other.rows),
            ("keys", &self.keys, &other.keys),
            ("answer", &self.answer, &other.answer),
        ];
        parts.into_iter().filter(|(_, one, two)| one != two).find_map(|(name, one, two)| {
            let at = one.first_difference(two)?;
            let (was, is) = (one.whole[at], two.whole[at]);
            let place = at as i64 - GUARD as i64;
            Some(format!("{name}, byte {place}: the engine has {was:#04x}, the reference {is:#04x}"))
        })
    }
}

/// The entries that serve a line and don't count, by name: they take turns, and the one that counts serves each line too.
pub const ENTRIES: [(&str, Serve); 3] =
    [("serve", engine::serve), ("serve_words", engine::serve_words), ("serve_lent", engine::serve_lent)];
type Serve = fn(&mut [u8], &mut [u8], &mut [u8], &[u8], &mut [u8]) -> u64;

/// A fault that is planted on purpose, so that a difference must be found.
#[derive(Clone, Copy, PartialEq, Eq)]
pub enum Fault {
    None,
    /// In each answer of the reference.
    Answer,
    /// In the last row of each page of the reference.
    Page,
    /// In the rows that followed pages are held to.
    Following,
    /// In the reference's answer to each retry.
    Retry,
    /// In the reference's sweeps, which don't round.
    Midnight,
    /// In the reference's counts, by a comparison of the rules with the key of each row.
    Count,
    /// In the dates that the reference takes from a default of years, which have 365 days.
    Years,
    /// In the totals of followed pages, which count a date equal to now as one that locks.
    Totals,
    /// In rows that were carried over, which lose a hold or a millisecond on all sides alike.
    Carried,
    /// In the reference's numbers, which are spent where those of 32 bits were.
    Spent,
}

impl Fault {
    pub fn read(word: &str) -> Option<Fault> {
        match word {
            "answer" => Some(Fault::Answer),
            "page" => Some(Fault::Page),
            "following" => Some(Fault::Following),
            "retry" => Some(Fault::Retry),
            "midnight" => Some(Fault::Midnight),
            "count" => Some(Fault::Count),
            "years" => Some(Fault::Years),
            "totals" => Some(Fault::Totals),
            "carried" => Some(Fault::Carried),
            "spent" => Some(Fault::Spent),
            _ => None,
        }
    }

    /// Spoils what an accepted line left.
    fn spoil(self, line: &[u8], served: &Served, side: &mut Side) {
        let answer = side.answer.bytes();
        match (self, &served.swept, &served.contract) {
            (Fault::Answer, _, _) => answer[0] ^= 1,
            (Fault::Retry, _, _) if served.retried => answer[0] ^= 1,
            (Fault::Page, _, _) if asks_for(line).is_some() => spoil_last_row(answer),
            (Fault::Midnight, Some(sweep), _) => side.sweep_unrounded(sweep),
            (Fault::Count, Some(sweep), _) => side.comparisons = Comparisons::of(&sweep.bucket).by_rows(),
            (Fault::Years, _, Some(contract)) => contract.spoil(side),
            _ => {}
        }
    }
}

/// The count of the page that a line asks for, if it can be read and is a LIST.
pub fn asks_for(line: &[u8]) -> Option<usize> {
    match requests::read(line)?.verb {
        Verb::List { count, .. } => Some(count),
        _ => None,
    }
}

/// The clock of the sweep that a line is, if it can be read and is one.
fn sweeps_at(line: &[u8]) -> Option<u64> {
    let request = requests::read(line)?;
    matches!(request.verb, Verb::Sweep).then_some(request.clock)
}

/// A PUT's key and its lock fields.
pub struct Put<'a> {
    pub key: &'a [u8],
    pub retention: Retention,
    pub hold: Option<bool>,
}

/// The PUT that a line is, if it can be read and is one.
pub fn put_in(line: &[u8]) -> Option<Put<'_>> {
    match requests::read(line)?.verb {
        Verb::Put { key, retention, hold, .. } => Some(Put { key, retention, hold }),
        _ => None,
    }
}

/// Alters the last byte of a page's last row, if it shows one.
fn spoil_last_row(answer: &mut [u8]) {
    let rows = pages::shown(answer).expect("the reference's page can be read");
    let bytes: usize = rows.iter().map(|row| row.len() + 1).sum();
    let first = answer.iter().position(|&byte| byte == b'\n').expect("its first line ends");
    if bytes > 0 {
        answer[first + bytes - 1] ^= 1;
    }
}

/// What all sides made of a line.
pub struct Served {
    pub number: u64,
    /// What stands where its comparisons are counted.
    pub comparisons: u64,
    /// Whether it is a PUT that was accepted and took no version number.
    pub retried: bool,
    /// The sweep that it is, if it was accepted as one.
    pub swept: Option<Sweep>,
    /// What it is under a default of years, if 10 to 12 could meet it.
    pub contract: Option<Contract>,
}

/// The engine's bytes; the entry that counts and the reference work on copies of them.
pub struct Sides {
    pub engine: Side,
    counted: Side,
    reference: Side,
    pub fault: Fault,
    /// How often each entry that takes turns has served a line.
    pub served: [u64; ENTRIES.len()],
}

impl Sides {
    pub fn new(side: Side, fault: Fault) -> Sides {
        let [engine, counted] = [side.clone(), side.clone()];
        Sides { engine, counted, reference: side, fault, served: [0; ENTRIES.len()] }
    }

    /// The entry whose turn it is, of those that such lengths can be lent to.
    fn entry(&self) -> usize {
        let whole = self.engine.rows.seen().len() % 8 == 0;
        let fitting = match (whole, self.engine.settings.seen().len()) {
            (false, _) => 1,
            (true, BYTES) => 3,
            (true, _) => 2,
        };
        self.served.iter().sum::<u64>() as usize % fitting
    }

    /// Has all sides serve a line: what they made of it, or what differs.
    pub fn serve(&mut self, line: &[u8]) -> Result<Served, String> {
        self.reference.clone_from(&self.engine);
        self.counted.clone_from(&self.engine);
        let entry = self.entry();
        self.served[entry] += 1;
        let (name, serve) = ENTRIES[entry];
        let next = self.engine.next_number();
        let swept = self.sweep(line);
        let engine = self.engine.serve(serve, line);
        let counted = self.counted.serve_counted(line);
        let number = self.serve_reference(line);
        let retried = number == 0 && self.reference.next_number() == next && put_in(line).is_some();
        let comparisons = self.counted.comparisons;
        let swept = swept.filter(|_| number == 0);
        let judged = !retried && matches!(number, 0 | 10..=12);
        let contract = if judged { Contract::of(line, &self.reference) } else { None };
        let served = Served { number, comparisons, retried, swept, contract };
        if number == 0 {
            self.fault.spoil(line, &served, &mut self.reference);
        }
        self.agreed(&self.engine, engine, number).map_err(|said| format!("{name}: {said}"))?;
        let agreed = self.agreed(&self.counted, counted, number).and_then(|_| self.counted_alike());
        agreed.map_err(|said| format!("serve_counted: {said}"))?;
        Ok(served)
    }

    /// Has the reference serve a line.
    fn serve_reference(&mut self, line: &[u8]) -> u64 {
        let next = self.reference.next_number();
        let number = self.reference.serve_reference(line);
        let adds_past = number == 0 && self.reference.next_number() > next.max(ONCE_SPENT);
        if self.fault == Fault::Spent && adds_past {
            return NUMBERS_SPENT;
        }
        number
    }

    /// The sweep that a line is, if it can be read as one and the bucket is sound.
    fn sweep(&self, line: &[u8]) -> Option<Sweep> {
        let clock = sweeps_at(line)?;
        let bucket = self.engine.bucket()?;
        Some(Sweep { now: clock.max(bucket.settings.time), bucket })
    }

    /// Has both make a fresh bucket, of rows as words where they are whole words and those are asked for.
    pub fn fresh(&mut self, words: bool) -> Result<u64, String> {
        self.reference.clone_from(&self.engine);
        let words = words && self.engine.rows.seen().len() % 8 == 0;
        let fresh = if words { engine::fresh_words } else { engine::fresh };
        let (one, two) = (&mut self.engine, &mut self.reference);
        let engine = fresh(one.settings.bytes(), one.rows.bytes(), one.keys.bytes());
        let reference = reference::fresh_bytes(two.settings.bytes(), two.rows.bytes(), two.keys.bytes());
        self.agreed(&self.engine, engine, reference)
    }

    /// Has both say the key at each position of the table, at those behind it and at the last of all: how many are keys.
    pub fn keys(&self) -> Result<usize, String> {
        let side = &self.engine;
        let (settings, rows, keys) = (side.settings.seen(), side.rows.seen(), side.keys.seen());
        let expected = reference::keys_in_bytes(settings, rows, keys);
        let capacity = keys.len() / 64;
        for position in (0..capacity + 2).chain([1 << 58, usize::MAX]) {
            let said = engine::key(settings, rows, keys, position);
            let is = expected.get(position).map_or(&[][..], |key| key);
            if said != is {
                return Err(format!("the key at {position}: the engine has {said:?}, the reference {is:?}"));
            }
        }
        Ok(expected.len())
    }

    /// The number that a side of the engine and the reference returned, or what differs in it or in their bytes.
    fn agreed(&self, side: &Side, engine: u64, reference: u64) -> Result<u64, String> {
        if engine != reference {
            return Err(format!("the engine returned {engine}, the reference {reference}"));
        }
        side.difference(&self.reference).map_or(Ok(engine), Err)
    }

    /// Whether the counts are alike: after a refusal both are what was lent.
    fn counted_alike(&self) -> Result<(), String> {
        let [engine, reference] = [&self.counted, &self.reference].map(|side| side.comparisons);
        if engine != reference {
            return Err(format!(
                "the engine's count of comparisons is {engine}, the reference's {reference}"
            ));
        }
        Ok(())
    }
}
