//! The answers of accepted lines, and refusals in print.
use crate::bucket::{
    Block, Bucket, Row, BODY, CREATED, DATA, HOLD, KIND, LENGTH, MAX_KEY, MODE, UNTIL, VERSION,
};
use crate::bytes::{each, eight_digits};
use crate::dates;
use crate::pages::Page;
use crate::reports::Totals;
use crate::requests::{COMPLIANCE, GOVERNANCE};
use crate::sweep::Counts;

/// The first number that has more than eight digits.
const EIGHT: u64 = 100_000_000;

/// The least bytes that an answer buffer must have.
pub const LEAST_BUFFER: usize = 256;

/// The least bytes that the answer buffer of a page of so many rows must have.
pub const fn page_buffer(count: usize) -> usize {
    256 + 256 * count
}

#[derive(Clone, Copy, Debug, PartialEq, Eq)]
pub enum Answer {
    Plain,
    Added(u64),
    Marked(u64),
    Removed {
        number: u64,
        marker: bool,
    },
    Swept(Counts),
    /// The row at a place.
    Got(usize),
    Listed(Page),
    Reported(Totals),
}

impl Answer {
    /// How often the line compared a rule's prefix with a key: only sweeps do.
    pub fn comparisons(&self) -> u64 {
        match self {
            Answer::Swept(counts) => counts.comparisons,
            _ => 0,
        }
    }
}

/// Room for an answer's first line, which has 99 bytes at most, and for what is written behind it.
const FIRST_LINE: usize = 128;
/// Room for a row's line, which has 192 bytes at most, and for what is written behind it.
const ROW_LINE: usize = 256;

/// A buffer that is filled from its start. What is written may have bytes behind it that count for nothing.
struct Writer<'a> {
    buffer: &'a mut [u8],
    length: usize,
}

impl Writer<'_> {
    /// Writes bytes of which only the first so many count.
    #[inline(always)]
    fn put<const N: usize>(&mut self, bytes: [u8; N], count: usize) {
        self.buffer[self.length..self.length + N].copy_from_slice(&bytes);
        self.length += count;
    }

    #[inline(always)]
    fn text<const N: usize>(&mut self, text: &[u8; N]) {
        self.put(*text, N);
    }

    #[inline(always)]
    fn word<const N: usize>(&mut self, word: &[u8; N]) {
        self.text(b"\t");
        self.text(word);
    }

    /// Writes a number by eight digits at a time, the first ones without leading zeros.
    #[inline(always)]
    fn number(&mut self, value: u64) {
        self.text(b"\t");
        if value < EIGHT {
            self.first_digits(value);
        } else if value < EIGHT * EIGHT {
            self.first_digits(value / EIGHT);
            self.eight_digits(value % EIGHT);
        } else {
            self.first_digits(value / EIGHT / EIGHT);
            self.eight_digits(value / EIGHT % EIGHT);
            self.eight_digits(value % EIGHT);
        }
    }

    #[inline(always)]
    fn first_digits(&mut self, value: u64) {
        let digits = eight_digits(value);
        // The last digit stays, be it a zero.
        let zeros = (digits | 1 << 63).trailing_zeros() / 8;
        self.put(((digits + each(b'0')) >> (8 * zeros)).to_le_bytes(), 8 - zeros as usize);
    }

    #[inline(always)]
    fn eight_digits(&mut self, value: u64) {
        self.text(&(eight_digits(value) + each(b'0')).to_le_bytes());
    }

    #[inline(always)]
    fn date(&mut self, instant: u64) {
        self.text(b"\t");
        let room = &mut self.buffer[self.length..self.length + dates::PRINTED];
        dates::put(room.try_into().expect("the room has a date's length"), instant);
        self.length += dates::PRINTED;
    }

    #[inline(always)]
    fn row(&mut self, row: &Row) {
        self.number(row[VERSION]);
        self.number(row[BODY]);
        self.number(row[LENGTH]);
        self.lock(row);
    }

    /// Mode and date, each `-` where there is none, and hold.
    #[inline(always)]
    fn lock(&mut self, row: &Row) {
        match row[MODE] {
            GOVERNANCE => self.word(b"GOVERNANCE"),
            COMPLIANCE => self.word(b"COMPLIANCE"),
            _ => self.word(b"-"),
        }
        if row[MODE] == 0 {
            self.word(b"-");
        } else {
            self.date(row[UNTIL]);
        }
        if row[HOLD] == 1 {
            self.word(b"ON");
        } else {
            self.word(b"OFF");
        }
    }

    /// A row's line in a page.
    fn listed(&mut self, key: &Block, row: &Row) {
        let mut bytes = [0; MAX_KEY];
        bytes.copy_from_slice(&key[1..]);
        self.put(bytes, key[0] as usize);
        self.number(row[VERSION]);
        if row[KIND] == DATA {
            self.word(b"data");
            self.date(row[CREATED]);
            self.number(row[BODY]);
            self.number(row[LENGTH]);
        } else {
            self.word(b"marker");
            self.date(row[CREATED]);
            self.word(b"-");
            self.word(b"-");
        }
        self.lock(row);
        self.text(b"\n");
    }

    /// An answer's first line, which is all of it but for a page.
    #[inline(always)]
    fn first_line(&mut self, answer: &Answer, bucket: &Bucket) {
        self.text(b"ok");
        match *answer {
            Answer::Plain => {}
            Answer::Added(number) => self.number(number),
            Answer::Marked(number) => {
                self.number(number);
                self.word(b"marker");
            }
            Answer::Removed { number, marker } => {
                self.number(number);
                self.word(b"removed");
                if marker {
                    self.text(b"-marker");
                }
            }
            Answer::Swept(counts) => {
                self.number(counts.removed as u64);
                self.number(counts.added as u64);
            }
            Answer::Got(at) => self.row(&bucket.rows[at]),
            Answer::Listed(page) => self.number(page.rows as u64),
            Answer::Reported(Totals { data, markers, length, locked }) => {
                [data, markers, length, locked].into_iter().for_each(|number| self.number(number));
            }
        }
        self.text(b"\n");
    }
}

/// Writes lines at the start of a buffer by way of a room of their own, so that nothing behind them is touched.
#[inline(always)]
fn exactly<const ROOM: usize>(buffer: &mut [u8], write: impl FnOnce(&mut Writer)) -> usize {
    let mut room = [0; ROOM];
    let mut writer = Writer { buffer: &mut room, length: 0 };
    write(&mut writer);
    let length = writer.length;
    buffer[..length].copy_from_slice(&room[..length]);
    length
}

/// Writes an answer at the start of a buffer that is not too short for it, and says how long it is.
#[inline]
pub fn write(answer: &Answer, bucket: &Bucket, buffer: &mut [u8]) -> usize {
    match answer {
        Answer::Listed(page) if page.rows > 0 => write_page(answer, page, bucket, buffer),
        _ => exactly::<FIRST_LINE>(buffer, |writer| writer.first_line(answer, bucket)),
    }
}

/// Writes a page that has rows. What comes to stand behind a line is overwritten by the next one, which is longer; only behind
/// the last one nothing may.
fn write_page(answer: &Answer, page: &Page, bucket: &Bucket, buffer: &mut [u8]) -> usize {
    let last = page.from + page.rows - 1;
    let mut writer = Writer { buffer, length: 0 };
    writer.first_line(answer, bucket);
    for at in page.from..last {
        writer.listed(&bucket.keys[at], &bucket.rows[at]);
    }
    let length = writer.length;
    length
        + exactly::<ROW_LINE>(&mut buffer[length..], |writer| {
            writer.listed(&bucket.keys[last], &bucket.rows[last])
        })
}

/// Writes a refusal as the program prints it.
pub fn write_refusal(number: u64, buffer: &mut [u8]) -> usize {
    exactly::<FIRST_LINE>(buffer, |writer| {
        writer.text(b"no");
        writer.number(number);
        writer.text(b"\n");
    })
}
