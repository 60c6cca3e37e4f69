//! "Time and dates": instants, dates read and printed, midnights, and years by the calendar.
use crate::bytes::{at_most, digits, word};

/// The last instant, 9999-12-31T23:59:59.999Z.
pub const LAST: u64 = 253402300799999;
/// The milliseconds of a day.
pub const DAY: u64 = 86400000;
/// The bytes of a printed date.
pub const PRINTED: usize = 24;

/// The days of each month in a common year, and before it.
const DAYS_OF_MONTH: [u64; 12] = [31, 28, 31, 30, 31, 30, 31, 31, 30, 31, 30, 31];
const BEFORE_MONTH: [u64; 12] = [0, 31, 59, 90, 120, 151, 181, 212, 243, 273, 304, 334];

/// Whether a year divides by 4, or by 400 where it divides by 100.
fn leap(year: u64) -> bool {
    let counted = if year % 100 == 0 { year / 100 } else { year };
    counted % 4 == 0
}

fn leap_years_through(year: u64) -> u64 {
    let centuries = year / 100;
    year / 4 - centuries + centuries / 4
}

/// An instant rounded up to the next midnight UTC; one at midnight stays.
pub fn up_to_midnight(instant: u64) -> u64 {
    instant.div_ceil(DAY) * DAY
}

fn days_of_month(year: u64, month: u64) -> u64 {
    DAYS_OF_MONTH[month as usize - 1] + u64::from((month == 2) & leap(year))
}

/// A day of the calendar; its month and its day of the month count from 1.
#[derive(Debug, PartialEq, Eq)]
struct CalendarDay {
    year: u64,
    month: u64,
    day: u64,
}

impl CalendarDay {
    /// The day that comes so many days after 1970-01-01; inlined, since pages print many dates.
    ///
    /// Years are counted from March, so that a leap day ends its year, and from March of year 0, which is 719468 days earlier.
    /// Four centuries have 146097 days, and four years 1461, of which only a century that doesn't divide by 400 has one fewer,
    /// at its end. From March on, five months have 153 days.
    #[inline(always)]
    fn after(days: u64) -> CalendarDay {
        let quarter_days = 4 * (days + 719468) + 3;
        let century = quarter_days / 146097;
        let quarter_days = (quarter_days % 146097) | 3;
        let (year, day) = (100 * century + quarter_days / 1461, quarter_days % 1461 / 4);
        let month = (5 * day + 2) / 153;
        let day = day - (153 * month + 2) / 5 + 1;
        match month {
            0..=9 => CalendarDay { year, month: month + 3, day },
            _ => CalendarDay { year: year + 1, month: month - 9, day },
        }
    }

    /// The days from 1970-01-01 to this one: a leap day of its own year counts only from March on.
    #[inline(always)]
    fn days(&self) -> u64 {
        let CalendarDay { year, month, day } = *self;
        let leap_days =
            leap_years_through(year) - leap_years_through(1969) - u64::from((month < 3) & leap(year));
        (year - 1970) * 365 + leap_days + BEFORE_MONTH[month as usize - 1] + day - 1
    }

    /// The same month and day so many years later; 29 February becomes the 28th where the later year has none.
    fn years_later(&self, years: u64) -> CalendarDay {
        let (year, month) = (self.year + years, self.month);
        CalendarDay { year, month, day: self.day.min(days_of_month(year, month)) }
    }
}

/// An instant so many years later by the calendar, at the same time of day; it may be after the last instant.
pub fn years_after(instant: u64, years: u64) -> u64 {
    CalendarDay::after(instant / DAY).years_later(years).days() * DAY + instant % DAY
}

/// The digits of eight bytes from a place on as their values, where the bytes are like the given ones: digits where these are 0,
/// and else the same.
#[inline(always)]
fn like(text: &[u8], at: usize, given: &[u8; 8]) -> Option<u64> {
    let limits = given.map(|byte| if byte == b'0' { 9 } else { 0 });
    let values = word(text, at) ^ u64::from_le_bytes(*given);
    at_most(values, u64::from_le_bytes(limits)).then_some(values)
}

/// The number that the two digits at a place say.
#[inline(always)]
fn two(values: u64, at: u32) -> u64 {
    (values * 10 + (values >> 8)) >> (8 * at) & 0xFF
}

/// Where the seconds of a date end.
const SECONDS: usize = 19;

/// The milliseconds from the minute's start to the end of a date, which stands behind its 16th byte.
#[inline(always)]
fn milliseconds(text: &[u8]) -> Option<u64> {
    let (seconds, thousandths) = match text.len() {
        20 => (two(like(text, 12, b"0:00:00Z")?, 5), 0),
        24 => {
            let values = like(text, 16, b":00.000Z")?;
            (two(values, 1), two(values, 4) * 10 + (values >> 48 & 0xFF))
        }
        _ => {
            let colon = text[16] == b':';
            (digits(text, SECONDS, 2).filter(|_| colon)?, fraction(text)?)
        }
    };
    (seconds < 60).then_some(1000 * seconds + thousandths)
}

/// The thousandths that stand behind the seconds of a date, up to its end.
fn fraction(text: &[u8]) -> Option<u64> {
    let end = text.len() - 1;
    let count = end - SECONDS - 1;
    if text[SECONDS] != b'.' || text[end] != b'Z' || !(1..=9).contains(&count) {
        return None;
    }
    // Digits from the fourth on don't count, but are digits.
    match count {
        1 => Some(100 * digits(text, end, 1)?),
        2 => Some(10 * digits(text, end, 2)?),
        3 => digits(text, end, 3),
        _ => digits(text, end, count - 3).and(digits(text, SECONDS + 4, 3)),
    }
}

/// The instant that a date names, if it is one.
#[inline(never)]
pub fn read(text: &[u8]) -> Option<u64> {
    if text.len() <= SECONDS {
        return None;
    }
    let (first, second) = (like(text, 0, b"0000-00-")?, like(text, 8, b"00T00:00")?);
    let milliseconds = milliseconds(text)?;
    let (year, month) = (100 * two(first, 0) + two(first, 2), two(first, 5));
    let (day, hour, minute) = (two(second, 0), two(second, 3), two(second, 6));
    if year < 1970 || !(1..=12).contains(&month) || day < 1 {
        return None;
    }
    // Each month has 28 days.
    if day > 28 && day > days_of_month(year, month) || hour > 23 || minute > 59 {
        return None;
    }
    let days = CalendarDay { year, month, day }.days();
    Some(days * DAY + (hour * 60 + minute) * 60000 + milliseconds)
}

/// The digits of each number below 100.
const TWO_DIGITS: [[u8; 2]; 100] = {
    let mut digits = [[b'0'; 2]; 100];
    let mut value = 0;
    while value < 100 {
        digits[value] = [b'0' + (value / 10) as u8, b'0' + (value % 10) as u8];
        value += 1;
    }
    digits
};

/// Writes the two digits of a value below 100.
#[inline(always)]
fn put_two(out: &mut [u8], value: u64) {
    out.copy_from_slice(&TWO_DIGITS[value as usize]);
}

/// Writes the date of an instant, with exactly three fraction digits.
#[inline(always)]
pub fn put(out: &mut [u8; PRINTED], instant: u64) {
    let within = instant % DAY;
    let CalendarDay { year, month, day } = CalendarDay::after(instant / DAY);
    *out = *b"0000-00-00T00:00:00.000Z";
    put_two(&mut out[0..2], year / 100);
    put_two(&mut out[2..4], year % 100);
    put_two(&mut out[5..7], month);
    put_two(&mut out[8..10], day);
    put_two(&mut out[11..13], within / 3600000);
    put_two(&mut out[14..16], within / 60000 % 60);
    put_two(&mut out[17..19], within / 1000 % 60);
    put_two(&mut out[20..22], within / 10 % 100);
    out[22] = b'0' + (within % 10) as u8;
}

/// The date of an instant, with exactly three fraction digits.
pub fn print(instant: u64) -> [u8; PRINTED] {
    let mut out = [0; PRINTED];
    put(&mut out, instant);
    out
}

#[cfg(test)]
mod tests {
    use super::*;

    #[test]
    fn the_papers_dates() {
        assert_eq!(read(b"1970-01-01T00:00:00Z"), Some(0));
        assert_eq!(read(b"2000-02-29T00:00:00Z"), Some(951782400000));
        assert_eq!(read(b"2020-08-10T21:46:00Z"), Some(1597095960000));
        assert_eq!(read(b"9999-12-31T23:59:59.999Z"), Some(LAST));
        assert_eq!(read(b"2100-02-29T00:00:00Z"), None);
        assert_eq!(read(b"1990-12-31T23:59:60Z"), None);
        assert_eq!(read(b"1970-01-01T00:00:00.1239Z"), Some(123));
    }

    #[test]
    fn the_standards_dates() {
        assert_eq!(read(b"1985-04-12T23:20:50.52Z"), Some(482196050520));
        assert_eq!(read(b"1996-12-19T16:39:57-08:00"), None);
        assert_eq!(read(b"1990-12-31T15:59:60-08:00"), None);
        assert_eq!(read(b"1937-01-01T12:00:27.87+00:20"), None);
    }

    #[test]
    fn midnights() {
        assert_eq!(up_to_midnight(0), 0);
        assert_eq!(up_to_midnight(1), 86400000);
        assert_eq!(up_to_midnight(86399999), 86400000);
        assert_eq!(up_to_midnight(86400000), 86400000);
        assert_eq!(up_to_midnight(86400001), 172800000);
        assert_eq!(up_to_midnight(LAST), LAST + 1);
    }

    #[test]
    fn years() {
        let later =
            |date: &[u8], years| String::from_utf8(print(years_after(read(date).unwrap(), years)).into());
        assert_eq!(later(b"2024-02-29T12:34:56.789Z", 1).unwrap(), "2025-02-28T12:34:56.789Z");
        assert_eq!(later(b"2024-02-29T12:34:56.789Z", 4).unwrap(), "2028-02-29T12:34:56.789Z");
        assert_eq!(later(b"2023-02-28T00:00:00Z", 1).unwrap(), "2024-02-28T00:00:00.000Z");
        assert_eq!(later(b"2023-03-01T00:00:00Z", 1).unwrap(), "2024-03-01T00:00:00.000Z");
        assert_eq!(years_after(0, 1), 365 * DAY);
        assert_eq!(years_after(read(b"9899-12-31T23:59:59.999Z").unwrap(), 100), LAST);
        assert_eq!(years_after(read(b"9900-01-01T00:00:00Z").unwrap(), 100), LAST + 1);
    }

    #[test]
    fn fractions() {
        assert_eq!(read(b"1970-01-01T00:00:00.5Z"), Some(500));
        assert_eq!(read(b"1970-01-01T00:00:00.05Z"), Some(50));
        assert_eq!(read(b"1970-01-01T00:00:00.999999999Z"), Some(999));
        for bad in [".Z", ".1234567890Z", ".1", ".12a4Z", "", "z", "ZZ", ",5Z", "5Z"] {
            assert_eq!(read(format!("1970-01-01T00:00:00{bad}").as_bytes()), None, "{bad}");
        }
    }

    #[test]
    fn edges_of_each_part() {
        for good in
            ["1970-01-31T23:59:59Z", "2024-02-29T00:00:00Z", "1999-12-31T00:00:00Z", "1999-04-30T00:00:00Z"]
        {
            assert!(read(good.as_bytes()).is_some(), "{good}");
        }
        for bad in [
            "1969-12-31T23:59:59Z",
            "2023-02-29T00:00:00Z",
            "1999-04-31T00:00:00Z",
            "1999-13-01T00:00:00Z",
            "1999-00-01T00:00:00Z",
            "1999-01-00T00:00:00Z",
            "1999-01-01T24:00:00Z",
            "1999-01-01T00:60:00Z",
            "1999-01-01t00:00:00Z",
            "1999-01-01 00:00:00Z",
            "10000-01-01T00:00:00Z",
            "1999-1-01T00:00:00Z",
        ] {
            assert_eq!(read(bad.as_bytes()), None, "{bad}");
        }
    }

    #[test]
    fn each_day_prints_and_reads_back() {
        let mut instant = 0;
        while instant <= LAST {
            assert_eq!(read(&print(instant)), Some(instant));
            instant += 5 * DAY + 1;
        }
        for day in 0..=LAST / DAY {
            assert_eq!(CalendarDay::after(day).days(), day);
        }
        assert_eq!(&print(LAST), b"9999-12-31T23:59:59.999Z");
        assert_eq!(&print(951782400000), b"2000-02-29T00:00:00.000Z");
    }
}
