//! A default of years ends by the calendar: each sentence of the request, and both sides of each boundary.
mod common;
use common::Hub;
use reference::bucket::{CREATED, MODE, UNTIL};
use reference::dates::{self, DAY, LAST};
use reference::settings::{DefaultRetention, SPENT, YEARS};

fn instant(date: &str) -> u64 {
    dates::read(date.as_bytes()).expect("a date")
}

/// A date as answers print it.
fn printed(date: &str) -> String {
    if date.contains('.') {
        date.into()
    } else {
        date.replace('Z', ".000Z")
    }
}

/// A bucket with a default that has served nothing else.
fn hub_with(clock: &str, period: &str, capacity: usize) -> Hub {
    let mut hub = Hub::new(capacity);
    hub.run(&[(&format!("{clock}|c|DEFAULT|GOVERNANCE|{period}"), "ok")]);
    hub
}

/// A PUT and a COPY that give no mode are kept by a default until an end.
fn ends(now: &str, period: &str, end: &str) {
    let mut hub = hub_with(now, period, 2);
    let end = printed(end);
    hub.run(&[
        (&format!("{now}|w|PUT|a|1|1|-|-|-"), "ok|1"),
        (&format!("{now}|r|GET|a|1"), &format!("ok|1|1|1|GOVERNANCE|{end}|OFF")),
        (&format!("{now}|rw|COPY|a|1|b|-|-|-"), "ok|2"),
        (&format!("{now}|r|GET|b|2"), &format!("ok|2|1|1|GOVERNANCE|{end}|OFF")),
    ]);
    for (_, row) in hub.table() {
        assert_eq!((row[CREATED], row[UNTIL]), (instant(now), instant(&end)), "{now} {period}");
    }
}

/// A PUT and a COPY that give no mode meet 10.
fn never_ends(now: &str, period: &str) {
    let mut hub = Hub::new(2);
    hub.run(&[
        (&format!("{now}|w|PUT|a|1|1|-|-|-"), "ok|1"),
        (&format!("{now}|c|DEFAULT|COMPLIANCE|{period}"), "ok"),
        (&format!("{now}|w|PUT|a|2|1|-|-|-"), "no|10"),
        (&format!("{now}|w|PUT|b|1|1|-|-|-"), "no|10"),
        (&format!("{now}|rw|COPY|a|1|b|-|-|-"), "no|10"),
        (&format!("{now}|rw|COPY|a|1|a|-|-|-"), "no|10"),
    ]);
}

#[test]
fn the_same_month_day_and_time_of_day() {
    ends("2024-05-01T10:30:00.123Z", "1y", "2025-05-01T10:30:00.123Z");
    ends("2024-05-01T10:30:00.123Z", "7y", "2031-05-01T10:30:00.123Z");
    ends("2024-05-01T10:30:00.123Z", "100y", "2124-05-01T10:30:00.123Z");
    ends("2026-01-05T08:00:00Z", "7y", "2033-01-05T08:00:00Z");
}

#[test]
fn the_first_and_the_last_day_of_each_month() {
    let lasts = [31, 28, 31, 30, 31, 30, 31, 31, 30, 31, 30, 31];
    for (before, last) in lasts.into_iter().enumerate() {
        let month = before + 1;
        for day in [1, last] {
            for (year, years) in [(2023, 1), (2024, 1), (2025, 3), (2096, 4), (1999, 100), (2000, 100)] {
                let date = |year| format!("{year}-{month:02}-{day:02}T23:59:59.999Z");
                ends(&date(year), &format!("{years}y"), &date(year + years));
            }
        }
    }
}

#[test]
fn from_29_february_to_common_and_leap_years() {
    for (year, years, day) in [
        (2024, 1, 28),
        (2024, 2, 28),
        (2024, 3, 28),
        (2024, 4, 29),
        (2024, 5, 28),
        (2024, 8, 29),
        (2024, 75, 28),
        (2024, 76, 28),
        (2024, 80, 29),
        (2024, 96, 29),
        (2024, 97, 28),
        (2024, 100, 29),
        (1972, 28, 29),
        (1972, 100, 29),
        (1996, 4, 29),
        (1996, 96, 29),
        (1996, 97, 28),
        (1996, 100, 29),
        (2000, 1, 28),
        (2000, 4, 29),
        (2000, 96, 29),
        (2000, 97, 28),
        (2000, 100, 28),
        (2096, 1, 28),
        (2096, 3, 28),
        (2096, 4, 28),
        (2096, 5, 28),
        (2096, 8, 29),
        (2096, 96, 29),
        (2096, 100, 29),
        (2296, 4, 28),
        (2396, 1, 28),
        (2396, 4, 29),
        (2396, 8, 29),
        (2396, 100, 29),
        (2400, 100, 28),
        (9896, 100, 29),
        (9996, 3, 28),
    ] {
        let start = format!("{year}-02-29T12:34:56.789Z");
        ends(&start, &format!("{years}y"), &format!("{}-02-{day}T12:34:56.789Z", year + years));
    }
}

#[test]
fn each_count_of_years_from_29_february() {
    let leap = |year: u64| year != 2100 && year % 4 == 0;
    for years in 1..=100 {
        let later = 2000 + years;
        let day = if leap(later) { 29 } else { 28 };
        ends("2000-02-29T00:00:00Z", &format!("{years}y"), &format!("{later}-02-{day}T00:00:00Z"));
    }
}

/// A day of these years ends on the same day so many years later, in its first millisecond and its last.
fn stays(day: &str, cases: [(u64, u64); 7]) {
    for (year, years) in cases {
        for time in ["00:00:00.000", "23:59:59.999"] {
            let date = |year| format!("{year}-{day}T{time}Z");
            ends(&date(year), &format!("{years}y"), &date(year + years));
        }
    }
}

#[test]
fn from_28_february_and_1_march_it_stays() {
    stays("02-28", [(2023, 1), (2023, 2), (2024, 1), (2024, 4), (2096, 4), (1999, 1), (1999, 100)]);
    stays("03-01", [(2023, 1), (2023, 2), (2024, 1), (2024, 4), (2096, 4), (2099, 1), (2100, 4)]);
}

#[test]
fn the_first_and_the_last_millisecond_of_29_february() {
    ends("2024-02-28T23:59:59.999Z", "1y", "2025-02-28T23:59:59.999Z");
    ends("2024-02-29T00:00:00Z", "1y", "2025-02-28T00:00:00Z");
    ends("2024-02-29T23:59:59.999Z", "1y", "2025-02-28T23:59:59.999Z");
    ends("2024-03-01T00:00:00Z", "1y", "2025-03-01T00:00:00Z");
    ends("2024-02-29T23:59:59.999Z", "4y", "2028-02-29T23:59:59.999Z");
}

#[test]
fn each_count_of_years_from_the_ends_of_a_year() {
    for years in 1..=100 {
        for (year, day) in [(1999, "12-31T23:59:59.999Z"), (2000, "01-01T00:00:00.000Z")] {
            ends(&format!("{year}-{day}"), &format!("{years}y"), &format!("{}-{day}", year + years));
        }
    }
}

#[test]
fn the_first_instant() {
    ends("1970-01-01T00:00:00Z", "1y", "1971-01-01T00:00:00Z");
    ends("1970-01-01T00:00:00.001Z", "2y", "1972-01-01T00:00:00.001Z");
    ends("1970-01-01T00:00:00Z", "3y", "1973-01-01T00:00:00Z");
    ends("1970-01-01T00:00:00Z", "100y", "2070-01-01T00:00:00Z");
    assert_eq!(dates::years_after(0, 1), 31536000000);
    assert_eq!(dates::years_after(0, 3), 94694400000, "1972 has a leap day");
}

#[test]
fn the_last_instant_is_an_end_and_the_next_is_not() {
    for years in 1..=100 {
        let period = format!("{years}y");
        ends(&format!("{}-12-31T23:59:59.999Z", 9999 - years), &period, "9999-12-31T23:59:59.999Z");
        never_ends(&format!("{}-01-01T00:00:00Z", 10000 - years), &period);
    }
}

#[test]
fn the_last_century() {
    ends("9899-12-31T23:59:59.999Z", "100y", "9999-12-31T23:59:59.999Z");
    never_ends("9900-01-01T00:00:00Z", "100y");
    ends("9900-01-01T00:00:00Z", "99y", "9999-01-01T00:00:00Z");
    ends("9900-01-01T00:00:00Z", "36500d", "9999-12-08T00:00:00Z");
    ends("9899-02-28T00:00:00Z", "100y", "9999-02-28T00:00:00Z");
    ends("9996-02-29T23:59:59.999Z", "3y", "9999-02-28T23:59:59.999Z");
    never_ends("9996-02-29T23:59:59.999Z", "4y");
    for now in ["9999-01-01T00:00:00Z", "9999-02-28T00:00:00Z", "9999-12-31T23:59:59.999Z"] {
        for period in ["1y", "4y", "100y"] {
            never_ends(now, period);
        }
    }
}

#[test]
fn refusal_10_behind_7_and_8_and_before_11_and_12() {
    let mut hub = Hub::new(2);
    hub.run(&[
        ("9999-01-01T00:00:00Z|w|PUT|a|1|1|-|-|-", "ok|1"),
        ("9999-01-01T00:00:00Z|d|DELETE|m|-|no", "ok|2|marker"),
        ("9999-01-01T00:00:00Z|c|DEFAULT|GOVERNANCE|1y", "ok"),
        ("9999-01-01T00:00:00Z|rw|COPY|none|-|b|-|-|-", "no|7"),
        ("9999-01-01T00:00:00Z|rw|COPY|a|3|b|-|-|-", "no|7"),
        ("9999-01-01T00:00:00Z|rw|COPY|m|-|b|-|-|-", "no|8"),
    ]);
    for next in [3, SPENT] {
        hub.bucket.settings.next = next;
        hub.run(&[
            ("9999-01-01T00:00:00Z|w|PUT|b|1|1|-|-|-", "no|10"),
            ("9999-01-01T00:00:00Z|rw|COPY|a|-|b|-|-|-", "no|10"),
        ]);
    }
    hub.run(&[
        ("9999-01-01T00:00:00Z|wt|PUT|b|1|1|GOVERNANCE|9999-01-02T00:00:00Z|-", "no|11"),
        ("9999-01-01T00:00:00Z|c|DEFAULT|-|-", "ok"),
        ("9999-01-01T00:00:00Z|w|PUT|b|1|1|-|-|-", "no|11"),
    ]);
    hub.bucket.settings.next = 3;
    assert_eq!(hub.say("9999-01-01T00:00:00Z|w|PUT|b|1|1|-|-|-"), "no|12");
}

#[test]
fn what_takes_nothing_from_the_default_meets_no_10() {
    let mut hub = hub_with("9999-01-01T00:00:00Z", "100y", 4);
    hub.run(&[
        ("9999-01-01T00:00:00Z|wt|PUT|a|1|1|COMPLIANCE|9999-12-31T23:59:59.999Z|-", "ok|1"),
        ("9999-01-01T00:00:00Z|rwt|COPY|a|1|b|GOVERNANCE|9999-01-01T00:00:00.001Z|-", "ok|2"),
        ("9999-01-01T00:00:00Z|d|DELETE|a|-|no", "ok|3|marker"),
        ("9999-01-01T00:00:00Z|t|RETAIN|b|2|GOVERNANCE|9999-06-01T00:00:00Z|no", "ok"),
        ("9999-01-01T00:00:00Z|r|GET|b|2", "ok|2|1|1|GOVERNANCE|9999-06-01T00:00:00.000Z|OFF"),
    ]);
}

#[test]
fn days_are_days_as_before() {
    ends("2023-03-01T00:00:00Z", "365d", "2024-02-29T00:00:00Z");
    ends("2023-03-01T00:00:00Z", "1y", "2024-03-01T00:00:00Z");
    ends("2024-02-29T00:00:00Z", "365d", "2025-02-28T00:00:00Z");
    ends("2024-02-28T00:00:00Z", "365d", "2025-02-27T00:00:00Z");
    ends("2024-02-28T00:00:00Z", "366d", "2025-02-28T00:00:00Z");
    ends("2024-02-28T00:00:00Z", "1y", "2025-02-28T00:00:00Z");
    ends("2024-03-01T00:00:00Z", "365d", "2025-03-01T00:00:00Z");
    ends("2024-03-01T00:00:00Z", "36500d", "2124-02-06T00:00:00Z");
    ends("2024-03-01T00:00:00Z", "100y", "2124-03-01T00:00:00Z");
}

#[test]
fn the_buckets_time_decides_where_it_is_ahead_of_the_clock() {
    Hub::new(4).run(&[
        ("2024-02-28T12:00:00Z|c|DEFAULT|GOVERNANCE|1y", "ok"),
        ("2024-02-29T12:00:00Z|w|PUT|a|1|1|-|-|-", "ok|1"),
        ("2023-01-01T00:00:00Z|w|PUT|b|1|1|-|-|-", "ok|2"),
        ("2023-01-01T00:00:00Z|rw|COPY|a|-|c|-|-|-", "ok|3"),
        ("2023-01-01T00:00:00Z|r|GET|b|-", "ok|2|1|1|GOVERNANCE|2025-02-28T12:00:00.000Z|OFF"),
        ("2023-01-01T00:00:00Z|r|GET|c|-", "ok|3|1|1|GOVERNANCE|2025-02-28T12:00:00.000Z|OFF"),
        ("9999-01-01T00:00:00Z|r|GET|a|-", "ok|1|1|1|GOVERNANCE|2025-02-28T12:00:00.000Z|OFF"),
        ("2023-01-01T00:00:00Z|w|PUT|d|1|1|-|-|-", "no|10"),
    ]);
}

#[test]
fn a_stored_default_keeps_its_count_and_unit() {
    let mut hub = Hub::new(4);
    let stored = DefaultRetention { mode: 2, count: 1, unit: YEARS };
    hub.bucket.settings.default = stored;
    hub.run(&[
        ("2024-02-28T12:00:00Z|w|PUT|a|1|1|-|-|-", "ok|1"),
        ("2024-02-28T12:00:00Z|r|GET|a|1", "ok|1|1|1|COMPLIANCE|2025-02-28T12:00:00.000Z|OFF"),
        ("2024-02-29T12:00:00Z|rw|COPY|a|1|b|-|-|-", "ok|2"),
        ("2024-02-29T12:00:00Z|r|GET|b|2", "ok|2|1|1|COMPLIANCE|2025-02-28T12:00:00.000Z|OFF"),
        ("2027-03-01T00:00:00Z|w|PUT|c|1|1|-|-|-", "ok|3"),
        ("2027-03-01T00:00:00Z|r|GET|c|3", "ok|3|1|1|COMPLIANCE|2028-03-01T00:00:00.000Z|OFF"),
    ]);
    assert_eq!(hub.bucket.settings.default, stored);
}

#[test]
fn a_row_from_before_keeps_its_date() {
    let mut hub = Hub::new(4);
    hub.run(&[("2024-01-31T00:00:00Z|w|PUT|a|1|1|-|-|-", "ok|1")]);
    hub.bucket.settings.default = DefaultRetention { mode: 1, count: 1, unit: YEARS };
    hub.bucket.rows[0][MODE] = 1;
    hub.bucket.rows[0][UNTIL] = hub.bucket.settings.time + 365 * DAY;
    hub.run(&[
        ("2024-01-31T00:00:00Z|r|GET|a|1", "ok|1|1|1|GOVERNANCE|2025-01-30T00:00:00.000Z|OFF"),
        ("2024-01-31T00:00:00Z|w|PUT|a|2|2|-|-|-", "ok|2"),
        ("2024-01-31T00:00:00Z|r|GET|a|2", "ok|2|2|2|GOVERNANCE|2025-01-31T00:00:00.000Z|OFF"),
        ("2024-01-31T00:00:00Z|h|HOLD|a|1|ON", "ok"),
        ("2024-01-31T00:00:00Z|h|HOLD|a|1|OFF", "ok"),
        ("2024-01-31T00:00:00Z|c|DEFAULT|COMPLIANCE|100y", "ok"),
        ("2024-01-31T00:00:00Z|c|SWEEP", "ok|0|0"),
        ("2024-01-31T00:00:00Z|r|GET|a|1", "ok|1|1|1|GOVERNANCE|2025-01-30T00:00:00.000Z|OFF"),
        ("2024-01-31T00:00:00Z|r|GET|a|2", "ok|2|2|2|GOVERNANCE|2025-01-31T00:00:00.000Z|OFF"),
        ("2025-01-29T23:59:59.999Z|d|DELETE|a|1|no", "no|9"),
        ("2025-01-30T00:00:00Z|d|DELETE|a|1|no", "ok|1|removed"),
        ("2025-01-30T23:59:59.999Z|d|DELETE|a|2|no", "no|9"),
        ("2025-01-31T00:00:00Z|d|DELETE|a|2|no", "ok|2|removed"),
    ]);
}

#[test]
fn a_damaged_default_of_years_meets_1() {
    for (mode, count) in [(0, 1), (3, 1), (1, 0), (1, 101), (2, 36500), (2, u64::MAX)] {
        let mut hub = Hub::new(1);
        hub.bucket.settings.default = DefaultRetention { mode, count, unit: YEARS };
        let (mut settings, mut rows, mut keys) = (vec![0; 688], vec![0; 64], vec![0; 64]);
        hub.bucket.to_bytes(&mut settings, &mut rows, &mut keys);
        let line = b"2024-02-29T00:00:00Z\tw\tPUT\ta\t1\t1\t-\t-\t-";
        let number = reference::serve_bytes(&mut settings, &mut rows, &mut keys, line, &mut [0; 256]);
        assert_eq!(number, 1, "{mode} {count}");
    }
}

#[test]
fn rows_keep_their_dates_when_the_default_changes() {
    Hub::new(4).run(&[
        ("2024-02-29T00:00:00Z|c|DEFAULT|COMPLIANCE|4y", "ok"),
        ("2024-02-29T00:00:00Z|w|PUT|a|1|1|-|-|-", "ok|1"),
        ("2024-02-29T00:00:00Z|c|DEFAULT|GOVERNANCE|1y", "ok"),
        ("2024-02-29T00:00:00Z|w|PUT|b|1|1|-|-|-", "ok|2"),
        ("2024-02-29T00:00:00Z|c|DEFAULT|GOVERNANCE|365d", "ok"),
        ("2024-03-01T00:00:00Z|c|DEFAULT|-|-", "ok"),
        ("2024-03-01T00:00:00Z|w|PUT|c|1|1|-|-|-", "ok|3"),
        ("2024-03-01T00:00:00Z|r|GET|a|-", "ok|1|1|1|COMPLIANCE|2028-02-29T00:00:00.000Z|OFF"),
        ("2024-03-01T00:00:00Z|r|GET|b|-", "ok|2|1|1|GOVERNANCE|2025-02-28T00:00:00.000Z|OFF"),
        ("2024-03-01T00:00:00Z|r|GET|c|-", "ok|3|1|1|-|-|OFF"),
    ]);
}

#[test]
fn the_lock_holds_up_to_its_end() {
    Hub::new(1).run(&[
        ("2024-02-29T12:00:00Z|c|DEFAULT|COMPLIANCE|1y", "ok"),
        ("2024-02-29T12:00:00Z|w|PUT|a|1|1|-|-|-", "ok|1"),
        ("2025-02-28T11:59:59.999Z|db|DELETE|a|1|yes", "no|9"),
        ("2025-02-28T11:59:59.999Z|tb|RETAIN|a|1|COMPLIANCE|2025-02-28T11:59:59.999Z|yes", "no|6"),
        ("2025-02-28T12:00:00Z|d|DELETE|a|1|no", "ok|1|removed"),
    ]);
}

#[test]
fn a_retry_takes_no_date_and_meets_no_10() {
    let mut hub = hub_with("2024-02-29T00:00:00Z", "1y", 1);
    hub.run(&[("2024-02-29T00:00:00Z|w|PUT|a|5|500|-|-|-", "ok|1")]);
    let made = hub.table();
    hub.run(&[
        ("2025-02-28T00:00:00Z|w|PUT|a|5|500|-|-|-", "ok|1"),
        ("9999-01-01T00:00:00Z|w|PUT|a|5|500|-|-|-", "ok|1"),
        ("9999-01-01T00:00:00Z|w|PUT|a|5|501|-|-|-", "no|10"),
        ("9999-12-31T23:59:59.999Z|wh|PUT|a|5|500|-|-|ON", "ok|1"),
    ]);
    assert_eq!(hub.table(), made);
    assert_eq!(hub.bucket.settings.next, 2);
}

#[test]
fn a_copy_takes_the_default_and_nothing_of_its_source() {
    Hub::new(4).run(&[
        ("2024-02-28T00:00:00Z|wth|PUT|a|5|6|COMPLIANCE|2099-01-01T00:00:00Z|ON", "ok|1"),
        ("2024-02-28T00:00:00Z|c|DEFAULT|GOVERNANCE|1y", "ok"),
        ("2024-02-29T00:00:00Z|rw|COPY|a|1|b|-|-|-", "ok|2"),
        ("2024-02-29T00:00:00Z|r|GET|b|-", "ok|2|5|6|GOVERNANCE|2025-02-28T00:00:00.000Z|OFF"),
        ("2024-02-29T00:00:00Z|rwh|COPY|b|-|b|-|-|ON", "ok|3"),
        ("2024-03-01T00:00:00Z|rwt|COPY|b|-|c|COMPLIANCE|2024-03-02T00:00:00Z|-", "ok|4"),
        ("2024-03-01T00:00:00Z|r|GET|b|3", "ok|3|5|6|GOVERNANCE|2025-02-28T00:00:00.000Z|ON"),
        ("2024-03-01T00:00:00Z|r|GET|c|4", "ok|4|5|6|COMPLIANCE|2024-03-02T00:00:00.000Z|OFF"),
        ("2024-03-01T00:00:00Z|r|GET|a|1", "ok|1|5|6|COMPLIANCE|2099-01-01T00:00:00.000Z|ON"),
    ]);
}

#[test]
fn a_sweeps_days_are_no_years() {
    let mut hub = hub_with("2023-03-01T00:00:00Z", "1y", 4);
    hub.run(&[
        ("2023-03-01T00:00:00Z|w|PUT|a|1|1|-|-|-", "ok|1"),
        ("2023-03-01T00:00:00Z|d|DELETE|a|-|no", "ok|2|marker"),
        ("2023-03-01T00:00:00Z|wt|PUT|b|1|1|GOVERNANCE|2023-03-02T00:00:00Z|-", "ok|3"),
        ("2023-03-01T00:00:00Z|c|RULE|0||365|365", "ok"),
        ("2024-02-28T23:59:59.999Z|c|SWEEP", "ok|0|0"),
        ("2024-02-29T00:00:00Z|c|SWEEP", "ok|0|1"),
        ("2024-02-29T23:59:59.999Z|c|SWEEP", "ok|0|0"),
        ("2024-03-01T00:00:00Z|c|SWEEP", "ok|1|0"),
    ]);
}

/// A year, a month and a day of the month, as a date has them.
type Day = (u64, u64, u64);

/// The day after a day.
fn next((year, month, day): Day) -> Day {
    let leap = year % 400 == 0 || year % 100 != 0 && year % 4 == 0;
    let february = if leap { 29 } else { 28 };
    let lengths = [31, february, 31, 30, 31, 30, 31, 31, 30, 31, 30, 31];
    if day < lengths[month as usize - 1] {
        (year, month, day + 1)
    } else if month < 12 {
        (year, month + 1, 1)
    } else {
        (year + 1, 1, 1)
    }
}

/// Two walks over the calendar up to a year: for each day the second one goes on to the last day that is not after the same
/// month and day of the later year, which is 28 February where that year has no 29th.
fn walk(years: u64, up_to: u64) {
    let (mut start, mut starts) = ((1970, 1, 1), 0);
    let (mut end, mut ends) = (start, 0);
    while start.0 <= up_to {
        let later = (start.0 + years, start.1, start.2);
        while next(end) <= later {
            end = next(end);
            ends += 1;
        }
        let within = [0, DAY - 1, starts * 7919 % DAY][starts as usize % 3];
        let (from, to) = (starts * DAY + within, ends * DAY + within);
        assert_eq!(dates::years_after(from, years), to, "{years} years after {start:?}");
        assert_eq!(to > LAST, later.0 > 9999, "{years} years after {start:?}");
        start = next(start);
        starts += 1;
    }
    assert_eq!(
        starts * DAY,
        instant(&format!("{up_to}-12-31T00:00:00Z")) + DAY,
        "the walk has passed every day"
    );
}

#[test]
fn every_day_of_the_calendar_and_few_years() {
    [1, 3, 4].into_iter().for_each(|years| walk(years, 9999));
}

#[test]
fn every_day_of_the_calendar_and_many_years() {
    [7, 96, 100].into_iter().for_each(|years| walk(years, 9999));
}

#[test]
fn each_count_of_years_from_every_day_of_a_while() {
    (1..=100).for_each(|years| walk(years, 2105));
}
