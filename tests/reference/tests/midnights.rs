//! A sweep's days end at midnight: each sentence of the request, and both sides of each boundary.
mod common;
use common::{names, Hub};
use reference::dates::{self, DAY};
use reference::settings::SPENT;

fn instant(date: &str) -> u64 {
    dates::read(date.as_bytes()).expect("a date")
}

/// Serves lines in a bucket of two rows and compares each answer.
fn runs(lines: &[(String, &str)]) {
    let lines: Vec<(&str, &str)> = lines.iter().map(|(line, answer)| (line.as_str(), *answer)).collect();
    Hub::new(2).run(&lines);
}

/// A sweep that says this at an expiry, behind sweeps that do nothing: those before it among the end of the days without
/// rounding, 1 ms before that end, and 1 ms before the expiry.
fn sweeps(created: &str, days: u64, expiry: &str, said: &'static str) -> Vec<(String, &'static str)> {
    let (end, expiry) = (instant(created) + days * DAY, instant(expiry));
    let idle = [end - 1, end, expiry - 1].into_iter().filter(|&now| now < expiry).map(|now| (now, "ok|0|0"));
    let date = |now| String::from_utf8(dates::print(now).to_vec()).expect("dates are ASCII");
    idle.chain([(expiry, said)]).map(|(now, said)| (format!("{}|c|SWEEP", date(now)), said)).collect()
}

/// A row created then is marked at an expiry and not before.
fn current_expires(created: &str, days: u64, expiry: &str) {
    let mut lines = vec![
        (format!("{created}|w|PUT|a|1|1|-|-|-"), "ok|1"),
        (format!("{created}|c|RULE|0||{days}|0"), "ok"),
    ];
    lines.extend(sweeps(created, days, expiry, "ok|0|1"));
    runs(&lines);
}

/// A row whose next newer one is created then goes at an expiry and not before.
fn noncurrent_expires(newer: &str, days: u64, expiry: &str) {
    let mut lines = vec![
        ("1970-01-01T00:00:00Z|w|PUT|a|1|1|-|-|-".into(), "ok|1"),
        (format!("{newer}|d|DELETE|a|-|no"), "ok|2|marker"),
        (format!("{newer}|c|RULE|0||0|{days}"), "ok"),
    ];
    lines.extend(sweeps(newer, days, expiry, "ok|1|0"));
    runs(&lines);
}

/// Both day counts from one creation end at one expiry.
fn expires(created: &str, days: u64, expiry: &str) {
    current_expires(created, days, expiry);
    noncurrent_expires(created, days, expiry);
}

/// Neither day count from a creation ends by the last instant.
fn never_expires(created: &str, days: u64) {
    runs(&[
        ("1970-01-01T00:00:00Z|w|PUT|a|1|1|-|-|-".into(), "ok|1"),
        (format!("{created}|w|PUT|a|2|2|-|-|-"), "ok|2"),
        (format!("{created}|c|RULE|0||{days}|{days}"), "ok"),
        ("9999-12-31T23:59:59.999Z|c|SWEEP".into(), "ok|0|0"),
    ]);
}

#[test]
fn the_requests_example() {
    expires("2024-05-01T10:30:00Z", 3, "2024-05-05T00:00:00Z");
}

#[test]
fn an_instant_at_midnight_stays_and_others_go_on_to_the_next() {
    expires("2024-05-01T00:00:00Z", 3, "2024-05-04T00:00:00Z");
    expires("2024-05-01T00:00:00.001Z", 3, "2024-05-05T00:00:00Z");
    expires("2024-05-01T23:59:59.999Z", 3, "2024-05-05T00:00:00Z");
}

#[test]
fn the_first_day_and_the_most_days() {
    expires("1970-01-01T00:00:00Z", 1, "1970-01-02T00:00:00Z");
    expires("1970-01-01T00:00:00.001Z", 1, "1970-01-03T00:00:00Z");
    expires("2024-05-01T00:00:00Z", 36500, "2124-04-07T00:00:00Z");
    expires("2024-05-01T10:30:00Z", 36500, "2124-04-08T00:00:00Z");
}

#[test]
fn the_end_of_a_year() {
    expires("2023-12-30T10:30:00Z", 1, "2024-01-01T00:00:00Z");
    expires("2023-12-31T00:00:00Z", 1, "2024-01-01T00:00:00Z");
    expires("2023-12-31T00:00:00.001Z", 1, "2024-01-02T00:00:00Z");
}

#[test]
fn the_end_of_february_in_common_years() {
    for year in [2023, 2100] {
        let of_year = |date: &str| format!("{year}-{date}Z");
        expires(&of_year("02-27T00:00:00.001"), 1, &of_year("03-01T00:00:00"));
        expires(&of_year("02-28T00:00:00"), 1, &of_year("03-01T00:00:00"));
        expires(&of_year("02-28T10:30:00"), 1, &of_year("03-02T00:00:00"));
    }
}

#[test]
fn the_end_of_february_in_leap_years() {
    for year in [2000, 2024] {
        let of_year = |date: &str| format!("{year}-{date}Z");
        expires(&of_year("02-27T10:30:00"), 1, &of_year("02-29T00:00:00"));
        expires(&of_year("02-28T00:00:00"), 1, &of_year("02-29T00:00:00"));
        expires(&of_year("02-28T00:00:00.001"), 1, &of_year("03-01T00:00:00"));
        expires(&of_year("02-29T00:00:00"), 1, &of_year("03-01T00:00:00"));
        expires(&of_year("02-29T10:30:00"), 1, &of_year("03-02T00:00:00"));
    }
}

#[test]
fn the_last_midnight_is_reached_and_the_one_behind_it_never() {
    expires("9999-12-29T00:00:00.001Z", 1, "9999-12-31T00:00:00Z");
    expires("9999-12-30T00:00:00Z", 1, "9999-12-31T00:00:00Z");
    never_expires("9999-12-30T00:00:00.001Z", 1);
    never_expires("9999-12-31T00:00:00Z", 1);
    never_expires("9999-12-31T23:59:59.999Z", 36500);
}

#[test]
fn a_sweep_whose_clock_is_set_back_goes_by_the_buckets_time() {
    Hub::new(2).run(&[
        ("2024-05-01T10:30:00Z|w|PUT|a|1|1|-|-|-", "ok|1"),
        ("2024-05-01T10:30:00Z|c|RULE|0||3|0", "ok"),
        ("2024-05-04T23:59:59.999Z|r|GET|a|-", "ok|1|1|1|-|-|OFF"),
        ("2024-05-02T00:00:00Z|c|SWEEP", "ok|0|0"),
        ("2024-05-05T00:00:00Z|r|GET|a|-", "ok|1|1|1|-|-|OFF"),
        ("2024-05-02T00:00:00Z|c|SWEEP", "ok|0|1"),
    ]);
}

#[test]
fn the_fewest_days_of_two_rules_are_rounded() {
    Hub::new(2).run(&[
        ("2024-05-01T10:30:00Z|w|PUT|a|1|1|-|-|-", "ok|1"),
        ("2024-05-01T10:30:00Z|c|RULE|0|a|3|0", "ok"),
        ("2024-05-01T10:30:00Z|c|RULE|1||2|0", "ok"),
        ("2024-05-03T23:59:59.999Z|c|SWEEP", "ok|0|0"),
        ("2024-05-04T00:00:00Z|c|SWEEP", "ok|0|1"),
    ]);
}

#[test]
fn a_sweeps_marker_is_created_now_and_no_midnight() {
    let mut hub = Hub::new(2);
    hub.run(&[
        ("2024-05-01T10:30:00Z|w|PUT|a|1|1|-|-|-", "ok|1"),
        ("2024-05-01T10:30:00Z|c|RULE|0||3|1", "ok"),
        ("2024-05-05T07:00:00Z|c|SWEEP", "ok|0|1"),
    ]);
    assert_eq!(
        hub.say_in(512, "2024-05-05T07:00:00Z|r|LIST|||0|1"),
        "ok|1\na|2|marker|2024-05-05T07:00:00.000Z|-|-|-|-|OFF"
    );
    hub.run(&[("2024-05-06T23:59:59.999Z|c|SWEEP", "ok|0|0"), ("2024-05-07T00:00:00Z|c|SWEEP", "ok|1|0")]);
    assert_eq!(hub.names(), names(&[("a", 2)]));
}

#[test]
fn a_given_locks_date_is_not_rounded() {
    Hub::new(2).run(&[
        ("2024-05-01T10:30:00Z|wt|PUT|a|1|1|COMPLIANCE|2024-05-05T10:00:00Z|-", "ok|1"),
        ("2024-05-01T10:30:00Z|d|DELETE|a|-|no", "ok|2|marker"),
        ("2024-05-01T10:30:00Z|c|RULE|0||0|3", "ok"),
        ("2024-05-05T00:00:00Z|c|SWEEP", "ok|0|0"),
        ("2024-05-05T09:59:59.999Z|c|SWEEP", "ok|0|0"),
        ("2024-05-05T10:00:00Z|c|SWEEP", "ok|1|0"),
    ]);
}

#[test]
fn a_defaults_date_is_not_rounded() {
    Hub::new(2).run(&[
        ("2024-05-01T10:30:00Z|c|DEFAULT|GOVERNANCE|4d", "ok"),
        ("2024-05-01T10:30:00Z|w|PUT|a|1|1|-|-|-", "ok|1"),
        ("2024-05-01T10:30:00Z|r|GET|a|1", "ok|1|1|1|GOVERNANCE|2024-05-05T10:30:00.000Z|OFF"),
        ("2024-05-01T10:30:00Z|d|DELETE|a|-|no", "ok|2|marker"),
        ("2024-05-01T10:30:00Z|c|RULE|0||0|3", "ok"),
        ("2024-05-05T10:29:59.999Z|c|SWEEP", "ok|0|0"),
        ("2024-05-05T10:29:59.999Z|d|DELETE|a|1|no", "no|9"),
        ("2024-05-05T10:30:00Z|c|SWEEP", "ok|1|0"),
    ]);
}

#[test]
fn refusals_11_and_12_wait_for_the_midnight() {
    for (next, refusal) in [(1, "no|12"), (SPENT - 1, "no|11")] {
        let mut hub = Hub::from_number(1, next);
        hub.run(&[
            ("2024-05-01T10:30:00Z|w|PUT|a|1|1|-|-|-", &format!("ok|{next}")),
            ("2024-05-01T10:30:00Z|c|RULE|0||3|0", "ok"),
            ("2024-05-04T23:59:59.999Z|c|SWEEP", "ok|0|0"),
            ("2024-05-05T00:00:00Z|c|SWEEP", refusal),
        ]);
    }
}
