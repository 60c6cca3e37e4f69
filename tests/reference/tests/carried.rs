//! Version numbers past 32 bits: both ends of their range, and a bucket carried over from before.
mod common;
use common::{names, Hub};
use reference::answers::page_buffer;
use reference::bucket::{block, Row, DATA, MARKER, MAX_VERSION, VERSION};
use reference::dates;
use reference::settings::SPENT;
use reference::Bucket;
use std::fs;
use std::path::PathBuf;

const T: &str = "2024-07-01T00:00:00Z";
/// The next number that meant spent before, and is now the next to give.
const ONCE_SPENT: u64 = 4294967296;

/// Serves lines at T and compares each answer.
fn says(hub: &mut Hub, lines: &[(&str, &str)]) {
    for (line, expected) in lines {
        assert_eq!(hub.say(&format!("{T}|{line}")), *expected, "{line}");
    }
}

fn instant(date: &str) -> u64 {
    dates::read(date.as_bytes()).expect("a date")
}

/// A bucket that holds these rows, whatever lines made them: its time is T, and its next number the one that meant spent.
fn carried(rows: &[(&str, Row)]) -> Hub {
    let mut hub = Hub::from_number(16, ONCE_SPENT);
    hub.bucket.settings.time = instant(T);
    for (at, (key, row)) in rows.iter().enumerate() {
        hub.bucket.insert(at, *row, &block(key.as_bytes()));
    }
    assert!(hub.bucket.sound(), "what was carried over is sound");
    hub
}

/// A data row of body 41 and length 300, made half a year before T.
fn data(number: u64, mode: u64, until: &str, hold: u64) -> Row {
    let until = if until == "-" { 0 } else { instant(until) };
    [number, DATA, instant("2024-01-01T00:00:00Z"), 41, 300, mode, until, hold]
}

fn marker(number: u64) -> Row {
    [number, MARKER, instant("2024-01-02T00:00:00Z"), 0, 0, 0, 0, 0]
}

/// The lines with a version field, in which # stands.
const NAMING: [&str; 5] =
    ["r|GET|a|#", "d|DELETE|a|#|no", "t|RETAIN|a|#|-|-|no", "h|HOLD|a|#|ON", "rw|COPY|a|#|b|-|-|-"];

/// Versions that can be read; a's row has the number that two of them have in their lower half.
const READABLE: [&str; 9] = [
    "2",
    "4294967295",
    "4294967296",
    "4294967297",
    "9223372036854775808",
    "9999999999999999999",
    "10000000000000000000",
    "18446744069414584321",
    "18446744073709551614",
];

/// Versions that can't; three of them have a's number in their lower 64 bits.
const UNREADABLE: [&str; 11] = [
    "0",
    "18446744073709551615",
    "18446744073709551616",
    "18446744073709551617",
    "18446744073709551620",
    "36893488147419103233",
    "99999999999999999999",
    "100000000000000000000",
    "184467440737095516140",
    "340282366920938463463374607431768211457",
    "018446744073709551614",
];

/// A bucket whose one row is 1 of key a.
fn one_row() -> Hub {
    let mut hub = Hub::new(4);
    says(&mut hub, &[("w|PUT|a|41|300|-|-|-", "ok|1")]);
    hub
}

#[test]
fn a_version_field_reaches_to_the_last_number() {
    let mut hub = one_row();
    for line in NAMING {
        for version in READABLE {
            says(&mut hub, &[(&line.replace('#', version), "no|7")]);
        }
        for version in UNREADABLE {
            says(&mut hub, &[(&line.replace('#', version), "no|3")]);
        }
    }
}

#[test]
fn a_start_version_reaches_to_the_last_number() {
    let mut hub = one_row();
    let row = "a|1|data|2024-07-01T00:00:00.000Z|41|300|-|-|OFF";
    let mut list = |version| hub.say_in(page_buffer(1), &format!("{T}|r|LIST||a|{version}|1"));
    for version in READABLE.into_iter().chain(["0"]) {
        assert_eq!(list(version), format!("ok|1\n{row}"), "{version} is before 1");
    }
    for version in UNREADABLE.into_iter().filter(|version| *version != "0") {
        assert_eq!(list(version), "no|3", "{version}");
    }
}

#[test]
fn the_last_row_is_named_by_its_number() {
    let mut hub = Hub::from_number(4, MAX_VERSION);
    says(
        &mut hub,
        &[
            ("w|PUT|a|41|300|-|-|-", "ok|18446744073709551614"),
            ("r|GET|a|18446744073709551614", "ok|18446744073709551614|41|300|-|-|OFF"),
            ("r|GET|a|18446744073709551613", "no|7"),
            ("r|GET|a|4294967294", "no|7"),
            ("h|HOLD|a|18446744073709551614|ON", "ok"),
            ("t|RETAIN|a|18446744073709551614|COMPLIANCE|2024-08-01T00:00:00Z|no", "ok"),
            ("r|GET|a|-", "ok|18446744073709551614|41|300|COMPLIANCE|2024-08-01T00:00:00.000Z|ON"),
            ("db|DELETE|a|18446744073709551614|yes", "no|9"),
            ("h|HOLD|a|18446744073709551614|OFF", "ok"),
            ("db|DELETE|a|18446744073709551614|yes", "no|9"),
        ],
    );
    hub.run(&[(
        "2024-08-01T00:00:00Z|d|DELETE|a|18446744073709551614|no",
        "ok|18446744073709551614|removed",
    )]);
}

#[test]
fn a_bucket_that_was_spent_goes_on() {
    let mut hub = Hub::from_number(16, ONCE_SPENT);
    says(
        &mut hub,
        &[
            ("w|PUT|a|1|1|-|-|-", "ok|4294967296"),
            ("w|PUT|a|2|1|-|-|-", "ok|4294967297"),
            ("d|DELETE|a|-|no", "ok|4294967298|marker"),
            ("rw|COPY|a|4294967296|b|-|-|-", "ok|4294967299"),
            ("c|RULE|0|b|1|0", "ok"),
        ],
    );
    assert_eq!(hub.say("2024-07-02T00:00:00Z|c|SWEEP"), "ok|0|1");
    assert_eq!(
        hub.names(),
        names(&[
            ("a", 4294967298),
            ("a", 4294967297),
            ("a", 4294967296),
            ("b", 4294967300),
            ("b", 4294967299)
        ])
    );
    assert_eq!(hub.bucket.settings.next, 4294967301);
}

#[test]
fn the_numbers_run_through_the_old_end() {
    let mut hub = Hub::from_number(16, ONCE_SPENT - 2);
    for number in ONCE_SPENT - 2..ONCE_SPENT + 3 {
        says(&mut hub, &[(&format!("w|PUT|a|{number}|1|-|-|-"), &format!("ok|{number}"))]);
    }
}

/// The lines that add one row, and what they answer where the last number is left; a has the row before it.
const ADDING: [(&str, &str); 4] = [
    ("w|PUT|a|2|2|-|-|-", "ok|18446744073709551614"),
    ("w|PUT|new|1|1|-|-|-", "ok|18446744073709551614"),
    ("rw|COPY|a|-|b|-|-|-", "ok|18446744073709551614"),
    ("d|DELETE|a|-|no", "ok|18446744073709551614|marker"),
];

/// A bucket with a row of a, for which so many numbers are left.
fn with_left(left: u64) -> Hub {
    let mut hub = Hub::from_number(8, SPENT - left - 1);
    says(&mut hub, &[("w|PUT|a|1|1|-|-|-", &format!("ok|{}", SPENT - left - 1))]);
    hub
}

#[test]
fn the_last_number_is_given_once() {
    for adds in ADDING {
        let mut hub = with_left(1);
        says(&mut hub, &[adds]);
        assert_eq!(hub.bucket.settings.next, 18446744073709551615, "spent");
        for line in ["w|PUT|c|3|3|-|-|-", "rw|COPY|a|18446744073709551613|c|-|-|-", "d|DELETE|c|-|no"] {
            says(&mut hub, &[(line, "no|11")]);
        }
    }
}

#[test]
fn a_spent_bucket_refuses_whatever_adds() {
    for (line, _) in ADDING {
        says(&mut with_left(0), &[(line, "no|11")]);
    }
}

#[test]
fn refusal_11_stands_between_10_and_12() {
    let mut full = Hub::from_number(1, SPENT - 1);
    says(&mut full, &[("w|PUT|a|1|1|-|-|-", "ok|18446744073709551614"), ("w|PUT|b|1|1|-|-|-", "no|11")]);
    let mut full = Hub::from_number(1, SPENT - 2);
    says(&mut full, &[("w|PUT|a|1|1|-|-|-", "ok|18446744073709551613"), ("w|PUT|b|1|1|-|-|-", "no|12")]);
    let mut spent = Hub::from_number(1, SPENT);
    spent.run(&[
        ("9999-12-31T00:00:00Z|c|DEFAULT|GOVERNANCE|1d", "ok"),
        ("9999-12-31T00:00:00Z|w|PUT|a|1|1|-|-|-", "no|10"),
        ("9999-12-31T00:00:00Z|d|DELETE|a|-|no", "no|11"),
    ]);
}

/// Three keys whose current rows a sweep a day later marks, where so many numbers are left.
fn to_be_marked(left: u64) -> Hub {
    let mut hub = Hub::new(16);
    says(
        &mut hub,
        &[
            ("w|PUT|a|1|1|-|-|-", "ok|1"),
            ("w|PUT|b|1|1|-|-|-", "ok|2"),
            ("w|PUT|c|1|1|-|-|-", "ok|3"),
            ("c|RULE|0||1|0", "ok"),
        ],
    );
    hub.bucket.settings.next = SPENT - left;
    hub
}

const SWEEP: &str = "2024-07-02T00:00:00Z|c|SWEEP";

#[test]
fn a_sweep_takes_the_numbers_that_are_left_and_no_more() {
    let mut hub = to_be_marked(3);
    assert_eq!(hub.say(SWEEP), "ok|0|3");
    let marked =
        [("a", MAX_VERSION - 2), ("a", 1), ("b", MAX_VERSION - 1), ("b", 2), ("c", MAX_VERSION), ("c", 3)];
    assert_eq!(hub.names(), names(&marked));
    assert_eq!(hub.bucket.settings.next, SPENT);
    assert_eq!(hub.say(SWEEP), "ok|0|0", "a marker gains none");
    assert_eq!(to_be_marked(4).say(SWEEP), "ok|0|3");
    for left in [0, 1, 2] {
        assert_eq!(to_be_marked(left).say(SWEEP), "no|11", "{left} are left");
    }
}

#[test]
fn rows_that_a_sweep_removes_give_no_numbers_back() {
    let mut hub = to_be_marked(1);
    hub.run(&[
        ("2024-07-02T00:00:00Z|c|RULE|0|a|1|1", "ok"),
        ("2024-07-02T00:00:00Z|d|DELETE|b|-|no", "ok|18446744073709551614|marker"),
        ("2024-07-02T00:00:00Z|c|RULE|1|b|0|1", "ok"),
        ("2024-07-03T00:00:00Z|c|SWEEP", "no|11"),
        ("2024-07-03T00:00:00Z|c|RULE|0|a|0|1", "ok"),
        ("2024-07-03T00:00:00Z|c|SWEEP", "ok|1|0"),
        ("2024-07-03T00:00:00Z|d|DELETE|b|18446744073709551614|no", "ok|18446744073709551614|removed-marker"),
        ("2024-07-03T00:00:00Z|d|DELETE|b|-|no", "no|11"),
    ]);
}

#[test]
fn a_spent_bucket_serves_what_adds_nothing() {
    let mut hub = with_left(1);
    says(
        &mut hub,
        &[
            ("wt|PUT|b|7|70|GOVERNANCE|2024-08-01T00:00:00Z|-", "ok|18446744073709551614"),
            ("w|PUT|b|7|70|-|-|-", "ok|18446744073709551614"),
            ("w|PUT|a|1|1|-|-|-", "ok|18446744073709551613"),
            ("r|GET|b|-", "ok|18446744073709551614|7|70|GOVERNANCE|2024-08-01T00:00:00.000Z|OFF"),
            ("t|RETAIN|b|-|COMPLIANCE|2024-08-01T00:00:00Z|no", "ok"),
            ("h|HOLD|b|18446744073709551614|ON", "ok"),
            ("r|REPORT|", "ok|2|0|71|1"),
            ("c|DEFAULT|GOVERNANCE|1y", "ok"),
            ("c|RULE|0|a|0|1", "ok"),
            ("c|SWEEP", "ok|0|0"),
            ("w|PUT|b|7|71|-|-|-", "no|11"),
            ("d|DELETE|a|18446744073709551613|no", "ok|18446744073709551613|removed"),
        ],
    );
    let row =
        "b|18446744073709551614|data|2024-07-01T00:00:00.000Z|7|70|COMPLIANCE|2024-08-01T00:00:00.000Z|ON";
    assert_eq!(hub.say_in(page_buffer(2), &format!("{T}|r|LIST|||0|2")), format!("ok|1\n{row}"));
}

#[test]
fn the_longest_row_line() {
    let mut hub = Hub::from_number(1, MAX_VERSION);
    let key = "k".repeat(63);
    let lock = "COMPLIANCE|9999-12-31T23:59:59.999Z|OFF";
    let put = format!("{T}|wth|PUT|{key}|18446744073709551615|5497558138880|{lock}");
    assert_eq!(hub.say(&put), "ok|18446744073709551614");
    let row = format!(
        "{key}|18446744073709551614|data|2024-07-01T00:00:00.000Z|18446744073709551615|5497558138880|{lock}"
    );
    assert_eq!(row.len() + 1, 190, "with its line feed");
    assert_eq!(hub.say_in(page_buffer(1), &format!("{T}|r|LIST|||0|1")), format!("ok|1\n{row}"));
    assert_eq!(hub.say_in(page_buffer(1), &format!("{T}|r|LIST|{key}|{key}|18446744073709551614|1")), "ok|0");
}

/// Numbers in an order that neither their lower halves, nor their signs in 64 bits, nor their digits as text have.
const ACROSS: [u64; 10] = [
    1,
    9,
    10,
    4294967295,
    4294967296,
    4294967306,
    9223372036854775807,
    9223372036854775808,
    MAX_VERSION - 1,
    MAX_VERSION,
];

/// Key a with all these versions.
fn across() -> Hub {
    let mut hub = Hub::new(16);
    for number in ACROSS {
        hub.bucket.settings.next = number;
        says(&mut hub, &[(&format!("w|PUT|a|{number}|1|-|-|-"), &format!("ok|{number}"))]);
        says(&mut hub, &[("r|GET|a|-", &format!("ok|{number}|{number}|1|-|-|OFF"))]);
    }
    hub
}

#[test]
fn versions_stand_by_their_numbers() {
    let mut hub = across();
    let falling: Vec<(&str, u64)> = ACROSS.iter().rev().map(|&number| ("a", number)).collect();
    assert_eq!(hub.names(), names(&falling));
    for number in ACROSS {
        says(&mut hub, &[(&format!("r|GET|a|{number}"), &format!("ok|{number}|{number}|1|-|-|OFF"))]);
    }
    for pair in ACROSS.windows(2).rev() {
        says(
            &mut hub,
            &[
                (&format!("d|DELETE|a|{}|no", pair[1]), &format!("ok|{}|removed", pair[1])),
                ("r|GET|a|-", &format!("ok|{}|{}|1|-|-|OFF", pair[0], pair[0])),
            ],
        );
    }
}

/// The version field of a row's line.
fn version_of(row: &str) -> &str {
    row.split('|').nth(1).expect("a version")
}

#[test]
fn pages_are_followed_by_numbers_of_twenty_digits() {
    let mut hub = across();
    for count in 1..=11 {
        let rows = hub.followed("a", count);
        let shown: Vec<&str> = rows.iter().map(|row| version_of(row)).collect();
        assert_eq!(
            shown,
            ACROSS.map(|number| number.to_string()).into_iter().rev().collect::<Vec<_>>(),
            "by {count}"
        );
    }
}

#[test]
fn a_place_between_large_numbers() {
    let mut hub = across();
    let mut first = |version: u64| {
        let page = hub.say_in(page_buffer(1), &format!("{T}|r|LIST|a|a|{version}|1"));
        version_of(page.lines().nth(1).expect("a row")).to_string()
    };
    assert_eq!(first(0), "18446744073709551614");
    assert_eq!(first(MAX_VERSION), "18446744073709551613");
    assert_eq!(first(MAX_VERSION - 1), "9223372036854775808");
    assert_eq!(first(MAX_VERSION - 2), "9223372036854775808");
    assert_eq!(first(9223372036854775808), "9223372036854775807");
    assert_eq!(first(4294967297), "4294967296");
    assert_eq!(first(4294967296), "4294967295");
    assert_eq!(first(4294967295), "10");
}

/// A row under COMPLIANCE until 2024-12-31: a year of 365 days from its creation, as lines once counted it.
fn under_compliance() -> Hub {
    carried(&[("a", data(7, 2, "2024-12-31T00:00:00Z", 0))])
}

const ALL: &str = "rwdthbc";

#[test]
fn what_was_carried_over_is_as_it_was() {
    let mut hub = carried(&[
        ("a", data(4294967295, 2, "2024-12-31T00:00:00Z", 1)),
        ("a", data(7, 1, "1970-01-01T00:00:00.001Z", 0)),
        ("b", marker(9)),
        ("b", data(8, 0, "-", 1)),
    ]);
    let rows = [
        "a|4294967295|data|2024-01-01T00:00:00.000Z|41|300|COMPLIANCE|2024-12-31T00:00:00.000Z|ON",
        "a|7|data|2024-01-01T00:00:00.000Z|41|300|GOVERNANCE|1970-01-01T00:00:00.001Z|OFF",
        "b|9|marker|2024-01-02T00:00:00.000Z|-|-|-|-|OFF",
        "b|8|data|2024-01-01T00:00:00.000Z|41|300|-|-|ON",
    ];
    assert_eq!(
        hub.say_in(page_buffer(9), &format!("{T}|r|LIST|||0|9")),
        format!("ok|4\n{}", rows.join("\n"))
    );
    says(&mut hub, &[("r|REPORT|", "ok|3|1|900|2"), ("w|PUT|c|1|1|-|-|-", "ok|4294967296")]);
}

#[test]
fn carried_compliance_refuses_removal_until_its_date() {
    for clock in [T, "2024-12-30T23:59:59.999Z"] {
        for bypass in ["yes", "no"] {
            assert_eq!(under_compliance().say(&format!("{clock}|{ALL}|DELETE|a|7|{bypass}")), "no|9");
        }
    }
    assert_eq!(under_compliance().say("2024-12-31T00:00:00Z|d|DELETE|a|7|no"), "ok|7|removed");
}

#[test]
fn carried_compliance_refuses_what_is_weaker_until_its_date() {
    let weaker = [
        "-|-",
        "GOVERNANCE|2024-12-31T00:00:00Z",
        "GOVERNANCE|9999-12-31T23:59:59.999Z",
        "COMPLIANCE|2024-12-30T23:59:59.999Z",
    ];
    for lock in weaker {
        for bypass in ["yes", "no"] {
            let line = format!("RETAIN|a|7|{lock}|{bypass}");
            assert_eq!(under_compliance().say(&format!("{T}|{ALL}|{line}")), "no|9", "{line}");
        }
    }
    let mut hub = under_compliance();
    hub.run(&[
        ("2024-12-30T23:59:59.999Z|t|RETAIN|a|-|COMPLIANCE|2024-12-31T00:00:00Z|no", "ok"),
        ("2024-12-30T23:59:59.999Z|t|RETAIN|a|-|COMPLIANCE|2025-12-31T00:00:00Z|no", "ok"),
        ("2025-12-30T23:59:59.999Z|rwdthbc|DELETE|a|7|yes", "no|9"),
        ("2025-12-31T00:00:00Z|t|RETAIN|a|7|-|-|no", "ok"),
        ("2025-12-31T00:00:00Z|d|DELETE|a|7|no", "ok|7|removed"),
    ]);
}

#[test]
fn a_clock_set_back_opens_no_carried_lock_and_shuts_none_again() {
    let mut hub = under_compliance();
    hub.run(&[
        ("1970-01-01T00:00:00Z|rwdthbc|DELETE|a|7|yes", "no|9"),
        ("2024-12-31T00:00:00Z|r|GET|a|7", "ok|7|41|300|COMPLIANCE|2024-12-31T00:00:00.000Z|OFF"),
        ("2024-07-01T00:00:00Z|d|DELETE|a|7|no", "ok|7|removed"),
    ]);
}

#[test]
fn carried_governance_holds_until_its_date_or_a_bypass() {
    let hub = || carried(&[("a", data(7, 1, "2024-08-01T00:00:00Z", 0))]);
    for line in ["DELETE|a|7|no", "RETAIN|a|7|-|-|no", "RETAIN|a|7|GOVERNANCE|2024-07-31T23:59:59.999Z|no"] {
        assert_eq!(hub().say(&format!("{T}|{ALL}|{line}")), "no|9", "{line}");
        assert_eq!(hub().say(&format!("2024-07-31T23:59:59.998Z|{ALL}|{line}")), "no|9", "{line}");
    }
    assert_eq!(hub().say(&format!("{T}|d|DELETE|a|7|yes")), "no|5");
    assert_eq!(hub().say(&format!("{T}|db|DELETE|a|7|yes")), "ok|7|removed");
    assert_eq!(hub().say(&format!("{T}|tb|RETAIN|a|7|-|-|yes")), "ok");
    assert_eq!(hub().say(&format!("{T}|t|RETAIN|a|7|COMPLIANCE|2024-08-01T00:00:00Z|no")), "ok");
    assert_eq!(hub().say("2024-08-01T00:00:00Z|d|DELETE|a|7|no"), "ok|7|removed");
    assert_eq!(hub().say("2024-08-01T00:00:00Z|t|RETAIN|a|7|-|-|no"), "ok");
}

#[test]
fn a_carried_hold_outlasts_every_date_until_hold_off() {
    for (mode, until) in [(0, "-"), (1, "2024-08-01T00:00:00Z"), (2, "2024-08-01T00:00:00Z")] {
        let mut hub = carried(&[("a", data(7, mode, until, 1))]);
        hub.run(&[
            ("2024-07-01T00:00:00Z|rwdthbc|DELETE|a|7|yes", "no|9"),
            ("2024-08-01T00:00:00Z|rwdthbc|DELETE|a|7|yes", "no|9"),
            ("9999-12-31T23:59:59.999Z|rwdthbc|DELETE|a|7|yes", "no|9"),
            ("9999-12-31T23:59:59.999Z|tb|RETAIN|a|7|-|-|yes", "ok"),
            ("9999-12-31T23:59:59.999Z|rwdthbc|DELETE|a|7|yes", "no|9"),
            ("9999-12-31T23:59:59.999Z|rwdtbc|HOLD|a|7|OFF", "no|5"),
            ("9999-12-31T23:59:59.999Z|h|HOLD|a|7|OFF", "ok"),
            ("9999-12-31T23:59:59.999Z|d|DELETE|a|7|no", "ok|7|removed"),
        ]);
    }
}

#[test]
fn hold_off_leaves_a_carried_date() {
    let mut hub = carried(&[("a", data(7, 2, "2024-08-01T00:00:00Z", 1))]);
    says(&mut hub, &[("h|HOLD|a|-|OFF", "ok"), ("rwdthbc|DELETE|a|7|yes", "no|9")]);
    assert_eq!(hub.say("2024-08-01T00:00:00Z|d|DELETE|a|7|no"), "ok|7|removed");
}

#[test]
fn a_copy_of_a_carried_row_inherits_no_lock() {
    let mut hub = carried(&[("a", data(7, 2, "2024-12-31T00:00:00Z", 1))]);
    says(
        &mut hub,
        &[
            ("rw|COPY|a|7|b|-|-|-", "ok|4294967296"),
            ("r|GET|b|-", "ok|4294967296|41|300|-|-|OFF"),
            ("rw|COPY|a|-|a|-|-|-", "ok|4294967297"),
            ("r|GET|a|-", "ok|4294967297|41|300|-|-|OFF"),
            ("d|DELETE|b|4294967296|no", "ok|4294967296|removed"),
            ("d|DELETE|a|4294967297|no", "ok|4294967297|removed"),
            ("r|GET|a|-", "ok|7|41|300|COMPLIANCE|2024-12-31T00:00:00.000Z|ON"),
        ],
    );
}

#[test]
fn a_retry_of_a_carried_row_alters_no_lock() {
    let mut hub = under_compliance();
    let row = hub.table();
    says(&mut hub, &[("wth|PUT|a|41|300|GOVERNANCE|2024-07-02T00:00:00Z|ON", "ok|7")]);
    assert_eq!(hub.table(), row);
}

#[test]
fn a_carried_marker_can_be_deleted() {
    let mut hub = carried(&[("a", marker(9)), ("a", data(7, 2, "2024-12-31T00:00:00Z", 0))]);
    says(
        &mut hub,
        &[
            ("c|DEFAULT|COMPLIANCE|100y", "ok"),
            ("r|GET|a|-", "no|8"),
            ("h|HOLD|a|9|ON", "no|8"),
            ("t|RETAIN|a|9|COMPLIANCE|2025-01-01T00:00:00Z|no", "no|8"),
            ("d|DELETE|a|9|no", "ok|9|removed-marker"),
            ("r|GET|a|-", "ok|7|41|300|COMPLIANCE|2024-12-31T00:00:00.000Z|OFF"),
        ],
    );
}

#[test]
fn a_sweep_leaves_carried_locks_alone() {
    let mut hub = carried(&[
        ("a", marker(20)),
        ("a", data(16, 0, "-", 0)),
        ("a", data(15, 0, "-", 1)),
        ("a", data(14, 2, "2024-08-01T00:00:00Z", 0)),
        ("a", data(13, 1, "2024-08-02T00:00:00Z", 0)),
        ("a", data(12, 2, "2024-08-01T00:00:00Z", 1)),
        ("a", data(11, 1, "2024-07-01T00:00:00Z", 0)),
        ("b", data(10, 2, "2024-12-31T00:00:00Z", 1)),
    ]);
    hub.run(&[("2024-07-01T00:00:00Z|c|RULE|0||1|1", "ok"), ("2024-07-01T00:00:00Z|c|SWEEP", "ok|2|1")]);
    let marked = [("b", ONCE_SPENT), ("b", 10)];
    let left = |rows: &[(&'static str, u64)]| names(&[rows, &marked].concat());
    assert_eq!(hub.names(), left(&[("a", 20), ("a", 15), ("a", 14), ("a", 13), ("a", 12)]));
    assert_eq!(hub.say("2024-07-31T23:59:59.999Z|c|SWEEP"), "ok|0|0");
    assert_eq!(hub.say("2024-08-01T00:00:00Z|c|SWEEP"), "ok|1|0");
    assert_eq!(hub.say("2024-08-02T00:00:00Z|c|SWEEP"), "ok|1|0");
    assert_eq!(hub.say("9999-12-31T23:59:59.999Z|c|SWEEP"), "ok|0|0", "holds outlast every date");
    assert_eq!(hub.names(), left(&[("a", 20), ("a", 15), ("a", 12)]));
}

#[test]
fn the_default_and_the_rules_are_carried_over_too() {
    let mut hub = under_compliance();
    says(&mut hub, &[("c|DEFAULT|GOVERNANCE|1y", "ok"), ("c|RULE|3|a|0|1", "ok")]);
    says(
        &mut hub,
        &[
            ("w|PUT|a|1|1|-|-|-", "ok|4294967296"),
            ("r|GET|a|-", "ok|4294967296|1|1|GOVERNANCE|2025-07-01T00:00:00.000Z|OFF"),
            ("r|GET|a|7", "ok|7|41|300|COMPLIANCE|2024-12-31T00:00:00.000Z|OFF"),
        ],
    );
    assert_eq!(hub.say("2024-12-30T23:59:59.999Z|c|SWEEP"), "ok|0|0");
    assert_eq!(hub.say("2024-12-31T00:00:00Z|c|SWEEP"), "ok|1|0");
}

/// The bucket of 16 rows that release 1.6.0 saved: settings, rows and keys, one behind the other.
fn saved_before() -> Hub {
    let file = PathBuf::from(env!("CARGO_MANIFEST_DIR")).join("../client/saved-by-1.6.0");
    let bytes = fs::read(file).expect("what release 1.6.0 saved");
    let (settings, table) = bytes.split_at(688);
    let (rows, keys) = table.split_at(64 * 16);
    Hub { bucket: Bucket::from_bytes(settings, rows, keys).expect("the lengths fit") }
}

#[test]
fn what_the_release_before_saved_is_sound_and_was_spent() {
    let hub = saved_before();
    assert!(hub.bucket.sound());
    assert_eq!(hub.bucket.settings.next, ONCE_SPENT);
    let mut numbers: Vec<u64> = hub.table().iter().map(|(_, row)| row[VERSION]).collect();
    numbers.sort_unstable();
    assert_eq!(numbers, (ONCE_SPENT - 8..ONCE_SPENT).collect::<Vec<_>>());
}

#[test]
fn what_the_release_before_saved_goes_on() {
    saved_before().run(&[
        ("2024-07-04T00:00:00Z|w|PUT|logger/c|47|306|-|-|-", "ok|4294967296"),
        (
            "2024-07-04T00:00:00Z|r|GET|logger/c|-",
            "ok|4294967296|47|306|GOVERNANCE|2025-07-04T00:00:00.000Z|OFF",
        ),
        ("2024-07-04T00:00:00Z|rwdthbc|DELETE|gauge-7/level|4294967288|yes", "no|9"),
        ("2024-07-04T00:00:00Z|d|DELETE|gauge-7/flow|4294967289|no", "no|9"),
        ("2024-08-01T00:00:00Z|rwdthbc|DELETE|gauge-7/sluice|4294967290|yes", "no|9"),
        ("2024-08-01T00:00:00Z|h|HOLD|gauge-7/sluice|-|OFF", "ok"),
        ("2024-08-01T00:00:00Z|d|DELETE|gauge-7/sluice|4294967290|no", "ok|4294967290|removed"),
        ("2024-08-01T00:00:00Z|c|SWEEP", "ok|1|1"),
        ("2024-08-01T00:00:00Z|d|DELETE|logger/b|4294967297|no", "ok|4294967297|removed-marker"),
        ("2033-01-05T00:00:00Z|d|DELETE|gauge-7/level|4294967288|no", "ok|4294967288|removed"),
    ]);
}
