//! LIST: each sentence of its request, and each boundary of its fields.
mod common;
#[path = "../src/bin/compare/plain.rs"]
mod plain;
use common::Hub;
use reference::bucket::{Row, MAX_VERSION, VERSION};
use reference::dates;
use reference::settings::SPENT;

const T: &str = "2024-01-01T00:00:00Z";
/// The bytes of an answer buffer that is large enough for any count.
const ROOM: usize = 256 + 256 * 1000;

/// Two versions of a, four of a/1, one of them a marker, and one of a/2, b and `-` each.
fn example() -> Hub {
    let mut hub = Hub::new(16);
    hub.run(&[
        ("2024-01-01T00:00:00Z|w|PUT|a|1|10|-|-|-", "ok|1"),
        ("2024-01-01T00:00:00.001Z|w|PUT|a/1|2|20|-|-|-", "ok|2"),
        ("2024-01-02T00:00:00Z|wt|PUT|a/1|18446744073709551615|5497558138880|GOVERNANCE|2024-02-01T00:00:00Z|-", "ok|3"),
        ("2024-01-02T00:00:00Z|d|DELETE|a/1|-|no", "ok|4|marker"),
        ("2024-01-03T00:00:00Z|wth|PUT|a/1|0|0|COMPLIANCE|9999-12-31T23:59:59.999Z|ON", "ok|5"),
        ("2024-01-03T00:00:00Z|wh|PUT|a|6|60|-|-|ON", "ok|6"),
        ("2024-01-03T00:00:00Z|w|PUT|a/2|7|70|-|-|-", "ok|7"),
        ("2024-01-03T00:00:00Z|d|DELETE|b|-|no", "ok|8|marker"),
        ("2024-01-03T00:00:00Z|w|PUT|-|9|90|-|-|-", "ok|9"),
    ]);
    hub
}

/// The rows of the example in the table's order, as a page prints them.
const ROWS: [&str; 9] = [
    "-|9|data|2024-01-03T00:00:00.000Z|9|90|-|-|OFF",
    "a|6|data|2024-01-03T00:00:00.000Z|6|60|-|-|ON",
    "a|1|data|2024-01-01T00:00:00.000Z|1|10|-|-|OFF",
    "a/1|5|data|2024-01-03T00:00:00.000Z|0|0|COMPLIANCE|9999-12-31T23:59:59.999Z|ON",
    "a/1|4|marker|2024-01-02T00:00:00.000Z|-|-|-|-|OFF",
    "a/1|3|data|2024-01-02T00:00:00.000Z|18446744073709551615|5497558138880|GOVERNANCE|2024-02-01T00:00:00.000Z|OFF",
    "a/1|2|data|2024-01-01T00:00:00.001Z|2|20|-|-|OFF",
    "a/2|7|data|2024-01-03T00:00:00.000Z|7|70|-|-|OFF",
    "b|8|marker|2024-01-03T00:00:00.000Z|-|-|-|-|OFF",
];

/// A page of some of the example's rows.
fn page(rows: std::ops::Range<usize>) -> String {
    let head = format!("ok|{}", rows.len());
    let lines: Vec<&str> = std::iter::once(&head[..]).chain(ROWS[rows].iter().copied()).collect();
    lines.join("\n")
}

fn list(hub: &mut Hub, fields: &str) -> String {
    hub.say_in(ROOM, &format!("{T}|r|LIST|{fields}"))
}

fn shows(fields: &str, rows: std::ops::Range<usize>) {
    assert_eq!(list(&mut example(), fields), page(rows), "{fields}");
}

fn refused(number: u64, fields: &[&str]) {
    let mut hub = example();
    for fields in fields {
        assert_eq!(list(&mut hub, fields), format!("no|{number}"), "{fields}");
    }
}

#[test]
fn rows_in_table_order_or_all_if_fewer() {
    shows("||0|1000", 0..9);
    shows("||0|10", 0..9);
    shows("||0|9", 0..9);
    shows("||0|8", 0..8);
    shows("||0|2", 0..2);
    shows("||0|1", 0..1);
}

#[test]
fn keys_begin_with_the_prefix() {
    shows("a||0|1000", 1..8);
    shows("a/||0|1000", 3..8);
    shows("a/1||0|1000", 3..7);
    shows("a/1||0|3", 3..6);
    shows("b||0|1000", 8..9);
    shows("-||0|1000", 0..1);
}

#[test]
fn long_prefixes() {
    let mut hub = Hub::new(4);
    for key in ["station/north/level", "station/north/rain", "station/south/level"] {
        assert!(hub.say(&format!("{T}|w|PUT|{key}|1|1|-|-|-")).starts_with("ok"));
    }
    let rows = |hub: &mut Hub, prefix: &str| list(hub, &format!("{prefix}||0|9")).lines().count() - 1;
    let shown = |hub: &mut Hub| {
        [
            "station/",
            "station/n",
            "station/north/l",
            "station/north/level",
            "station/north/levels",
            "station/w",
        ]
        .map(|prefix| rows(hub, prefix))
    };
    assert_eq!(shown(&mut hub), [3, 2, 1, 1, 0, 0]);
}

#[test]
fn a_prefix_that_no_key_has() {
    for prefix in ["!", "a!", "a/0", "a/11", "a/1/", "a/3", "c", "~", "-a", "B"] {
        shows(&format!("{prefix}||0|1000"), 0..0);
    }
    shows(&format!("{}||0|1000", "a".repeat(63)), 0..0);
}

#[test]
fn after_the_given_key_and_version() {
    shows("|a/1|5|1000", 4..9);
    shows("|a/1|4|1000", 5..9);
    shows("|a/1|3|1000", 6..9);
    shows("|a/1|2|1000", 7..9);
    shows("|b|8|1000", 9..9);
    shows("|-|9|1000", 1..9);
    shows("a/1|a/1|4|1", 5..6);
    shows("a/1|a/1|4|1000", 5..7);
}

#[test]
fn version_0_is_before_the_keys_first_row() {
    shows("|a/1|0|1000", 3..9);
    shows("|a|0|1", 1..2);
    shows("|-|0|1000", 0..9);
    shows("a|a/1|0|1000", 3..8);
}

#[test]
fn the_place_needs_no_row() {
    shows(&format!("|a|{MAX_VERSION}|1000"), 1..9);
    shows("|a|7|1000", 1..9);
    shows("|a|5|1000", 2..9);
    shows("|a|2|1000", 2..9);
    shows("|a/1|1|1000", 7..9);
    shows("|a/1|6|1000", 3..9);
    shows("|!|0|1000", 0..9);
    shows("|!|1|1000", 0..9);
    shows("|a/10|0|1000", 7..9);
    shows(&format!("|a/10|{MAX_VERSION}|1000"), 7..9);
    shows("|~|0|1000", 9..9);
    shows(&format!("|~|{MAX_VERSION}|1000"), 9..9);
    shows(&format!("|{}|1|1000", "a".repeat(63)), 8..9);
}

#[test]
fn a_place_before_or_behind_the_prefixs_rows() {
    shows("a/|!|0|1000", 3..8);
    shows("a/|a|1|1000", 3..8);
    shows("a/|a|0|2", 3..5);
    shows("a/|a/2|7|1000", 8..8);
    shows("a/|b|0|1000", 8..8);
    shows("-|b|0|1000", 0..0);
}

#[test]
fn an_empty_key_with_version_0_only() {
    shows("||0|3", 0..3);
    shows("a/1||0|3", 3..6);
    refused(3, &["||1|3", &format!("||{MAX_VERSION}|3"), "||-|3", "|||3", "a/1||1|3"]);
}

#[test]
fn versions() {
    shows("|a|0|1", 1..2);
    shows("|a|1|1", 3..4);
    shows("|a|18446744073709551614|1", 1..2);
    refused(
        3,
        &[
            "|a|-|1",
            "|a||1",
            "|a|18446744073709551615|1",
            "|a|00|1",
            "|a|01|1",
            "|a|+1|1",
            "|a|-1|1",
            "|a|1x|1",
        ],
    );
    refused(3, &["|a|18446744073709551616|1"]);
}

#[test]
fn counts() {
    shows("||0|1", 0..1);
    shows("||0|1000", 0..9);
    refused(
        3,
        &["||0|0", "||0|1001", "||0|-", "||0|", "||0|01", "||0|00", "||0|+1", "||0|1x", "||0|4294967297"],
    );
}

#[test]
fn prefixes_and_keys_of_63_and_64_bytes() {
    let (most, more) = ("k".repeat(63), "k".repeat(64));
    let mut hub = example();
    hub.say(&format!("2024-01-03T00:00:00Z|w|PUT|{most}|1|1|-|-|-"));
    let row = format!("{most}|10|data|2024-01-03T00:00:00.000Z|1|1|-|-|OFF");
    assert_eq!(list(&mut hub, &format!("{most}||0|5")), format!("ok|1\n{row}"));
    assert_eq!(list(&mut hub, &format!("{most}|{most}|0|5")), format!("ok|1\n{row}"));
    assert_eq!(list(&mut hub, &format!("{most}|{most}|10|5")), "ok|0");
    assert_eq!(list(&mut hub, &format!("|{most}|11|5")), format!("ok|1\n{row}"));
    assert_eq!(list(&mut hub, &format!("{more}||0|5")), "no|3");
    assert_eq!(list(&mut hub, &format!("|{more}|0|5")), "no|3");
}

#[test]
fn key_bytes_alone() {
    refused(3, &["a b||0|1", "|a b|0|1", "a\x7f||0|1", "|a\x7f|0|1", "\u{80}||0|1", "|\0|0|1"]);
    shows("~||0|1", 0..0);
    shows("|~|0|1", 0..0);
    shows("!||0|1", 0..0);
}

#[test]
fn fields_too_few_and_too_many() {
    let mut hub = example();
    for line in
        ["LIST", "LIST|", "LIST||", "LIST|||0", "LIST|a|0|1", "LIST||0|1", "LIST|||0|1|", "LIST|||0|1|r"]
    {
        assert_eq!(hub.say_in(ROOM, &format!("{T}|r|{line}")), "no|3", "{line}");
    }
    for word in ["list", "LISTS", "LIS"] {
        assert_eq!(hub.say_in(ROOM, &format!("{T}|r|{word}|||0|1")), "no|3", "{word}");
    }
}

#[test]
fn right_r() {
    let mut hub = example();
    for rights in ["-", "wdthbc", "c"] {
        assert_eq!(hub.say_in(ROOM, &format!("{T}|{rights}|LIST|||0|1")), "no|5");
    }
    for rights in ["r", "rwdthbc", "cbr"] {
        assert_eq!(hub.say_in(ROOM, &format!("{T}|{rights}|LIST|||0|1")), page(0..1));
    }
    assert_eq!(hub.say_in(ROOM, &format!("{T}||LIST|||0|1")), "no|3");
}

#[test]
fn refusal_13_looks_at_the_count_and_the_buffer() {
    let mut hub = example();
    for count in [1, 2, 9, 10, 255, 256, 999, 1000] {
        let least = 256 + 256 * count;
        let line = format!("{T}|r|LIST|||0|{count}");
        assert_eq!(hub.say_in(least - 1, &line), "no|13");
        assert_eq!(hub.say_in(256, &line), "no|13");
        let shown = page(0..count.min(9));
        for room in [least, least + 1, ROOM] {
            assert_eq!(hub.say_in(room, &line), shown);
        }
        assert_eq!(hub.say_in(least - 1, &format!("{T}|r|LIST|none||0|{count}")), "no|13");
    }
    assert_eq!(Hub::new(1).say_in(511, &format!("{T}|r|LIST|||0|1")), "no|13");
    assert_eq!(Hub::new(1).say_in(512, &format!("{T}|r|LIST|||0|1")), "ok|0");
}

#[test]
fn refusal_13_after_1_2_3_and_5() {
    let mut hub = example();
    let list = |hub: &mut Hub, room: usize, rest: &str| hub.say_in(room, &format!("{T}|{rest}"));
    assert_eq!(list(&mut hub, 255, "r|LIST|||0|1"), "no|2");
    assert_eq!(list(&mut hub, 255, "-|LIST|||0|1001"), "no|2");
    assert_eq!(list(&mut hub, 256, "-|LIST|||0|1001"), "no|3");
    assert_eq!(list(&mut hub, 256, "r|LIST|||1|1"), "no|3");
    assert_eq!(list(&mut hub, 256, "wdthbc|LIST|||0|1"), "no|5");
    assert_eq!(list(&mut hub, 256, "r|LIST|||0|1"), "no|13");
    assert_eq!(list(&mut hub, 256, "r|GET|a|-"), "ok|6|6|60|-|-|ON");
    hub.bucket.settings.next = 0;
    assert_eq!(hub.number_by_bytes(256, &format!("{T}|r|LIST|||0|1")), 1);
}

#[test]
fn later_refusals_are_never_met() {
    let mut hub = Hub::spent();
    let row = "m|1|marker|9999-12-31T23:59:59.999Z|-|-|-|-|OFF";
    assert_eq!(list(&mut hub, "m|m|0|1"), format!("ok|1\n{row}"));
    assert_eq!(list(&mut hub, "none|none|7|1"), "ok|0");
}

#[test]
fn an_accepted_page_moves_the_time_and_nothing_else() {
    let mut hub = example();
    let mut expected = hub.bucket.clone();
    assert_eq!(hub.say_in(512, "2024-01-05T00:00:00.123Z|r|LIST|||0|1"), page(0..1));
    expected.settings.time = dates::read(b"2024-01-05T00:00:00.123Z").unwrap();
    assert_eq!(hub.bucket, expected);
    assert_eq!(hub.say_in(512, "2024-01-04T00:00:00Z|r|LIST|none||0|1"), "ok|0");
    assert_eq!(hub.bucket, expected, "a clock set back");
    assert_eq!(hub.say_in(511, "2024-01-06T00:00:00Z|r|LIST|||0|1"), "no|13");
    assert_eq!(hub.bucket, expected, "a refusal moves no time");
}

#[test]
fn an_empty_table() {
    let mut hub = Hub::new(4);
    for fields in ["||0|1", "||0|1000", "a||0|7", &format!("a|a|{MAX_VERSION}|7")] {
        assert_eq!(list(&mut hub, fields), "ok|0");
    }
}

#[test]
fn the_longest_page_fits_the_least_buffer() {
    let mut hub = Hub::from_number(1024, SPENT - 1024);
    for number in 0..1024 {
        let line = format!(
            "9999-12-30T00:00:00.123Z|wth|PUT|{}{number:04}|18446744073709551615|5497558138880|COMPLIANCE|9999-12-31T23:59:59.999Z|OFF",
            "k".repeat(59)
        );
        hub.bucket.serve(line.replace('|', "\t").as_bytes(), &mut [0; 256]).unwrap();
    }
    let said = list(&mut hub, "||0|1000");
    let lines: Vec<&str> = said.lines().collect();
    assert_eq!((lines[0], lines.len()), ("ok|1000", 1001));
    assert!(
        lines[1..].iter().all(|line| line.len() == 189),
        "a row's line has at most 190 bytes with its feed"
    );
}

/// A bucket of many versions under keys that begin one another.
fn many() -> Hub {
    let mut hub = Hub::new(200);
    let keys = ["a", "a/", "a/1", "a/11", "a/2", "ab", "b", "-", "!", "~", "a/1/x"];
    for turn in 0..150 {
        let key = keys[turn * 7 % keys.len()];
        let line = match turn % 5 {
            0 => format!("{T}|d|DELETE|{key}|-|no"),
            1 => format!("{T}|wt|PUT|{key}|{turn}|1|GOVERNANCE|2024-02-01T00:00:00Z|-"),
            2 => format!("{T}|wth|PUT|{key}|{turn}|1|COMPLIANCE|2024-02-01T00:00:00.5Z|ON"),
            _ => format!("{T}|w|PUT|{key}|{turn}|1|-|-|-"),
        };
        assert!(hub.say(&line).starts_with("ok"));
    }
    hub
}

#[test]
fn followed_pages_show_every_matching_row_once_and_no_others() {
    for mut hub in [example(), many(), Hub::new(3)] {
        for prefix in ["", "a", "a/", "a/1", "a/1/", "a/11", "b", "-", "!", "~", "c", "none"] {
            let lines = plain::matching(&hub.bucket, prefix);
            let matching: Vec<String> = lines.iter().map(|line| line.replace('\t', "|")).collect();
            for count in [1, 2, 3, 7, matching.len().max(1), matching.len() + 1, 1000] {
                assert_eq!(hub.followed(prefix, count), matching, "{prefix} by {count}");
            }
        }
    }
}

/// The page of 5 rows after a place that a plain filter yields.
fn filtered(table: &[(String, Row)], prefix: &str, key: &str, version: u64) -> String {
    let after = |of: &str, number: u64| of > key || of == key && (version == 0 || number < version);
    let rows = table.iter().filter(|(of, row)| of.starts_with(prefix) && after(of, row[VERSION])).take(5);
    let shown: Vec<String> = rows.map(|(of, row)| plain::line(of, row).replace('\t', "|")).collect();
    [vec![format!("ok|{}", shown.len())], shown].concat().join("\n")
}

#[test]
fn each_place_against_a_plain_filter() {
    let mut hub = many();
    let table = hub.table();
    for key in ["!", "a", "a/", "a/1", "a/10", "a/2", "b", "~", "~~"] {
        for version in (0..=151).chain([MAX_VERSION]) {
            for prefix in ["", "a", "a/1", "~"] {
                let said = hub.say_in(256 + 256 * 5, &format!("{T}|r|LIST|{prefix}|{key}|{version}|5"));
                assert_eq!(said, filtered(&table, prefix, key, version), "{prefix}|{key}|{version}");
            }
        }
    }
}
