//! The lines of a page's rows written a second time: each row of the table looked at, each field printed by itself.
use reference::bucket::{Block, Row, DATA};
use reference::{dates, Bucket};

pub fn date(instant: u64) -> String {
    String::from_utf8_lossy(&dates::print(instant)).into_owned()
}

/// A row's line, without its line feed.
pub fn line(key: &str, row: &Row) -> String {
    let [version, kind, created, body, length, mode, until, hold] = *row;
    let start = format!("{key}\t{version}");
    if kind != DATA {
        return format!("{start}\tmarker\t{}\t-\t-\t-\t-\tOFF", date(created));
    }
    let retention = match mode {
        0 => "-\t-".to_string(),
        1 => format!("GOVERNANCE\t{}", date(until)),
        _ => format!("COMPLIANCE\t{}", date(until)),
    };
    let hold = if hold == 1 { "ON" } else { "OFF" };
    format!("{start}\tdata\t{}\t{body}\t{length}\t{retention}\t{hold}", date(created))
}

/// The lines of all rows whose keys begin with a prefix, in the table's order.
pub fn matching(bucket: &Bucket, prefix: &str) -> Vec<String> {
    let key = |block: &Block| String::from_utf8_lossy(&block[1..=block[0] as usize]).into_owned();
    let rows = bucket.keys[..bucket.used()].iter().map(key).zip(&bucket.rows);
    rows.filter(|(key, _)| key.starts_with(prefix)).map(|(key, row)| line(&key, row)).collect()
}
