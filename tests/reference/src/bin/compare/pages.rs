//! What an answer shows of a page, read off its bytes alone.

/// The rows' lines of a page that stands at the start of an answer buffer, without their line feeds.
pub fn shown(answer: &[u8]) -> Option<Vec<String>> {
    let mut lines =
        answer.split(|&byte| byte == b'\n').map(|line| String::from_utf8_lossy(line).into_owned());
    let count: usize = lines.next()?.strip_prefix("ok\t")?.parse().ok()?;
    let rows: Vec<String> = lines.take(count).collect();
    (rows.len() == count).then_some(rows)
}

/// The place of a row: the key and version fields of its line.
pub fn place_of(line: &str) -> String {
    line.split('\t').take(2).collect::<Vec<_>>().join("\t")
}
