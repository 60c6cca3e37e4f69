//! The stations' files say what the page about them says.
use std::fs;
use std::path::PathBuf;

/// The bytes that a cell of the page stands for: `¦` is a tab, `↵` a line feed, `{k*63}` 63 letters k, `{7F}` the byte 0x7F.
fn bytes_of(cell: &str) -> Vec<u8> {
    let cell = cell.trim();
    if cell == "(empty)" {
        return Vec::new();
    }
    let mut rest =
        cell.strip_prefix('`').and_then(|c| c.strip_suffix('`')).unwrap_or_else(|| panic!("no code: {cell}"));
    let mut bytes = Vec::new();
    while let Some(c) = rest.chars().next() {
        rest = &rest[c.len_utf8()..];
        match c {
            '¦' => bytes.push(b'\t'),
            '↵' => bytes.push(b'\n'),
            '{' => {
                let (word, behind) = rest.split_once('}').expect("a closing brace");
                rest = behind;
                match word.split_once('*') {
                    Some((letter, count)) => {
                        bytes.extend(letter.repeat(count.parse().expect("a count")).bytes())
                    }
                    None => bytes.push(u8::from_str_radix(word, 16).expect("a byte")),
                }
            }
            _ => bytes.extend(c.to_string().bytes()),
        }
    }
    bytes
}

#[test]
fn the_files_are_those_of_the_page() {
    let root = PathBuf::from(env!("CARGO_MANIFEST_DIR")).join("../..");
    let page = fs::read_to_string(root.join("tests/stations.md")).expect("the page");
    let (mut lines, mut answers, mut count, mut measured) = (Vec::new(), Vec::new(), 0, 0);
    for row in page.lines().filter(|row| row.starts_with("| ") && row.as_bytes()[2].is_ascii_digit()) {
        let cells: Vec<&str> = row.split('|').collect();
        count += 1;
        assert_eq!(cells[1].trim(), count.to_string(), "the stations are numbered");
        let line = bytes_of(cells[2]);
        assert!(!line.contains(&b'\n'), "a request is one line");
        if let Some(said) = cells[4].trim().strip_prefix("a line of ") {
            let (length, _) = said.split_once(' ').expect("a length");
            assert_eq!(line.len().to_string(), length, "station {count} is as long as it says");
            measured += 1;
        }
        lines.extend([line, vec![b'\n']].concat());
        answers.extend([bytes_of(cells[3]), vec![b'\n']].concat());
    }
    assert!(count > 0 && measured > 0, "there are stations, and some of a given length");
    assert!(fs::read(root.join("crates/stations/stdin")).expect("the lines") == lines, "stdin is the page's");
    assert!(
        fs::read(root.join("crates/stations/stdout")).expect("the answers") == answers,
        "stdout is the page's"
    );
}
