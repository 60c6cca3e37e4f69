//! A bucket for the tests, served with lines in which `|` stands for a tab.
#![allow(dead_code)]
use reference::answers::page_buffer;
use reference::bucket::{Block, Row};
use reference::settings::SPENT;
use reference::Bucket;

pub struct Hub {
    pub bucket: Bucket,
}

impl Hub {
    pub fn new(capacity: usize) -> Hub {
        Hub { bucket: Bucket::fresh(capacity) }
    }

    /// A fresh bucket but for its next version number.
    pub fn from_number(capacity: usize, next: u64) -> Hub {
        let mut hub = Hub::new(capacity);
        hub.bucket.settings.next = next;
        hub
    }

    /// A full bucket without a version number left, its default ending after the last instant; its row is a marker of m.
    pub fn spent() -> Hub {
        let mut hub = Hub::new(1);
        hub.run(&[
            ("9999-12-31T23:59:59.999Z|c|DEFAULT|COMPLIANCE|100y", "ok"),
            ("9999-12-31T23:59:59.999Z|d|DELETE|m|-|no", "ok|1|marker"),
        ]);
        hub.bucket.settings.next = SPENT;
        hub
    }

    /// What a line comes to on the bucket's bytes, which need not be sound.
    pub fn number_by_bytes(&self, room: usize, line: &str) -> u64 {
        let length = 64 * self.bucket.capacity();
        let (mut settings, mut rows, mut keys) = (vec![0; 688], vec![0; length], vec![0; length]);
        self.bucket.to_bytes(&mut settings, &mut rows, &mut keys);
        let line = line.replace('|', "\t");
        reference::serve_bytes(&mut settings, &mut rows, &mut keys, line.as_bytes(), &mut vec![0; room])
    }

    /// The answer to a line, as `bucketrun` prints it; a refusal changes nothing.
    pub fn say(&mut self, line: &str) -> String {
        self.say_in(300, line)
    }

    /// The answer to a line with an answer buffer of so many bytes.
    pub fn say_in(&mut self, room: usize, line: &str) -> String {
        let before = self.bucket.clone();
        let mut answer = vec![b'?'; room];
        let said = match self.bucket.serve(line.replace('|', "\t").as_bytes(), &mut answer) {
            Ok(length) => {
                assert!(answer[length..].iter().all(|&byte| byte == b'?'), "bytes after the answer");
                String::from_utf8(answer[..length].to_vec()).unwrap()
            }
            Err(number) => {
                assert_eq!(before, self.bucket, "a refusal changes nothing");
                assert!(answer.iter().all(|&byte| byte == b'?'), "a refusal writes nothing");
                format!("no\t{number}\n")
            }
        };
        assert!(self.bucket.sound(), "the bucket is sound after {line}");
        said.strip_suffix('\n').unwrap().replace('\t', "|")
    }

    /// Serves lines and compares each answer.
    pub fn run(&mut self, lines: &[(&str, &str)]) {
        for (line, expected) in lines {
            assert_eq!(self.say(line), *expected, "{line}");
        }
    }

    /// The lines of the pages of one prefix, followed from the start by the last line's key and version.
    pub fn followed(&mut self, prefix: &str, count: usize) -> Vec<String> {
        let mut shown: Vec<String> = Vec::new();
        let mut place = "|0".to_string();
        loop {
            let line = format!("1970-01-01T00:00:00Z|r|LIST|{prefix}|{place}|{count}");
            let said = self.say_in(page_buffer(count), &line);
            let mut lines = said.lines().map(str::to_string);
            let rows: usize = lines.next().unwrap().strip_prefix("ok|").unwrap().parse().unwrap();
            let before = shown.len();
            shown.extend(lines);
            assert_eq!(shown.len(), before + rows, "as many rows as the first line says");
            assert!(rows <= count);
            if rows < count {
                return shown;
            }
            let mut fields = shown[shown.len() - 1].split('|');
            place = format!("{}|{}", fields.next().unwrap(), fields.next().unwrap());
        }
    }

    /// The used rows with their keys as text.
    pub fn table(&self) -> Vec<(String, Row)> {
        let text = |key: &Block| String::from_utf8(key[1..=key[0] as usize].to_vec()).unwrap();
        (0..self.bucket.used()).map(|at| (text(&self.bucket.keys[at]), self.bucket.rows[at])).collect()
    }

    /// The used rows as key and version number.
    pub fn names(&self) -> Vec<(String, u64)> {
        self.table().into_iter().map(|(key, row)| (key, row[0])).collect()
    }
}

pub fn names(list: &[(&str, u64)]) -> Vec<(String, u64)> {
    list.iter().map(|(key, number)| (key.to_string(), *number)).collect()
}
