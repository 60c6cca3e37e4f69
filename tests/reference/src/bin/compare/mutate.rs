//! Lines that are damaged: most can't be read, some still can.
use crate::random::Random;

/// Fields at and over the limits, to stand in for some other field.
const FIELDS: [&str; 41] = [
    "",
    "-",
    "0",
    "00",
    "1",
    "7",
    "8",
    "+1",
    "-1",
    "1000",
    "1001",
    "36500",
    "36501",
    "36500d",
    "36501d",
    "100y",
    "101y",
    "0d",
    "4294967295",
    "4294967296",
    "4294967297",
    "5497558138880",
    "5497558138881",
    "18446744073709551614",
    "18446744073709551615",
    "18446744073709551616",
    "99999999999999999999999",
    "yes",
    "no",
    "ON",
    "OFF",
    "GOVERNANCE",
    "COMPLIANCE",
    "compliance",
    "rwdthbc",
    "rr",
    "SWEEP",
    "GETS",
    "LIST",
    "REPORT",
    "report",
];

const DATES: [&str; 14] = [
    "1970-01-01T00:00:00Z",
    "1969-12-31T23:59:59Z",
    "9999-12-31T23:59:59.999Z",
    "10000-01-01T00:00:00Z",
    "2100-02-29T00:00:00Z",
    "2000-02-29T00:00:00Z",
    "1990-12-31T23:59:60Z",
    "2024-13-01T00:00:00Z",
    "2024-04-31T00:00:00Z",
    "2024-03-01T24:00:00Z",
    "2024-03-01T00:00:00.Z",
    "2024-03-01T00:00:00.1234567890Z",
    "1996-12-19T16:39:57-08:00",
    "2024-03-01T00:00:00.123456789Z",
];

fn fields(line: &[u8]) -> Vec<Vec<u8>> {
    line.split(|&byte| byte == b'\t').map(<[u8]>::to_vec).collect()
}

fn some_field(random: &mut Random) -> Vec<u8> {
    match random.below(8) {
        0 => vec![b'k'; 62 + random.below(4)],
        1 | 2 => random.pick(&DATES).into(),
        3 => (0..random.below(6)).map(|_| random.next() as u8).collect(),
        _ => random.pick(&FIELDS).into(),
    }
}

fn change_fields(line: &[u8], random: &mut Random) -> Vec<u8> {
    let mut fields = fields(line);
    let at = random.below(fields.len());
    match random.below(5) {
        0 => drop(fields.remove(at)),
        1 => fields.insert(at, Vec::new()),
        2 => fields.insert(at, some_field(random)),
        _ => fields[at] = some_field(random),
    }
    fields.join(&b'\t')
}

/// A damaged copy of a line.
pub fn mutated(line: &[u8], random: &mut Random) -> Vec<u8> {
    let mut line = line.to_vec();
    match random.below(9) {
        0 | 1 => {
            let at = random.below(line.len());
            line[at] ^= 1 << random.below(8);
        }
        2 => {
            let length = random.below(line.len());
            line.truncate(length);
        }
        3 => line.push(random.next() as u8),
        4 => {
            let length = random.pick(&[255, 511, 512, 513, 600, 5000]);
            line.resize(length, random.pick(b"k\t-0"));
        }
        5 => {
            let at = random.below(line.len() + 1);
            line.insert(at, random.pick(b"\t\n\r 0Z.!~\0\x7f\x80"));
        }
        _ => line = change_fields(&line, random),
    }
    line
}
