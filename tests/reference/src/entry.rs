//! A line served on a bucket, and on a bucket that stands in bytes.
use crate::answers::{self, LEAST_BUFFER};
use crate::bucket::{Bucket, MAX_CAPACITY};
use crate::refusals::{refuse, screen, SHORT_ANSWER, UNREADABLE, UNSOUND};
use crate::requests;
use crate::settings::{self, word, Settings};

/// The bytes of a row, of its numbers and of its key alike.
pub const ROW_BYTES: usize = 64;

/// What an accepted line gives: its answer's length, and how often it compared a rule's prefix with a key.
#[derive(Clone, Copy, Debug, PartialEq, Eq)]
pub struct Served {
    pub length: usize,
    pub comparisons: u64,
}

impl Bucket {
    /// Serves a line on a sound bucket: the length of the answer, or the refusal.
    pub fn serve(&mut self, line: &[u8], answer: &mut [u8]) -> Result<usize, u64> {
        self.serve_counted(line, answer).map(|served| served.length)
    }

    /// Serves a line on a sound bucket, and gives the comparisons beside the answer's length.
    #[inline]
    pub fn serve_counted(&mut self, line: &[u8], answer: &mut [u8]) -> Result<Served, u64> {
        refuse(answer.len() < LEAST_BUFFER, SHORT_ANSWER)?;
        let request = requests::read(line).ok_or(UNREADABLE)?;
        let now = self.settings.time.max(request.clock);
        screen(&request, now, answer.len())?;
        let said = self.carry_out(&request.verb, now)?;
        self.settings.time = now;
        Ok(Served { length: answers::write(&said, self, answer), comparisons: said.comparisons() })
    }

    /// The bucket that bytes say, sound or not, if their lengths fit one capacity.
    pub fn from_bytes(settings: &[u8], rows: &[u8], keys: &[u8]) -> Option<Bucket> {
        let settings = settings.try_into().ok()?;
        if !lengths_fit(rows, keys) {
            return None;
        }
        let row = |bytes: &[u8]| std::array::from_fn(|number| word(&bytes[8 * number..8 * number + 8]));
        Some(Bucket {
            settings: Settings::from_bytes(settings),
            rows: rows.chunks_exact(ROW_BYTES).map(row).collect(),
            keys: keys.as_chunks().0.to_vec(),
        })
    }

    /// Writes the bucket over bytes whose lengths fit it.
    pub fn to_bytes(&self, settings: &mut [u8], rows: &mut [u8], keys: &mut [u8]) {
        self.settings.to_bytes(settings.try_into().expect("the length was tested"));
        for (row, bytes) in self.rows.iter().zip(rows.chunks_exact_mut(ROW_BYTES)) {
            for (number, eight) in row.iter().zip(bytes.chunks_exact_mut(8)) {
                eight.copy_from_slice(&number.to_le_bytes());
            }
        }
        for (key, bytes) in self.keys.iter().zip(keys.chunks_exact_mut(ROW_BYTES)) {
            bytes.copy_from_slice(key);
        }
    }
}

fn lengths_fit(rows: &[u8], keys: &[u8]) -> bool {
    let capacity = rows.len() / ROW_BYTES;
    (1..=MAX_CAPACITY).contains(&capacity) && rows.len() == capacity * ROW_BYTES && keys.len() == rows.len()
}

/// Serves a line on bytes of any contents and length: 0 or the refusal.
pub fn serve_bytes(
    settings: &mut [u8],
    rows: &mut [u8],
    keys: &mut [u8],
    line: &[u8],
    answer: &mut [u8],
) -> u64 {
    serve_bytes_counted(settings, rows, keys, line, answer).err().unwrap_or(0)
}

/// Serves a line on bytes of any contents and length: how often it compared a rule's prefix with a key, or the refusal.
pub fn serve_bytes_counted(
    settings: &mut [u8],
    rows: &mut [u8],
    keys: &mut [u8],
    line: &[u8],
    answer: &mut [u8],
) -> Result<u64, u64> {
    let mut bucket = Bucket::from_bytes(settings, rows, keys).filter(Bucket::sound).ok_or(UNSOUND)?;
    let served = bucket.serve_counted(line, answer)?;
    bucket.to_bytes(settings, rows, keys);
    Ok(served.comparisons)
}

/// Makes bytes a fresh bucket: 0, or 1 where their lengths don't fit.
pub fn fresh_bytes(settings: &mut [u8], rows: &mut [u8], keys: &mut [u8]) -> u64 {
    if settings.len() != settings::BYTES || !lengths_fit(rows, keys) {
        return UNSOUND;
    }
    Bucket::fresh(rows.len() / ROW_BYTES).to_bytes(settings, rows, keys);
    0
}

/// The keys of the used rows, in their order; none where the bytes are no sound bucket.
pub fn keys_in_bytes(settings: &[u8], rows: &[u8], keys: &[u8]) -> Vec<Vec<u8>> {
    let Some(bucket) = Bucket::from_bytes(settings, rows, keys).filter(Bucket::sound) else {
        return Vec::new();
    };
    let used = bucket.settings.used as usize;
    bucket.keys[..used].iter().map(|key| key[1..=key[0] as usize].to_vec()).collect()
}
