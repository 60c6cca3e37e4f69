//! The program of the document's end: lines in, answers out.
use crate::answers;
use crate::bucket::{Bucket, MAX_CAPACITY};
use crate::bytes::marks_of_64;
use crate::requests::MAX_LINE;
use std::io::{self, ErrorKind, Read, Write};

/// The bytes of the program's answer buffer.
const ANSWER: usize = 65536;
/// The bytes that are read at once, at most.
const BLOCK: usize = 65536;

/// The bucket that is served, and the answers that are still to be written, which have room for one more.
struct Program<W> {
    bucket: Bucket,
    answers: Vec<u8>,
    length: usize,
    output: W,
}

impl<W: Write> Program<W> {
    /// Serves a line; its answer is written where the last one ends.
    #[inline(always)]
    fn serve(&mut self, line: &[u8]) -> io::Result<()> {
        let answer = &mut self.answers[self.length..self.length + ANSWER];
        let served = self.bucket.serve(line, answer);
        self.length += served.unwrap_or_else(|refusal| answers::write_refusal(refusal, answer));
        if self.length + ANSWER > self.answers.len() {
            self.write()?;
        }
        Ok(())
    }

    /// Serves the lines that end in these bytes, and says where the next one starts.
    fn serve_lines(&mut self, bytes: &[u8]) -> io::Result<usize> {
        let mut start = 0;
        let by_64 = bytes.len() - bytes.len() % 64;
        for base in (0..by_64).step_by(64) {
            let mut feeds = marks_of_64(bytes, base, b'\n');
            while feeds != 0 {
                let end = base + feeds.trailing_zeros() as usize;
                self.serve(&bytes[start..end])?;
                start = end + 1;
                feeds &= feeds - 1;
            }
        }
        for end in (by_64..bytes.len()).filter(|&at| bytes[at] == b'\n') {
            self.serve(&bytes[start..end])?;
            start = end + 1;
        }
        Ok(start)
    }

    fn write(&mut self) -> io::Result<()> {
        self.output.write_all(&self.answers[..self.length])?;
        self.length = 0;
        Ok(())
    }
}

/// Reads some bytes, none only at the input's end.
fn read(input: &mut impl Read, room: &mut [u8]) -> io::Result<usize> {
    loop {
        match input.read(room) {
            Err(error) if error.kind() == ErrorKind::Interrupted => continue,
            read => return read,
        }
    }
}

/// Serves every line of the input on a fresh bucket of 1024 rows.
pub fn run(mut input: impl Read, output: impl Write) -> io::Result<()> {
    let bucket = Bucket::fresh(MAX_CAPACITY);
    let mut program = Program { bucket, answers: vec![0; 2 * ANSWER], length: 0, output };
    // A line that has begun stands at the start, and is followed by what is read next; of a long one 513 bytes are kept.
    let mut bytes = vec![0; MAX_LINE + 1 + BLOCK];
    let mut begun = 0;
    loop {
        let count = read(&mut input, &mut bytes[begun..begun + BLOCK])?;
        if count == 0 {
            break;
        }
        let filled = begun + count;
        let start = program.serve_lines(&bytes[..filled])?;
        begun = (filled - start).min(MAX_LINE + 1);
        bytes.copy_within(start..start + begun, 0);
    }
    if begun > 0 {
        program.serve(&bytes[..begun])?;
    }
    program.write()?;
    program.output.flush()
}
