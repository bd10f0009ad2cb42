//! Lines out of a stream of bytes, none longer than the limit.

use std::io::{self, BufRead};
use std::ops::RangeInclusive;

/// The longest line, without its newline.
const LONGEST: usize = 512;

/// How many numbers a line may have.
pub type Counts = RangeInclusive<usize>;

/// What the stream gave for the next line.
pub enum Next {
    Line(Vec<u8>),
    /// Over-long, or the stream ended before its newline.
    Broken,
    /// The stream had ended already.
    End,
}

/// A stream of which the lines are taken one by one.
pub struct Lines<R> {
    stream: R,
}

impl<R: BufRead> Lines<R> {
    pub fn new(stream: R) -> Self {
        Lines { stream }
    }

    pub fn next_line(&mut self) -> io::Result<Next> {
        let mut line = Vec::new();
        loop {
            let bytes = match self.stream.fill_buf() {
                Err(error) if error.kind() == io::ErrorKind::Interrupted => continue,
                other => other?,
            };
            if bytes.is_empty() {
                return Ok(if line.is_empty() { Next::End } else { Next::Broken });
            }
            let end = bytes.iter().position(|byte| *byte == b'\n');
            let taken = end.unwrap_or(bytes.len());
            // Said at once: the rest of such a line is never waited for.
            if line.len() + taken > LONGEST {
                return Ok(Next::Broken);
            }
            line.extend_from_slice(&bytes[..taken]);
            self.stream.consume(taken + usize::from(end.is_some()));
            if end.is_some() {
                return Ok(Next::Line(line));
            }
        }
    }
}

/// The numbers of a line, when it has just this tag and a count of them that
/// it may have.
pub fn numbers(line: &[u8], tag: u8, counts: &Counts) -> Option<Vec<u64>> {
    let mut fields = line.split(|byte| *byte == b'\t');
    if fields.next()? != [tag] {
        return None;
    }
    let numbers: Vec<u64> = fields.map(decimal).collect::<Option<_>>()?;
    counts.contains(&numbers.len()).then_some(numbers)
}

/// Digits alone, no leading zero but for 0 itself, below 2^64.
fn decimal(field: &[u8]) -> Option<u64> {
    if field.is_empty() || (field[0] == b'0' && field.len() > 1) {
        return None;
    }
    field.iter().try_fold(0u64, |value, byte| {
        let digit = byte.is_ascii_digit().then(|| u64::from(byte - b'0'))?;
        value.checked_mul(10)?.checked_add(digit)
    })
}
