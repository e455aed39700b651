//! Answers, and the lines that tell them.

use crate::memory::FILL;
use std::fmt::Write as _;

/// A place in the file: where it begins and how long it is.
pub type Looked = Result<Option<(usize, usize)>, u32>;
pub type Numbered = Result<Option<u64>, u32>;
/// The first pair's number in its map, and how many there are.
pub type Listing = Result<(usize, usize), u32>;

/// How many bytes of a part a line shows.
const SHOWN: usize = 65_536;

/// What a call writes or hands back.
#[derive(Debug, Clone, PartialEq, Eq)]
pub enum Left {
    Nothing,
    /// Both tables of a parse.
    Tables(Vec<u32>, Vec<u32>),
    /// The script table or a transaction's buffer.
    Bytes(Vec<u8>),
    /// A part of the file or of the script table.
    Part(Vec<u8>),
}

#[derive(Debug, Clone, PartialEq, Eq)]
pub struct Answer {
    /// 0, or the refusal.
    pub number: u32,
    /// How many values there are, the values, zeros.
    pub words: [u64; 8],
    pub left: Left,
    /// Told by the harness alone, of a transaction whose inputs ask a lock: the fallback.
    pub fallback: Option<u32>,
}

impl Answer {
    pub fn told(number: u32, values: &[u64]) -> Self {
        let mut words = [0; 8];
        words[0] = values.len() as u64;
        words[1..=values.len()].copy_from_slice(values);
        Answer { number, words, left: Left::Nothing, fallback: None }
    }

    pub fn values(values: Result<Vec<u64>, u32>) -> Self {
        match values {
            Ok(values) => Self::told(0, &values),
            Err(number) => Self::told(number, &[]),
        }
    }

    pub fn looked(looked: Looked) -> Self {
        Self::values(looked.map(|found| found.map_or(vec![], |(start, length)| vec![start as u64, length as u64])))
    }

    pub fn numbered(numbered: Numbered) -> Self {
        Self::values(numbered.map(|number| number.into_iter().collect()))
    }

    pub fn listing(listing: Listing) -> Self {
        Self::values(listing.map(|(first, count)| vec![first as u64, count as u64]))
    }

    /// A part that is handed back: its bytes alone, none for absence and refusal.
    pub fn part(part: &[u8]) -> Self {
        Self::told(0, &[]).leaving(Left::Part(part.to_vec()))
    }

    pub fn leaving(self, left: Left) -> Self {
        Answer { left, ..self }
    }

    /// The line of a call.
    pub fn line(&self, call: u8) -> String {
        let mut line = format!("{call} {}", self.number);
        for word in before(&self.words, 0) {
            write!(line, " {word}").unwrap();
        }
        match &self.left {
            Left::Nothing => {}
            Left::Tables(pairs, maps) => {
                for table in [pairs, maps] {
                    line.push_str(" :");
                    for word in before(table, u32::from_le_bytes([FILL; 4])) {
                        write!(line, " {word}").unwrap();
                    }
                }
            }
            Left::Bytes(bytes) => put_hex(&mut line, before(bytes, FILL)),
            Left::Part(part) => put_hex(&mut line, &part[..part.len().min(SHOWN)]),
        }
        if let Some(fallback) = self.fallback {
            write!(line, " fallback {fallback}").unwrap();
        }
        line
    }
}

/// All cells but those at the end that are as given.
fn before<T: PartialEq>(cells: &[T], end: T) -> &[T] {
    &cells[..cells.iter().rposition(|cell| *cell != end).map_or(0, |last| last + 1)]
}

fn put_hex(line: &mut String, bytes: &[u8]) {
    line.push_str(if bytes.is_empty() { " :" } else { " : " });
    for byte in bytes {
        write!(line, "{byte:02x}").unwrap();
    }
}
