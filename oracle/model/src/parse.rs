//! Parsing, with rooms.

use records::{laid, Answer, Left, Memory, LIMIT};

const EOF: u32 = 2;
const LEFT_OVER_IN_COUNT: u32 = 3;
const DUPLICATE: u32 = 5;
const UNSORTED: u32 = 6;
const BAD_VALUE: u32 = 7;
const MISSING_COUNTS: u32 = 8;
const NOT_ALLOWED: u32 = 13;
const MISSING_SCRIPT: u32 = 17;
const SILENT_PAYMENT: u32 = 18;

#[derive(Clone, Copy, PartialEq)]
enum Kind {
    Global,
    Input,
    Output,
}
use Kind::*;

/// What a value's length has to be.
#[derive(Clone, Copy)]
enum Size {
    Exactly(usize),
    /// At least 4, a multiple of 4.
    Fours,
}
use Size::*;

/// Checked whatever the key data: map, type, key data length, value length.
const SIZED: [(Kind, u8, usize, Size); 8] = [
    (Global, 0x07, 33, Exactly(33)),
    (Global, 0x08, 33, Exactly(64)),
    (Input, 0x1d, 33, Exactly(33)),
    (Input, 0x1e, 33, Exactly(64)),
    (Input, 0x20, 0, Exactly(32)),
    (Input, 0x1f, 33, Fours),
    (Output, 0x09, 0, Exactly(66)),
    (Output, 0x0a, 0, Exactly(4)),
];

/// Checked only with empty key data: map, type, value length.
const SIZED_ALONE: [(Kind, u8, usize); 11] = [
    (Global, 0x02, 4),
    (Global, 0x03, 4),
    (Global, 0xfb, 4),
    (Input, 0x03, 4),
    (Input, 0x0f, 4),
    (Input, 0x10, 4),
    (Input, 0x11, 4),
    (Input, 0x12, 4),
    (Global, 0x06, 1),
    (Input, 0x0e, 32),
    (Output, 0x03, 8),
];

/// A number from its bytes, the least first.
pub fn number(bytes: &[u8]) -> u64 {
    bytes.iter().rev().fold(0, |n, b| n * 256 + u64::from(*b))
}

/// How many bytes follow the first byte of a compact size.
fn more(first: u8) -> usize {
    match first {
        0xfd => 2,
        0xfe => 4,
        0xff => 8,
        _ => 0,
    }
}

/// The compact size at `at`, and where it ends; none if the bytes run out.
fn size(file: &[u8], at: usize) -> Option<(u64, usize)> {
    let first = *file.get(at)?;
    match more(first) {
        0 => Some((u64::from(first), at + 1)),
        n => file.get(at + 1..at + 1 + n).map(|bytes| (number(bytes), at + 1 + n)),
    }
}

/// Where a part of the stated length that begins at `at` ends; none if the file has no such part.
fn end_of(file: &[u8], at: usize, length: u64) -> Option<usize> {
    (u128::from(length) <= (file.len() - at) as u128).then(|| at + length as usize)
}

/// A count field's value. Its first byte counts as read even where the rest of the size is missing.
pub fn count(value: &[u8]) -> Result<u64, u32> {
    let Some((first, rest)) = value.split_first() else { return Err(EOF) };
    let wanted = more(*first);
    if rest.len() == wanted {
        Ok(if wanted == 0 { u64::from(*first) } else { number(rest) })
    } else if rest.is_empty() {
        Err(EOF)
    } else {
        Err(LEFT_OVER_IN_COUNT)
    }
}

/// The refusal that a pair's field rule gives, if any.
fn field_rule(kind: Kind, key: &[u8], value: &[u8]) -> Result<(), u32> {
    let (key_type, data) = (key[0], &key[1..]);
    for (k, t, data_length, size) in SIZED {
        if (k, t) == (kind, key_type) {
            let fits = match size {
                Exactly(n) => value.len() == n,
                Fours => value.len() >= 4 && value.len() % 4 == 0,
            };
            if data.len() != data_length || !fits {
                return Err(BAD_VALUE);
            }
        }
    }
    if !data.is_empty() {
        return Ok(());
    }
    for (k, t, length) in SIZED_ALONE {
        if (k, t) == (kind, key_type) && value.len() != length {
            return Err(BAD_VALUE);
        }
    }
    match (kind, key_type) {
        (Global, 0x00) => Err(NOT_ALLOWED),
        (Global, 0x04 | 0x05) => count(value).map(|_| ()),
        _ => Ok(()),
    }
}

/// The word of a value that is absent.
pub const ABSENT: u64 = u64::MAX;

/// What a parse reports of an accepted file.
struct Fields {
    tx_version: u32,
    fallback: Option<u32>,
    modifiable: Option<u8>,
    inputs: u64,
    outputs: u64,
}

/// A pair: key start, key length, value start, value length. A map: first pair, number of pairs.
struct Tables {
    pairs: Vec<[usize; 4]>,
    maps: Vec<[usize; 2]>,
}

struct Reading<'a> {
    file: &'a [u8],
    at: usize,
    pair_room: usize,
    map_room: usize,
    tables: Tables,
}

impl<'a> Reading<'a> {
    fn key(&self, pair: usize) -> &'a [u8] {
        let [start, length, _, _] = self.tables.pairs[pair];
        &self.file[start..start + length]
    }

    /// The value of a key in a map that has ended.
    fn find(&self, map: usize, key: &[u8]) -> Option<&'a [u8]> {
        let [first, number] = self.tables.maps[map];
        let pair = (first..first + number).find(|pair| self.key(*pair) == key)?;
        let [_, _, start, length] = self.tables.pairs[pair];
        Some(&self.file[start..start + length])
    }

    fn map(&mut self, kind: Kind) -> Result<(), u32> {
        if self.tables.maps.len() == self.map_room {
            return Err(23);
        }
        let first = self.tables.pairs.len();
        loop {
            let (key_length, key) = size(self.file, self.at).ok_or(EOF)?;
            if key_length == 0 {
                self.at = key;
                self.tables.maps.push([first, self.tables.pairs.len() - first]);
                return Ok(());
            }
            let key_end = end_of(self.file, key, key_length).ok_or(EOF)?;
            let key_bytes = &self.file[key..key_end];
            if self.tables.pairs.len() > first {
                let last = self.key(self.tables.pairs.len() - 1);
                if key_bytes < last {
                    return Err(UNSORTED);
                }
                if key_bytes == last {
                    return Err(DUPLICATE);
                }
            }
            let (value_length, value) = size(self.file, key_end).ok_or(EOF)?;
            let value_end = end_of(self.file, value, value_length).ok_or(EOF)?;
            field_rule(kind, key_bytes, &self.file[value..value_end])?;
            if self.tables.pairs.len() == self.pair_room {
                return Err(22);
            }
            self.tables.pairs.push([key, key_end - key, value, value_end - value]);
            self.at = value_end;
        }
    }

    fn file(&mut self) -> Result<Fields, u32> {
        if self.file.len() > LIMIT {
            return Err(21);
        }
        if !self.file.starts_with(&[0x70, 0x73, 0x62, 0x74, 0xff]) {
            return Err(1);
        }
        self.at = 5;
        self.map(Global)?;
        let global = |key: u8| self.find(0, &[key]);
        let (Some(tx), Some(inputs), Some(outputs), Some(version)) =
            (global(0x02), global(0x04), global(0x05), global(0xfb))
        else {
            return Err(MISSING_COUNTS);
        };
        if number(version) != 2 {
            return Err(NOT_ALLOWED);
        }
        let fields = Fields {
            tx_version: number(tx) as u32,
            fallback: global(0x03).map(|v| number(v) as u32),
            modifiable: global(0x06).map(|v| v[0]),
            inputs: count(inputs)?,
            outputs: count(outputs)?,
        };
        for _ in 0..fields.inputs {
            self.map(Input)?;
        }
        for _ in 0..fields.outputs {
            self.map(Output)?;
        }
        if self.at < self.file.len() {
            return Err(EOF);
        }
        let modifiable = fields.modifiable.unwrap_or(0) % 4 != 0;
        for output in 1 + fields.inputs as usize..self.tables.maps.len() {
            let script = self.find(output, &[0x04]).is_some();
            let code = self.find(output, &[0x09]).is_some();
            let label = self.find(output, &[0x0a]).is_some();
            if !script && !code {
                return Err(MISSING_SCRIPT);
            }
            if script && code && modifiable || label && !code {
                return Err(SILENT_PAYMENT);
            }
        }
        Ok(fields)
    }
}

/// Parses the file into the lent tables, whose whole entries are its room.
pub fn parse(memory: &mut Memory) -> Answer {
    let (pair_room, map_room) = (memory.pairs.len() / 4, memory.maps.len() / 2);
    let mut reading =
        Reading { file: &memory.file, at: 0, pair_room, map_room, tables: Tables { pairs: vec![], maps: vec![] } };
    let outcome = reading.file();
    let Tables { pairs, maps } = reading.tables;
    let used = [pairs.len() as u64, maps.len() as u64];
    let answer = match outcome {
        Err(number) => Answer::told(number, &used),
        Ok(fields) => Answer::told(
            0,
            &[
                u64::from(fields.tx_version),
                fields.fallback.map_or(ABSENT, u64::from),
                fields.modifiable.map_or(ABSENT, u64::from),
                fields.inputs,
                fields.outputs,
                used[0],
                used[1],
            ],
        ),
    };
    let words = |entries: Vec<usize>| -> Vec<u32> { entries.into_iter().map(|word| word as u32).collect() };
    let (pairs, maps) = (words(pairs.concat()), words(maps.concat()));
    answer.leaving(Left::Tables(laid(&mut memory.pairs, &pairs), laid(&mut memory.maps, &maps)))
}
