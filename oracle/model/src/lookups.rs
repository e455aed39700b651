//! Lookups over tables that may hold anything: what a map has if it is fit, and what is found in it.

use crate::parse::{number, ABSENT};
use records::{Listing, Looked, Memory, Numbered};

pub const BAD_VALUE: u32 = 7;
pub const NO_SUCH: u32 = 14;
pub const UNFIT: u32 = 24;

/// A file with words that are said to be the tables of it, and with numbers that are said to be reported of it.
pub struct Lent<'a> {
    pub file: &'a [u8],
    pub pairs: &'a [u32],
    pub maps: &'a [u32],
    pub tx_version: u32,
    pub fallback: Option<u32>,
    pub inputs: u64,
    pub outputs: u64,
}

/// A pair of a fit map.
#[derive(Clone, Copy)]
pub struct Entry<'a> {
    pub place: [usize; 4],
    pub key: &'a [u8],
    pub value: &'a [u8],
}

/// The pairs of a map, or its refusal.
pub type Map<'a> = Result<Vec<Entry<'a>>, u32>;

/// What lengths of a value are right.
#[derive(Clone, Copy)]
pub enum Wanted {
    Any,
    Exactly(usize),
    /// Some keys of 33 bytes.
    Keys,
}
use Wanted::{Any, Exactly, Keys};

impl Wanted {
    fn fits(self, length: usize) -> bool {
        match self {
            Any => true,
            Exactly(n) => length == n,
            Keys => length > 0 && length % 33 == 0,
        }
    }
}

impl<'a> Lent<'a> {
    pub fn of(memory: &'a Memory) -> Self {
        let fallback = memory.reported(2);
        Lent {
            file: &memory.file,
            pairs: &memory.pairs,
            maps: &memory.maps,
            tx_version: memory.reported(1) as u32,
            fallback: (fallback != ABSENT).then_some(fallback as u32),
            inputs: memory.reported(4),
            outputs: memory.reported(5),
        }
    }

    fn part(&self, start: u32, length: u32) -> Option<&'a [u8]> {
        self.file.get(start as usize..start as usize + length as usize)
    }

    /// The pairs of a map, if all is fit.
    pub fn map(&self, number: u128) -> Map<'a> {
        if number >= 1 + u128::from(self.inputs) + u128::from(self.outputs) {
            return Err(NO_SUCH);
        }
        self.entries(number).ok_or(UNFIT)
    }

    fn entries(&self, number: u128) -> Option<Vec<Entry<'a>>> {
        let entry = self.maps.chunks_exact(2).nth(usize::try_from(number).ok()?)?;
        let (first, count) = (entry[0] as usize, entry[1] as usize);
        if first + count > self.pairs.len() / 4 {
            return None;
        }
        let mut entries: Vec<Entry> = Vec::new();
        for words in self.pairs.chunks_exact(4).skip(first).take(count) {
            let (key, value) = (self.part(words[0], words[1])?, self.part(words[2], words[3])?);
            if key.is_empty() || entries.last().is_some_and(|last| last.key >= key) {
                return None;
            }
            entries.push(Entry { place: [0, 1, 2, 3].map(|i| words[i] as usize), key, value });
        }
        Some(entries)
    }

    pub fn input(&self, number: u64) -> Map<'a> {
        if number >= self.inputs {
            return Err(NO_SUCH);
        }
        self.map(1 + u128::from(number))
    }

    pub fn output(&self, number: u64) -> Map<'a> {
        if number >= self.outputs {
            return Err(NO_SUCH);
        }
        self.map(1 + u128::from(self.inputs) + u128::from(number))
    }

    /// All reported maps, or the refusal of the first that is unfit.
    pub fn all(&self) -> Result<Vec<Vec<Entry<'a>>>, u32> {
        (0..1 + u128::from(self.inputs) + u128::from(self.outputs)).map(|number| self.map(number)).collect()
    }
}

pub fn find<'e, 'a>(map: &'e [Entry<'a>], key_type: u8, data: &[u8]) -> Option<&'e Entry<'a>> {
    map.iter().find(|entry| entry.key[0] == key_type && &entry.key[1..] == data)
}

pub fn look(map: &Map, key_type: u8, data: &[u8], wanted: Wanted) -> Looked {
    match find(map.as_ref().map_err(|e| *e)?, key_type, data) {
        None => Ok(None),
        Some(entry) if wanted.fits(entry.value.len()) => Ok(Some((entry.place[2], entry.place[3]))),
        Some(_) => Err(BAD_VALUE),
    }
}

/// A lookup whose key has to be right, in a map that has to be fit first.
fn keyed(map: &Map, right: bool, key_type: u8, data: &[u8], wanted: Wanted) -> Looked {
    map.as_ref().map_err(|e| *e)?;
    if right {
        look(map, key_type, data, wanted)
    } else {
        Err(BAD_VALUE)
    }
}

pub fn numbered(map: &Map, key_type: u8, width: usize) -> Numbered {
    look(map, key_type, &[], Exactly(width))?;
    let entry = find(map.as_ref().unwrap(), key_type, &[]);
    Ok(entry.map(|entry| number(entry.value)))
}

pub fn list(map: &Map, key_type: u8) -> Listing {
    let map = map.as_ref().map_err(|e| *e)?;
    let below = map.iter().filter(|entry| entry.key[0] < key_type).count();
    Ok((below, map.iter().filter(|entry| entry.key[0] == key_type).count()))
}

pub fn nth<'a>(map: &Map<'a>, n: u64) -> Result<Entry<'a>, u32> {
    let map = map.as_ref().map_err(|e| *e)?;
    usize::try_from(n).ok().and_then(|n| map.get(n).copied()).ok_or(NO_SUCH)
}

/// By a scan key of 33 bytes.
pub fn scanned(map: &Map, key_type: u8, scan: &[u8], width: usize) -> Looked {
    keyed(map, scan.len() == 33, key_type, scan, Exactly(width))
}

fn leaf_fits(leaf: &[u8]) -> bool {
    leaf.is_empty() || leaf.len() == 32
}

/// By participant and aggregate of 33 bytes, and perhaps a leaf hash.
pub fn signer(map: &Map, key_type: u8, participant: &[u8], aggregate: &[u8], leaf: &[u8], width: usize) -> Looked {
    let right = participant.len() == 33 && aggregate.len() == 33 && leaf_fits(leaf);
    keyed(map, right, key_type, &[participant, aggregate, leaf].concat(), Exactly(width))
}

/// A list of participants by an aggregate of 33 bytes, and perhaps a leaf hash.
pub fn participants(map: &Map, key_type: u8, aggregate: &[u8], leaf: &[u8]) -> Looked {
    let right = aggregate.len() == 33 && leaf_fits(leaf);
    keyed(map, right, key_type, &[aggregate, leaf].concat(), Keys)
}

pub fn participant_count(list: Looked) -> Numbered {
    Ok(list?.map(|(_, length)| (length / 33) as u64))
}

pub fn participant(list: Looked, n: u64) -> Looked {
    match list? {
        None => Ok(None),
        Some((start, length)) if n < (length / 33) as u64 => Ok(Some((start + 33 * n as usize, 33))),
        Some(_) => Err(NO_SUCH),
    }
}

/// A witness UTXO: 8 bytes of amount, one of length up to fc, exactly so many of script. Its amount, and where its script stands.
pub fn utxo(map: &Map) -> Result<Vec<u64>, u32> {
    let Some((start, length)) = look(map, 0x01, &[], Any)? else { return Ok(vec![]) };
    let value = find(map.as_ref().unwrap(), 0x01, &[]).unwrap().value;
    if length >= 9 && value[8] <= 0xfc && length == 9 + usize::from(value[8]) {
        Ok(vec![number(&value[..8]), start as u64 + 9, length as u64 - 9])
    } else {
        Err(BAD_VALUE)
    }
}
