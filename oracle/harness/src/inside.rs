//! A module within the original: shows what it keeps private, and calls nothing but it.

use super::*;
use records::{Answer, Memory};

pub mod lookups;
pub mod transaction;

/// The word of a value that is absent.
const ABSENT: u64 = u64::MAX;

/// A pair: key start, key length, value start, value length. A map: first pair, number of pairs.
#[derive(Default)]
pub struct Tables {
    pub pairs: Vec<[usize; 4]>,
    pub maps: Vec<[usize; 2]>,
}

impl Tables {
    pub fn words(&self) -> (Vec<u32>, Vec<u32>) {
        let words = |entries: Vec<usize>| entries.into_iter().map(|word| word as u32).collect();
        (words(self.pairs.concat()), words(self.maps.concat()))
    }
}

/// A refusal's place in the enum, counted from 1.
pub fn number(error: PsbtError) -> u32 {
    error as u32 + 1
}

fn place(file: &[u8], part: &[u8]) -> usize {
    part.as_ptr() as usize - file.as_ptr() as usize
}

fn entry(file: &[u8], pair: &MapPair) -> [usize; 4] {
    // The type byte stands before the key data.
    [place(file, pair.key_data) - 1, pair.key_data.len() + 1, place(file, pair.value), pair.value.len()]
}

/// The entries of an accepted file.
pub fn tables(psbt: &Psbt) -> Tables {
    let mut tables = Tables::default();
    let inputs = psbt.inputs.iter().map(|input| &input.map);
    let outputs = psbt.outputs.iter().map(|output| &output.map);
    for map in core::iter::once(&psbt.global_map).chain(inputs).chain(outputs) {
        tables.maps.push([tables.pairs.len(), map.pairs.len()]);
        tables.pairs.extend(map.pairs.iter().map(|pair| entry(psbt.raw_psbt, pair)));
    }
    tables
}

/// What is reported of an accepted file.
pub fn report(psbt: &Psbt, tables: &Tables) -> Answer {
    Answer::told(
        0,
        &[
            u64::from(psbt.tx_version as u32),
            psbt.fallback_locktime.map_or(ABSENT, u64::from),
            psbt.tx_modifiable.map_or(ABSENT, u64::from),
            psbt.inputs.len() as u64,
            psbt.outputs.len() as u64,
            tables.pairs.len() as u64,
            tables.maps.len() as u64,
        ],
    )
}

/// The original's reading of the file, if memory holds what its own parse leaves there. Other tables it can't be asked about.
pub fn own<'a>(file: &'a [u8], memory: &Memory) -> Option<Psbt<'a>> {
    let psbt = Psbt::parse(file).ok()?;
    let tables = tables(&psbt);
    let (pairs, maps) = tables.words();
    let same = memory.pairs.starts_with(&pairs)
        && memory.maps.starts_with(&maps)
        && memory.report == report(&psbt, &tables).words;
    same.then_some(psbt)
}

/// The entries of the pairs accepted and the maps ended before a refusal, which the original doesn't report. Its own
/// `from_cursor` frames the pairs; whether its rules accepted one is asked by `accepted`.
pub fn before_refusal(file: &[u8]) -> Tables {
    let mut tables = Tables::default();
    if Psbt::parse(file).err() == Some(PsbtError::InvalidMagic) {
        return tables;
    }
    let mut cursor = Cursor::new(file, 5);

    let (global, ended) = frame(&mut cursor);
    let taken = global.partition_point(|pair| accepted(file, pair));
    tables.pairs.extend(global[..taken].iter().map(|pair| entry(file, pair)));
    if !ended || taken < global.len() {
        return tables;
    }
    tables.maps.push([0, taken]);
    // The file that ends with its global map tells whether that map was refused as a whole.
    if matches!(Psbt::parse(&file[..cursor.pos]), Err(PsbtError::MissingCounts | PsbtError::NotAllowed)) {
        return tables;
    }
    let count = |key_type: u8| {
        let pair = global.iter().find(|pair| pair.key_type == key_type && pair.key_data.is_empty()).unwrap();
        u64_from_compact_size(pair.value).unwrap() as u128
    };
    let maps = count(PSBT_GLOBAL_INPUT_COUNT) + count(PSBT_GLOBAL_OUTPUT_COUNT);

    let mut framed: Vec<MapPair> = Vec::new();
    let mut ends: Vec<usize> = Vec::new();
    while (ends.len() as u128) < maps {
        let (pairs, ended) = frame(&mut cursor);
        framed.extend(pairs);
        if !ended {
            break;
        }
        ends.push(framed.len());
    }
    let taken = framed.partition_point(|pair| accepted(file, pair));
    tables.pairs.extend(framed[..taken].iter().map(|pair| entry(file, pair)));
    let mut first = 0;
    for end in ends.into_iter().take_while(|end| *end <= taken) {
        tables.maps.push([global.len() + first, end - first]);
        first = end;
    }
    tables
}

/// The pairs of one map that are framed and in order, and whether the map ended.
fn frame<'a>(cursor: &mut Cursor<'a>) -> (Vec<MapPair<'a>>, bool) {
    let mut pairs = Vec::new();
    let ended = ParsedMap::from_cursor(cursor, |pair| {
        pairs.push(*pair);
        Ok(())
    })
    .is_ok();
    (pairs, ended)
}

/// Whether the original accepted a framed pair and everything before it: the file that ends behind the pair and then has its
/// key once more is refused as a duplicate key exactly if that key was reached.
fn accepted(file: &[u8], pair: &MapPair) -> bool {
    let [key, key_length, value, value_length] = entry(file, pair);
    let mut asked = file[..value + value_length].to_vec();
    asked.push(0xff);
    asked.extend_from_slice(&(key_length as u64).to_le_bytes());
    asked.extend_from_slice(&file[key..key + key_length]);
    Psbt::parse(&asked).err() == Some(PsbtError::DuplicateKey)
}
