//! What is asked of a file: lookups by its own keys, and its transaction, with and without scripts set before it.

use crate::group::{ample, Group};
use records::calls::*;
use records::{BUFFER, LIST, OUT, SCRIPTS, STATE};

/// How many maps are asked, and how many pairs of each.
const MOST_MAPS: usize = 12;
const MOST_PAIRS: usize = 24;

/// Bytes of the script table for each output.
pub const ENTRY: usize = 35;

/// A key: where its data stands, how long the data is, and its type.
#[derive(Clone, Copy)]
pub struct Key {
    data: u64,
    length: u64,
    key_type: u8,
}

/// The maps of a file, as far as they are framed. Nothing is judged: a file that is refused has maps too.
pub struct Framed {
    pub maps: Vec<Vec<Key>>,
    inputs: u64,
    pub outputs: u64,
    /// The outputs without 04.
    unscripted: Vec<u64>,
}

struct Walk<'a> {
    file: &'a [u8],
    at: usize,
}

impl<'a> Walk<'a> {
    fn take(&mut self, length: u64) -> Option<&'a [u8]> {
        let end = self.at.checked_add(usize::try_from(length).ok()?)?;
        let part = self.file.get(self.at..end)?;
        self.at = end;
        Some(part)
    }

    fn size(&mut self) -> Option<u64> {
        let first = self.take(1)?[0];
        let more = match first {
            0xfd => 2,
            0xfe => 4,
            0xff => 8,
            _ => return Some(first.into()),
        };
        let bytes = self.take(more)?;
        Some(bytes.iter().rev().fold(0, |number, byte| number << 8 | u64::from(*byte)))
    }

    /// A pair's key and its value; none in the first where the map ends.
    fn pair(&mut self) -> Option<Option<(Key, &'a [u8])>> {
        let length = self.size()?;
        if length == 0 {
            return Some(None);
        }
        let data = self.at as u64 + 1;
        let key = Key { data, length: length - 1, key_type: self.take(length)?[0] };
        let length = self.size()?;
        Some(Some((key, self.take(length)?)))
    }

    fn map(&mut self) -> Option<Vec<(Key, &'a [u8])>> {
        let mut pairs = Vec::new();
        while let Some(pair) = self.pair()? {
            pairs.push(pair);
        }
        Some(pairs)
    }
}

/// The value of a type with empty key data.
fn field<'a>(map: &[(Key, &'a [u8])], key_type: u8) -> Option<&'a [u8]> {
    map.iter().find(|(key, _)| key.key_type == key_type && key.length == 0).map(|(_, value)| *value)
}

pub fn framed(file: &[u8]) -> Framed {
    let mut walk = Walk { file, at: 5 };
    let mut maps = Vec::new();
    let mut counts = [0, 0];
    if let Some(global) = walk.map() {
        for (count, key_type) in counts.iter_mut().zip([0x04, 0x05]) {
            *count = field(&global, key_type).and_then(|value| Walk { file: value, at: 0 }.size()).unwrap_or(0);
        }
        maps.push(global);
        for _ in 0..counts[0].saturating_add(counts[1]) {
            let Some(map) = walk.map() else { break };
            maps.push(map);
        }
    }
    let outputs = (0u64..).zip(maps.iter().skip(1).skip(usize::try_from(counts[0]).unwrap_or(usize::MAX)));
    let unscripted = outputs.filter(|(_, map)| field(map, 0x04).is_none()).map(|(output, _)| output).collect();
    let keys = maps.iter().map(|map| map.iter().map(|(key, _)| *key).collect()).collect();
    Framed { maps: keys, inputs: counts[0], outputs: counts[1], unscripted }
}

/// All that is asked of a map with its number alone.
fn ask_fields(group: &mut Group, framed: &Framed, map: u64) {
    let calls: Vec<u8> = if map == 0 {
        vec![GLOBAL_SHARES, GLOBAL_PROOFS]
    } else if map <= framed.inputs {
        let fields = IN_NON_WITNESS_UTXO..=IN_SP_TWEAK;
        fields.chain([IN_DERIVATIONS, IN_SHARES, IN_PROOFS, IN_SPEND_DERIVATIONS, IN_UTXO, IN_UTXO_SCRIPT]).collect()
    } else {
        (OUT_REDEEM_SCRIPT..=OUT_SP_LABEL).chain([OUT_DERIVATIONS, SCRIPT, SCRIPT_PART]).collect()
    };
    for call in calls {
        group.ask_once(call, &[own_number(framed, map)]);
    }
}

/// The number of a map among its kind.
fn own_number(framed: &Framed, map: u64) -> u64 {
    match map {
        0 => 0,
        map if map <= framed.inputs => map - 1,
        map => map - 1 - framed.inputs,
    }
}

/// What the data of a key finds by the calls that take such keys.
fn ask_keyed(group: &mut Group, framed: &Framed, map: u64, key: Key) {
    let own = own_number(framed, map);
    let (start, length) = (key.data, key.length);
    // The data from there on, at most so long.
    let part = |from: u64, most: u64| [start + from, most.min(length.saturating_sub(from))];
    let [first, second] = [part(0, 33), part(33, 33)];
    if map == 0 && (0x07..=0x08).contains(&key.key_type) {
        group.ask_once(GLOBAL_SHARE, &[start, length]);
        group.ask_once(GLOBAL_PROOF, &[start, length]);
    } else if map > 0 && map <= framed.inputs && (0x1a..=0x1e).contains(&key.key_type) {
        group.ask_once(IN_SHARE, &[own, start, length]);
        group.ask_once(IN_PROOF, &[own, start, length]);
        let leaf = part(66, length);
        for call in [IN_NONCE, IN_SIGNATURE] {
            group.ask_once(call, &[own, first[0], first[1], second[0], second[1], leaf[0], leaf[1]]);
        }
        let leaf = part(33, length);
        for (call, n) in [(IN_PARTICIPANTS, 0), (IN_PARTICIPANT_COUNT, 0), (IN_PARTICIPANT, 0), (IN_PARTICIPANT, 1)] {
            group.ask_once(call, &[own, first[0], first[1], leaf[0], leaf[1], n]);
        }
    } else if map > framed.inputs && key.key_type == 0x08 {
        for (call, n) in [(OUT_PARTICIPANTS, 0), (OUT_PARTICIPANT_COUNT, 0), (OUT_PARTICIPANT, 0), (OUT_PARTICIPANT, 1)]
        {
            group.ask_once(call, &[own, start, length, n]);
        }
    }
}

fn ask_pair(group: &mut Group, framed: &Framed, map: u64, pair: u64, key: Key) {
    let key_type = u64::from(key.key_type);
    for call in [NTH, NTH_KEY, NTH_VALUE] {
        group.ask_once(call, &[map, pair]);
    }
    group.ask_once(GET, &[map, key_type, key.data, key.length]);
    group.ask_once(GET_PART, &[map, key_type, key.data, key.length]);
    // With the byte behind it, and without its last byte.
    group.ask_once(GET, &[map, key_type, key.data, key.length + 1]);
    group.ask_once(GET, &[map, key_type, key.data, key.length.saturating_sub(1)]);
    group.ask_once(LISTED, &[map, key_type]);
    group.ask_once(LISTED, &[map, (key_type + 1) % 256]);
    if map > 0 {
        let call = if map <= framed.inputs { IN_KEYS } else { OUT_KEYS };
        group.ask_once(call, &[own_number(framed, map), key_type]);
    }
    ask_keyed(group, framed, map, key);
}

/// A parse, and lookups by the file's own keys, maps and numbers, one past their end too.
pub fn lookups(file: &[u8]) -> Group {
    let framed = framed(file);
    let mut group = Group::parsed(file, ample(file.len()));
    group.keys_of(file);
    for (map, keys) in (0u64..).zip(&framed.maps).take(MOST_MAPS) {
        ask_fields(&mut group, &framed, map);
        for (pair, key) in (0u64..).zip(keys).take(MOST_PAIRS) {
            ask_pair(&mut group, &framed, map, pair, *key);
        }
        for call in [NTH, NTH_KEY, NTH_VALUE] {
            group.ask_once(call, &[map, keys.len() as u64]);
        }
    }
    let past = framed.maps.len() as u64;
    for call in [GET, LISTED, NTH, GET_PART] {
        group.ask_once(call, &[past]);
    }
    group.ask_once(IN_SEQUENCE, &[framed.inputs]);
    group.ask_once(OUT_AMOUNT, &[framed.outputs]);
    group.ask_once(SCRIPT, &[framed.outputs]);
    group
}

/// How scripts are set: rightly, or in a way that is wrong.
#[derive(Clone, Copy, PartialEq)]
pub struct Way(u32);

impl Way {
    pub const RIGHT: Way = Way(0);
    pub const TWICE: Way = Way(8);
    pub const LATE: Way = Way(9);
    pub const MANY: u32 = 16;

    pub fn numbered(way: u32) -> Self {
        Way(way % Self::MANY)
    }
}

/// The list for the setter and the buffer that its scripts lie in: a taproot script with the output's number as its key for each
/// output without 04, or something that is wrong.
fn assignments(way: Way, framed: &Framed) -> (Vec<u64>, Vec<u8>) {
    let mut buffer = Vec::new();
    let mut list = Vec::new();
    for output in &framed.unscripted {
        list.extend([*output, buffer.len() as u64, 34]);
        put_script(&mut buffer, *output);
    }
    put_script(&mut buffer, framed.outputs);
    let first: [u64; 3] = [0, 1, 2].map(|i| list.get(i).copied().unwrap_or(0));
    let mut change = |at: usize, number: u64| {
        if let Some(place) = list.get_mut(at) {
            *place = number;
        }
    };
    match way.0 {
        4 => buffer[0] = 0x52,
        13 => buffer[1] = 0x21,
        5 => change(2, 33),
        14 => change(2, 35),
        11 => change(1, buffer.len() as u64 - 33),
        15 => change(0, u64::MAX),
        _ => {}
    }
    match way.0 {
        1 => list.clear(),
        2 => list.extend(first),
        3 => list.extend([framed.outputs, 0, 34]),
        6 if list.len() >= 6 => {
            list.swap(0, 3);
            list.swap(1, 4);
        }
        7 => list.extend([0, 0, 34]),
        10 => list.truncate(list.len().saturating_sub(3)),
        12 => list.push(0),
        _ => {}
    }
    (list, buffer)
}

fn put_script(buffer: &mut Vec<u8>, output: u64) {
    buffer.extend([0x51, 0x20]);
    buffer.extend(output.to_le_bytes());
    buffer.extend([0; 24]);
}

/// Room that any transaction of a file of this length has.
pub fn tx_room(length: usize) -> usize {
    length + 64
}

/// The scripts of the first outputs.
fn ask_scripts(group: &mut Group, framed: &Framed) {
    for output in 0..framed.outputs.min(3) {
        group.ask(SCRIPT, &[output]);
        group.ask(SCRIPT_PART, &[output]);
    }
}

/// A parse, what decides the lock, and the transaction; with scripts set before it, in some way.
pub fn transaction(file: &[u8], way: Option<Way>, room: usize) -> Group {
    let framed = framed(file);
    let mut group = Group::parsed(file, ample(file.len()));
    group.room(OUT, room);
    group.ask(LOCK, &[]);
    if let Some(way) = way {
        let (list, buffer) = assignments(way, &framed);
        let entries = ENTRY * usize::try_from(framed.outputs).unwrap_or(0).min(512);
        group.numbers(LIST, &list);
        group.bytes(BUFFER, &buffer);
        group.room(SCRIPTS, entries);
        if way == Way::LATE {
            group.ask(TX, &[]);
        }
        // Two assignments go to the setter over records too, each time from the same beginning.
        if list.len() >= 6 {
            group.ask(SET_TWO, &[]);
            if way != Way::LATE {
                group.numbers(STATE, &[0, 0]);
                group.room(SCRIPTS, entries);
            }
        }
        group.ask(SET, &[]);
        if way == Way::TWICE {
            group.ask(SET, &[]);
        }
    }
    group.ask(TX, &[]);
    ask_scripts(&mut group, &framed);
    group
}
