//! Files that are in order: every listed type in every kind of map, in the shapes that the BIPs give it, beside key data
//! where none belongs and types that aren't listed.

use crate::draft::{put_size, Draft, Kind, Map, Pair};
use crate::random::Random;

pub const MAGIC: [u8; 5] = [0x70, 0x73, 0x62, 0x74, 0xff];

/// Keys of 33 bytes and hashes that the whole file shares, so that its fields refer to each other.
struct Names {
    keys: Vec<Vec<u8>>,
    hashes: Vec<Vec<u8>>,
}

/// Numbers of four bytes at their edges, lock times among them.
pub fn word(random: &mut Random) -> Vec<u8> {
    let any = random.number() as u32;
    let number: u32 = random.pick(&[
        0,
        1,
        2,
        0xff,
        800_000,
        499_999_998,
        499_999_999,
        500_000_000,
        500_000_001,
        1_700_000_000,
        0x7fff_ffff,
        0x8000_0000,
        0xffff_fffe,
        0xffff_ffff,
        any,
        any,
    ]);
    number.to_le_bytes().to_vec()
}

/// A height or a time, mostly one that may be written.
fn lock(random: &mut Random, time: bool) -> Vec<u8> {
    if random.once_in(4) {
        return word(random);
    }
    let number: u32 = if time {
        random.pick(&[500_000_000, 500_000_001, 1_600_000_000, 1_700_000_000, 0xffff_ffff])
    } else {
        random.pick(&[0, 1, 700_000, 800_000, 499_999_998, 499_999_999])
    };
    number.to_le_bytes().to_vec()
}

fn amount(random: &mut Random) -> Vec<u8> {
    let any = random.number();
    random.pick(&[0, 1, 1_000, 2_100_000_000_000_000, u64::MAX, 1 << 63, any]).to_le_bytes().to_vec()
}

/// A short length now and then at the edges of the forms of a compact size.
fn length(random: &mut Random) -> usize {
    match random.below(20_000) {
        0 => random.pick(&[65_535, 65_536, 65_537]),
        1..=60 => random.between(253, 3_000),
        61..=300 => random.pick(&[0xfb, 0xfc, 0xfd, 0xfe, 0xff, 0x100]),
        301..=4_000 => 0,
        _ => random.between(1, 34),
    }
}

fn script(random: &mut Random) -> Vec<u8> {
    match random.below(6) {
        0 => [vec![0x51, 0x20], random.bytes(32)].concat(),
        1 => [vec![0x00, 0x14], random.bytes(20)].concat(),
        2 => vec![0x51],
        3 => Vec::new(),
        _ => {
            let length = length(random);
            random.bytes(length)
        }
    }
}

/// A fingerprint and the steps of a path.
fn origin(random: &mut Random) -> Vec<u8> {
    let steps = random.between(0, 3);
    random.bytes(4 + 4 * steps)
}

fn previous_transaction(random: &mut Random) -> Vec<u8> {
    let mut to = vec![2, 0, 0, 0, 1];
    to.extend(random.bytes(36));
    to.push(0);
    to.extend([0xff; 4]);
    to.push(1);
    to.extend(amount(random));
    let script = script(random);
    put_size(&mut to, script.len() as u64, 0);
    to.extend(script);
    to.extend([0; 4]);
    to
}

fn witness_utxo(random: &mut Random) -> Vec<u8> {
    let script = script(random);
    let mut to = amount(random);
    put_size(&mut to, script.len() as u64, u8::from(random.once_in(12)));
    to.extend(script);
    match random.below(12) {
        0 => to.truncate(8),
        1 => to.push(0),
        2 => {
            to.pop();
        }
        _ => {}
    }
    to
}

fn participants(random: &mut Random, names: &Names) -> Vec<u8> {
    if random.once_in(8) {
        let length = random.pick(&[0, 1, 32, 34, 65, 67]);
        return random.bytes(length);
    }
    let number = random.between(1, 3);
    (0..number).flat_map(|_| random.pick(&names.keys)).collect()
}

/// Participant, aggregate and perhaps a leaf hash; now and then of another length.
fn signer(random: &mut Random, names: &Names) -> Vec<u8> {
    let mut data = [random.pick(&names.keys), random.pick(&names.keys)].concat();
    match random.below(8) {
        0 => data.truncate(65),
        1 => data.push(0),
        2..=4 => data.extend(random.pick(&names.hashes)),
        _ => {}
    }
    data
}

fn mostly(random: &mut Random, length: usize) -> Vec<u8> {
    let length = if random.once_in(8) { length + random.between(0, 2) - 1 } else { length };
    random.bytes(length)
}

fn some(random: &mut Random) -> Vec<u8> {
    let length = length(random);
    random.bytes(length)
}

/// A pair of a listed type in its shape. Types whose size is checked have the right one.
fn listed(random: &mut Random, names: &Names, kind: Kind, key_type: u8) -> Pair {
    let key = random.pick(&names.keys);
    let hash = random.pick(&names.hashes);
    let (data, value): (Vec<u8>, Vec<u8>) = match (kind, key_type) {
        // With empty key data it is refused: here only with some.
        (Kind::Global, 0x00) => (hash[..1].to_vec(), some(random)),
        (Kind::Global, 0x01) => (random.bytes(78), origin(random)),
        (Kind::Global, 0x03) => (vec![], word(random)),
        (Kind::Global, 0x06) => (vec![], vec![random.pick(&[0, 0, 0, 1, 2, 3, 4, 7, 0xfc, 0xff])]),
        (Kind::Global, 0x07) => (key, random.bytes(33)),
        (Kind::Global, 0x08) => (key, random.bytes(64)),
        // The fields that every file has: once more, with key data.
        (Kind::Global, 0x02 | 0x04 | 0x05 | 0xfb) => (hash[..1].to_vec(), some(random)),

        (Kind::Input, 0x00) => (vec![], previous_transaction(random)),
        (Kind::Input, 0x01) => (vec![], witness_utxo(random)),
        (Kind::Input, 0x02) => (key, mostly(random, 71)),
        (Kind::Input, 0x03 | 0x0f | 0x10) => (vec![], word(random)),
        (Kind::Input, 0x04 | 0x05 | 0x07) => (vec![], script(random)),
        (Kind::Input, 0x06) => (key, origin(random)),
        (Kind::Input, 0x08 | 0x09) => (vec![], some(random)),
        (Kind::Input, 0x0a | 0x0c) => (hash[..20].to_vec(), some(random)),
        (Kind::Input, 0x0b | 0x0d) => (hash, some(random)),
        (Kind::Input, 0x0e) => (vec![], random.bytes(32)),
        (Kind::Input, 0x11) => (vec![], lock(random, true)),
        (Kind::Input, 0x12) => (vec![], lock(random, false)),
        (Kind::Input, 0x13) => (vec![], mostly(random, 64)),
        (Kind::Input, 0x14) => ([key[1..].to_vec(), hash].concat(), mostly(random, 64)),
        (Kind::Input, 0x15) => ([vec![0xc0], hash].concat(), script(random)),
        (Kind::Input, 0x16) => (key[1..].to_vec(), [vec![0], origin(random)].concat()),
        (Kind::Input, 0x17 | 0x18) => (vec![], mostly(random, 32)),
        (Kind::Input, 0x1a) => {
            let data = match random.below(8) {
                0 => key[..32].to_vec(),
                1..=2 => [key, hash].concat(),
                _ => key,
            };
            (data, participants(random, names))
        }
        (Kind::Input, 0x1b) => (signer(random, names), mostly(random, 66)),
        (Kind::Input, 0x1c) => (signer(random, names), mostly(random, 32)),
        (Kind::Input, 0x1d) => (key, random.bytes(33)),
        (Kind::Input, 0x1e) => (key, random.bytes(64)),
        (Kind::Input, 0x1f) => (key, origin(random)),
        (Kind::Input, 0x20) => (vec![], random.bytes(32)),

        (Kind::Output, 0x00 | 0x01 | 0x04) => (vec![], script(random)),
        (Kind::Output, 0x02) => (key, origin(random)),
        (Kind::Output, 0x03) => (vec![], amount(random)),
        (Kind::Output, 0x05) => (vec![], mostly(random, 32)),
        (Kind::Output, 0x06 | 0x35) => (vec![], some(random)),
        (Kind::Output, 0x07) => (key[1..].to_vec(), [vec![0], origin(random)].concat()),
        (Kind::Output, 0x08) => {
            let data = if random.once_in(8) { key[..32].to_vec() } else { key };
            (data, participants(random, names))
        }
        (Kind::Output, 0x09) => (vec![], [random.pick(&names.keys), random.pick(&names.keys)].concat()),
        (Kind::Output, 0x0a) => (vec![], word(random)),

        // fc: an identifier and what its owner puts there.
        _ => ([vec![2, 0x78, 0x79], hash[..random.between(0, 3)].to_vec()].concat(), some(random)),
    };
    Pair::new(key_type, &data, value)
}

fn listed_types(kind: Kind) -> Vec<u8> {
    match kind {
        Kind::Global => (0x00..=0x08).chain([0xfb, 0xfc]).collect(),
        Kind::Input => (0x00..=0x18).chain(0x1a..=0x20).chain([0xfc]).collect(),
        Kind::Output => (0x00..=0x0a).chain([0x35, 0xfc]).collect(),
    }
}

/// Types whose sizes are checked whatever the key data.
fn always_sized(kind: Kind, key_type: u8) -> bool {
    match kind {
        Kind::Global => matches!(key_type, 0x07 | 0x08),
        Kind::Input => matches!(key_type, 0x1d..=0x20),
        Kind::Output => matches!(key_type, 0x09 | 0x0a),
    }
}

/// A pair that an accepted file may have beside what it must have.
fn extra(random: &mut Random, names: &Names, kind: Kind) -> Pair {
    let types = listed_types(kind);
    match random.below(10) {
        // A type that isn't listed for this map.
        0..=1 => loop {
            let mut key_type = random.byte();
            if random.once_in(3) {
                key_type = random.pick(&[0x09, 0x0b, 0x19, 0x21, 0x34, 0x36, 0x7f, 0xfa, 0xfb, 0xfd, 0xfe, 0xff]);
            }
            if !types.contains(&key_type) {
                let length = random.pick(&[0, 0, 0, 1, 2, 33]);
                return Pair::new(key_type, &random.bytes(length), some(random));
            }
        },
        // A listed one with key data where none belongs: kept unread, whatever its value.
        2 => loop {
            let key_type = random.pick(&types);
            if !always_sized(kind, key_type) {
                let length = random.pick(&[1, 1, 2, 33]);
                return Pair::new(key_type, &random.bytes(length), some(random));
            }
        },
        _ => {
            let key_type = random.pick(&types);
            listed(random, names, kind, key_type)
        }
    }
}

/// A pair of a type that typed lookups ask by a key.
fn payment(random: &mut Random, names: &Names, kind: Kind) -> Pair {
    let key_type = match kind {
        Kind::Global => random.pick(&[0x07, 0x08]),
        Kind::Input => random.pick(&[0x01, 0x06, 0x1a, 0x1a, 0x1b, 0x1b, 0x1c, 0x1c, 0x1d, 0x1e, 0x1f, 0x20]),
        Kind::Output => random.pick(&[0x02, 0x08, 0x08]),
    };
    listed(random, names, kind, key_type)
}

/// The least form of a compact size: mostly the shortest.
fn form(random: &mut Random, rare: u64) -> u8 {
    if random.once_in(rare) {
        random.between(1, 3) as u8
    } else {
        0
    }
}

fn extras(random: &mut Random, few: bool) -> usize {
    match random.below(100) {
        _ if few => random.pick(&[0, 0, 0, 1]),
        0..=49 => 0,
        50..=79 => 1,
        80..=93 => random.between(2, 3),
        94..=97 => random.between(4, 8),
        _ => random.between(8, 24),
    }
}

fn payments(random: &mut Random, rich: bool, few: bool) -> usize {
    if !rich || few {
        return 0;
    }
    random.pick(&[0, 0, 1, 2, 3, 5])
}

pub fn count(random: &mut Random, number: u64) -> Vec<u8> {
    let mut value = Vec::new();
    put_size(&mut value, number, form(random, 10));
    value
}

pub fn draft(random: &mut Random) -> Draft {
    draft_of(random, false)
}

/// A file with more of what typed lookups ask, and with silent payment outputs that wait for their scripts.
pub fn rich_draft(random: &mut Random) -> Draft {
    draft_of(random, true)
}

fn draft_of(random: &mut Random, rich: bool) -> Draft {
    let names = Names {
        keys: (0..3).map(|i| [vec![2 + i % 2], random.bytes(32)].concat()).collect(),
        hashes: (0..2).map(|_| random.bytes(32)).collect(),
    };
    let numbers = |random: &mut Random| match random.below(1_000) {
        0 => random.pick(&[252, 253, 254, 260]),
        1..=8 => random.between(5, 40),
        9..=200 => 0,
        201..=840 => 1,
        _ => random.between(2, 3),
    };
    let (inputs, outputs) = (numbers(random), numbers(random));
    let many = inputs + outputs > 6;

    let mut global = Map::new(Kind::Global);
    for _ in 0..extras(random, false) {
        global.pairs.push(extra(random, &names, Kind::Global));
    }
    for _ in 0..payments(random, rich, many) {
        global.pairs.push(payment(random, &names, Kind::Global));
    }
    for key_type in [0x03, 0x06] {
        if random.once_in(3) {
            let pair = listed(random, &names, Kind::Global, key_type);
            global.pairs.push(pair);
        }
    }
    let version = if random.once_in(3) { word(random) } else { vec![random.pick(&[1, 2, 2]), 0, 0, 0] };
    global.pairs.push(Pair::new(0x02, &[], version));
    let value = count(random, inputs as u64);
    global.pairs.push(Pair::new(0x04, &[], value));
    let value = count(random, outputs as u64);
    global.pairs.push(Pair::new(0x05, &[], value));
    global.pairs.push(Pair::new(0xfb, &[], vec![2, 0, 0, 0]));
    global.sort();
    let modifiable = global.place(&[0x06]).map_or(0, |at| global.pairs[at].value[0]) & 3 != 0;

    let mut maps = vec![global];
    // What kinds of lock the inputs of this file ask: none, heights, times, either, both.
    let locks = random.below(8);
    for _ in 0..inputs {
        let mut map = Map::new(Kind::Input);
        for _ in 0..extras(random, many) {
            let pair = extra(random, &names, Kind::Input);
            map.pairs.push(pair);
        }
        for _ in 0..payments(random, rich, many) {
            map.pairs.push(payment(random, &names, Kind::Input));
        }
        for key_type in [0x0e, 0x0f] {
            if !random.once_in(if many { 3 } else { 16 }) {
                let pair = listed(random, &names, Kind::Input, key_type);
                map.pairs.push(pair);
            }
        }
        if random.once_in(3) {
            let pair = listed(random, &names, Kind::Input, 0x10);
            map.pairs.push(pair);
        }
        let (time, height) = match locks {
            0..=1 => (false, random.once_in(2)),
            2..=3 => (random.once_in(2), false),
            4 => (random.once_in(2), random.once_in(2)),
            5 => (true, true),
            _ => (false, false),
        };
        for (asked, key_type) in [(time, 0x11), (height, 0x12)] {
            map.remove(&[key_type]);
            if asked {
                let pair = listed(random, &names, Kind::Input, key_type);
                map.pairs.push(pair);
            }
        }
        map.sort();
        maps.push(map);
    }
    for _ in 0..outputs {
        let mut map = Map::new(Kind::Output);
        for _ in 0..extras(random, many) {
            let pair = extra(random, &names, Kind::Output);
            map.pairs.push(pair);
        }
        for _ in 0..payments(random, rich, many) {
            map.pairs.push(payment(random, &names, Kind::Output));
        }
        if !random.once_in(16) {
            let pair = listed(random, &names, Kind::Output, 0x03);
            map.pairs.push(pair);
        }
        if random.once_in(if rich { 2 } else { 5 }) {
            let pair = listed(random, &names, Kind::Output, 0x09);
            map.pairs.push(pair);
        }
        let code = map.place(&[0x09]).is_some();
        if code && modifiable {
            map.remove(&[0x04]);
        } else if !code || random.once_in(2) {
            let pair = listed(random, &names, Kind::Output, 0x04);
            map.pairs.push(pair);
        }
        if code && random.once_in(2) {
            let pair = listed(random, &names, Kind::Output, 0x0a);
            map.pairs.push(pair);
        } else if !code {
            map.remove(&[0x0a]);
        }
        map.sort();
        maps.push(map);
    }

    // Longer compact sizes.
    let rare = random.pick(&[6, 60, 1 << 32, 1 << 32]);
    for map in &mut maps {
        map.end = Some(form(random, rare));
        for pair in &mut map.pairs {
            pair.forms = (form(random, rare), form(random, rare));
        }
    }
    Draft { magic: MAGIC.to_vec(), maps, tail: Vec::new(), blows: Vec::new() }
}
