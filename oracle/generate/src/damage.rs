//! One damage to a file that was in order. Some do no harm, and that is wanted too.

use crate::draft::{put_size, Blow, Draft, Kind, Pair};
use crate::random::Random;
use crate::valid::{word, MAGIC};

/// A map of the draft, and a pair of it if it has any.
fn somewhere(random: &mut Random, draft: &Draft) -> (usize, Option<usize>) {
    let map = random.below(draft.maps.len() as u64) as usize;
    let pairs = draft.maps[map].pairs.len();
    (map, (pairs > 0).then(|| random.below(pairs as u64) as usize))
}

/// A map of the kind, if there is one.
fn of_kind(random: &mut Random, draft: &Draft, kind: Kind) -> Option<usize> {
    let maps: Vec<usize> = (0..draft.maps.len()).filter(|i| draft.maps[*i].kind == kind).collect();
    (!maps.is_empty()).then(|| random.pick(&maps))
}

/// Types with a size: map, type, key data length, value length.
const SIZES: [(Kind, u8, usize, usize); 19] = [
    (Kind::Global, 0x02, 0, 4),
    (Kind::Global, 0x03, 0, 4),
    (Kind::Global, 0x06, 0, 1),
    (Kind::Global, 0x07, 33, 33),
    (Kind::Global, 0x08, 33, 64),
    (Kind::Global, 0xfb, 0, 4),
    (Kind::Input, 0x03, 0, 4),
    (Kind::Input, 0x0e, 0, 32),
    (Kind::Input, 0x0f, 0, 4),
    (Kind::Input, 0x10, 0, 4),
    (Kind::Input, 0x11, 0, 4),
    (Kind::Input, 0x12, 0, 4),
    (Kind::Input, 0x1d, 33, 33),
    (Kind::Input, 0x1e, 33, 64),
    (Kind::Input, 0x1f, 33, 8),
    (Kind::Input, 0x20, 0, 32),
    (Kind::Output, 0x03, 0, 8),
    (Kind::Output, 0x09, 0, 66),
    (Kind::Output, 0x0a, 0, 4),
];

/// A length near the right one, or 0, or another.
fn near(random: &mut Random, length: usize) -> usize {
    match random.below(8) {
        0..=2 => length + 1,
        3..=5 => length.saturating_sub(1),
        6 => 0,
        _ => length + random.pick(&[2, 3, 4, 5, 32, 33]),
    }
}

/// The value of a count field that isn't one shortest compact size.
fn strange_count(random: &mut Random) -> Vec<u8> {
    let mut value = Vec::new();
    match random.below(12) {
        0 => {}
        // A first byte that asks for more than there is.
        1 => value.push(random.pick(&[0xfd, 0xfe, 0xff])),
        2 => {
            value.push(random.pick(&[0xfd, 0xfe, 0xff]));
            let rest = random.between(1, 9);
            value.extend(random.bytes(rest));
        }
        // One too many.
        3..=4 => {
            let form = random.between(0, 3) as u8;
            let number = random.below(3);
            put_size(&mut value, number, form);
            value.push(random.pick(&[0, 1, 0xff]));
        }
        // Great numbers.
        5..=7 => {
            let number = random.pick(&[
                u64::MAX,
                u64::MAX - 1,
                1 << 63,
                (1 << 63) - 1,
                1 << 32,
                (1 << 32) - 1,
                0xffff,
                0x1_0000,
                2_047,
                2_048,
            ]);
            put_size(&mut value, number, 0);
        }
        // Four bytes, as another field would have them.
        8 => value = word(random),
        _ => {
            let form = random.between(0, 3) as u8;
            let number = random.below(6);
            put_size(&mut value, number, form);
        }
    }
    value
}

pub fn damage(random: &mut Random, draft: &mut Draft) -> &'static str {
    match random.below(100) {
        0..=7 => {
            draft.blows.push(Blow::Cut(random.number()));
            "cut"
        }
        8..=15 => {
            for _ in 0..random.between(1, 3) {
                // Every second one among the first bytes, where the global map stands.
                let at = if random.once_in(2) { random.below(40) } else { random.number() };
                let byte = random.pick(&[0x00, 0x01, 0x02, 0x21, 0xfc, 0xfd, 0xfe, 0xff]);
                draft.blows.push(match random.below(4) {
                    0 => Blow::Set(at, byte),
                    _ => Blow::Flip(at, random.byte()),
                });
            }
            "flipped bits"
        }
        16..=18 => {
            let at = random.number();
            let byte = random.pick(&[0x00, 0x01, 0x02, 0xfd, 0xff]);
            draft.blows.push(if random.once_in(2) { Blow::Insert(at, byte) } else { Blow::Delete(at) });
            "byte put in or taken out"
        }
        19..=25 => {
            // Two neighbours, or any two.
            let (map, _) = somewhere(random, draft);
            let pairs = &mut draft.maps[map].pairs;
            if pairs.len() >= 2 {
                let a = random.below(pairs.len() as u64 - 1) as usize;
                let b = if random.once_in(2) { a + 1 } else { random.below(pairs.len() as u64) as usize };
                pairs.swap(a, b);
                // The order is judged before the value is read.
                if random.once_in(4) {
                    pairs[a.max(b)].said.1 = Some(random.pick(&[u64::MAX, 1 << 20, 0xffff]));
                }
            }
            "swapped pairs"
        }
        26..=32 => {
            if let (map, Some(at)) = somewhere(random, draft) {
                let mut pair = draft.maps[map].pairs[at].clone();
                match random.below(4) {
                    0 => pair.value = random.bytes(3),
                    1 => pair.said.1 = Some(random.pick(&[u64::MAX, 1 << 20, 0xffff])),
                    _ => {}
                }
                draft.maps[map].pairs.insert(at + 1, pair);
            }
            "doubled pair"
        }
        33..=36 => {
            // A key that begins as the one before or behind it does.
            if let (map, Some(at)) = somewhere(random, draft) {
                let mut pair = draft.maps[map].pairs[at].clone();
                match random.below(3) {
                    0 => {
                        pair.key.push(random.byte());
                    }
                    1 if pair.key.len() > 1 => {
                        pair.key.pop();
                    }
                    _ => {
                        let last = pair.key.len() - 1;
                        pair.key[last] = pair.key[last].wrapping_add(random.pick(&[1, 255, 128]));
                    }
                }
                draft.maps[map].pairs.insert(at + random.below(2) as usize, pair);
            }
            "neighbouring key"
        }
        37..=48 => {
            let (kind, key_type, data, value) = random.pick(&SIZES);
            if let Some(map) = of_kind(random, draft, kind) {
                let (mut data, mut value) = (data, value);
                match random.below(6) {
                    0 => data = near(random, data),
                    1 => {
                        data = near(random, data);
                        value = near(random, value);
                    }
                    2..=4 if key_type == 0x1f => value = random.between(0, 14),
                    2..=4 => value = near(random, value),
                    _ => {}
                }
                let data = random.bytes(data);
                let value = random.bytes(value);
                draft.maps[map].set(Pair::new(key_type, &data, value));
            }
            "wrong size"
        }
        49..=54 => {
            // Lengths that aren't those of the bytes.
            if let (map, Some(at)) = somewhere(random, draft) {
                let pair = &mut draft.maps[map].pairs[at];
                let lie = |random: &mut Random, length: usize| {
                    let length = length as u64;
                    Some(random.pick(&[
                        length + 1,
                        length.saturating_sub(1),
                        0,
                        0xfc,
                        0xfd,
                        0xffff,
                        1 << 20,
                        1 << 32,
                        1 << 63,
                        u64::MAX - 4,
                        u64::MAX,
                    ]))
                };
                if random.once_in(2) {
                    pair.said.0 = lie(random, pair.key.len());
                } else {
                    pair.said.1 = lie(random, pair.value.len());
                }
            }
            "wrong length"
        }
        55..=61 => {
            let key_type = random.pick(&[0x02, 0x04, 0x05, 0xfb]);
            draft.maps[0].remove(&[key_type]);
            if random.once_in(4) {
                // There, but with key data: it counts as missing.
                let data = random.byte();
                let value = random.pick(&[vec![0], vec![2, 0, 0, 0], vec![]]);
                draft.maps[0].set(Pair::new(key_type, &[data], value));
            }
            "missing global field"
        }
        62..=68 => {
            let value = strange_count(random);
            draft.maps[0].set(Pair::new(random.pick(&[0x04, 0x05]), &[], value));
            "strange count"
        }
        69..=73 => {
            if random.once_in(2) {
                let value =
                    random.pick(&[[0, 0, 0, 0], [1, 0, 0, 0], [3, 0, 0, 0], [2, 0, 0, 1], [2, 1, 0, 0], [0, 0, 0, 2]]);
                draft.maps[0].set(Pair::new(0xfb, &[], value.to_vec()));
            } else {
                let length = random.pick(&[0, 0, 10, 60]);
                let value = random.bytes(length);
                draft.maps[0].set(Pair::new(0x00, &[], value));
            }
            "version"
        }
        74..=78 => {
            let length = random.pick(&[1, 1, 1, 2, 5, 30]);
            draft.tail = if random.once_in(2) { vec![0; length] } else { random.bytes(length) };
            "extra bytes"
        }
        79..=91 => {
            // Script, code, label and the flags, in every mixture. Without an output there are other damages.
            let Some(map) = of_kind(random, draft, Kind::Output) else {
                return damage(random, draft);
            };
            for (key_type, length) in [(0x04, 34), (0x09, 66), (0x0a, 4)] {
                draft.maps[map].remove(&[key_type]);
                if random.once_in(2) {
                    let value = random.bytes(length);
                    draft.maps[map].set(Pair::new(key_type, &[], value));
                }
            }
            if random.once_in(12) {
                // A script with key data is none.
                draft.maps[map].remove(&[0x04]);
                let data = random.byte();
                draft.maps[map].set(Pair::new(0x04, &[data], vec![0x51]));
            }
            match random.below(4) {
                0 => draft.maps[0].remove(&[0x06]),
                1..=2 => {
                    let flags = random.pick(&[0, 1, 2, 3, 4, 5, 6, 0x80, 0xfc, 0xff]);
                    draft.maps[0].set(Pair::new(0x06, &[], vec![flags]));
                }
                _ => {}
            }
            "output rules"
        }
        92..=94 => {
            match random.below(4) {
                0 => {
                    draft.magic.pop();
                }
                1 => draft.magic.push(0xff),
                2 => draft.magic.clear(),
                _ => {
                    let at = random.below(5) as usize;
                    if let Some(byte) = draft.magic.get_mut(at) {
                        *byte ^= 1 << random.below(8);
                    }
                }
            }
            "magic"
        }
        95..=96 => {
            let (map, _) = somewhere(random, draft);
            match random.below(4) {
                0 => draft.maps[map].end = None,
                1 => draft.maps[map].end = Some(random.between(1, 3) as u8),
                2 if map > 0 => {
                    draft.maps.remove(map);
                }
                _ => {
                    let again = draft.maps[map].clone();
                    draft.maps.insert(map + 1, again);
                }
            }
            "map ends"
        }
        _ => {
            // The same kind of pair in another kind of map.
            if let (from, Some(at)) = somewhere(random, draft) {
                let pair = draft.maps[from].pairs[at].clone();
                let (to, _) = somewhere(random, draft);
                draft.maps[to].set(pair);
            }
            "pair in another map"
        }
    }
}

/// No file in particular: the magic, mostly, and bytes of a small alphabet.
pub fn noise(random: &mut Random) -> Vec<u8> {
    let mut file = MAGIC[..if random.once_in(6) { random.between(0, 4) } else { 5 }].to_vec();
    let length = random.between(0, 40);
    for _ in 0..length {
        let byte =
            random.pick(&[0x00, 0x00, 0x00, 0x01, 0x01, 0x01, 0x02, 0x03, 0x04, 0x05, 0xfb, 0xfc, 0xfd, 0xfe, 0xff]);
        file.push(if random.once_in(8) { random.byte() } else { byte });
    }
    file
}
