//! Tables that records lend: those of a file, mostly with something wrong about them, and every call over them.

use crate::draft::Draft;
use crate::group::{Group, Sink};
use crate::questions::{tx_room, ENTRY};
use crate::random::Random;
use crate::valid;
use records::calls::*;
use records::{BUFFER, LIST, MAPS, OUT, PAIRS, REPORT, SCRIPTS, STATE};
use std::io::{self, Write};

/// What a group lends, and what it asks.
struct Body {
    file: Vec<u8>,
    pairs: Vec<u32>,
    maps: Vec<u32>,
    report: Vec<u64>,
    state: Vec<u64>,
    scripts: Vec<u8>,
    list: Vec<u64>,
    /// The asked key's data, and a taproot script behind it.
    buffer: Vec<u8>,
    /// Room for a transaction's bytes.
    room: usize,
    /// The number of a map, of an input or of an output, of a pair or of a participant, and how much of the buffer is the key's.
    asked: u64,
    pair: u64,
    key_type: u8,
    data: u64,
}

/// Where the counts stand in a report.
const INPUTS: usize = 4;
const OUTPUTS: usize = 5;

/// A taproot script.
fn script() -> Vec<u8> {
    [vec![0x51, 0x20], vec![7; 32]].concat()
}

/// A word near another, or at an edge.
fn strange_word(random: &mut Random, word: u32, length: usize) -> u32 {
    let length = length as u32;
    let any = random.number() as u32;
    random.pick(&[
        word.wrapping_add(1),
        word.wrapping_sub(1),
        0,
        1,
        length,
        length.wrapping_add(1),
        length.wrapping_sub(1),
        u32::MAX,
        u32::MAX - 1,
        1 << 31,
        any,
    ])
}

fn strange_count(random: &mut Random, count: u64) -> u64 {
    let any = random.number();
    random.pick(&[
        count.wrapping_add(1),
        count.wrapping_sub(1),
        0,
        count.wrapping_add(2),
        u64::MAX,
        u64::MAX - 1,
        u64::MAX - count,
        1 << 63,
        count ^ (1 << 32),
        any,
    ])
}

/// What a file's own tables say, asked for something that it has, mostly.
fn body(random: &mut Random, draft: &Draft) -> Body {
    let (pairs, maps) = draft.tables();
    let kinds: Vec<usize> = draft.maps.iter().map(|map| map.kind as usize).collect();
    let count = |kind: usize| kinds.iter().filter(|k| **k == kind).count() as u64;
    let (inputs, outputs) = (count(1), count(2));
    let file = draft.bytes();

    // A map, and the number by which it is asked: of all maps, or of its kind.
    let map = random.below(maps.len() as u64) as usize;
    let own = match kinds[map] {
        0 => 0,
        1 => map as u64 - 1,
        _ => map as u64 - 1 - inputs,
    };
    let key = match &draft.maps[map].pairs[..] {
        [] => vec![0x04],
        some => random.pick(some).key,
    };
    let data = &key[1..];
    let unscripted: Vec<bool> =
        draft.maps.iter().filter(|m| m.kind as usize == 2).map(|m| m.place(&[0x04]).is_none()).collect();
    let waiting = (0u64..).zip(&unscripted).filter(|(_, waits)| **waits);
    let list = waiting.flat_map(|(output, _)| [output, data.len() as u64, 34]).collect();
    let entry = |waits: &bool| if *waits { [vec![1], script()].concat() } else { vec![0; ENTRY] };
    let maybe = |random: &mut Random, number: u64| if random.once_in(2) { number } else { u64::MAX };
    let version = random.pick(&[1, 2, 2, 0x7fff_ffff, 0x8000_0002]);
    let fallback = random.number() >> 32;
    let (fallback, modifiable) = (maybe(random, fallback), maybe(random, 1));
    Body {
        report: vec![7, version, fallback, modifiable, inputs, outputs, pairs.len() as u64, maps.len() as u64],
        state: random.pick(&[vec![], vec![0, 0], vec![1, 0], vec![1], vec![0, 1], vec![1 << 32, 3]]),
        asked: if random.once_in(2) { map as u64 } else { own },
        pair: random.below(draft.maps[map].pairs.len() as u64 + 1),
        key_type: key[0],
        data: data.len() as u64,
        room: if random.once_in(8) { random.between(0, 200) } else { tx_room(file.len()) },
        pairs: pairs.into_iter().flatten().collect(),
        maps: maps.into_iter().flatten().collect(),
        scripts: unscripted.iter().flat_map(entry).collect(),
        list,
        buffer: [data, &script()].concat(),
        file,
    }
}

impl Body {
    /// The arguments of a call, by what it is asked with.
    fn arguments(&self, call: u8) -> Vec<u64> {
        let (asked, key_type, pair) = (self.asked, u64::from(self.key_type), self.pair);
        // The key's data, at most so much of it from there on.
        let part = |from: u64, most: u64| [from, most.min(self.data.saturating_sub(from))];
        let (all, [first, second]) = ([0, self.data], [part(0, 33), part(33, 33)]);
        match call {
            GET | GET_PART => vec![asked, key_type, all[0], all[1]],
            LISTED | IN_KEYS | OUT_KEYS => vec![asked, key_type],
            NTH | NTH_KEY | NTH_VALUE => vec![asked, pair],
            GLOBAL_SHARE | GLOBAL_PROOF => all.to_vec(),
            IN_SHARE | IN_PROOF => vec![asked, all[0], all[1]],
            IN_NONCE | IN_SIGNATURE => {
                let leaf = part(66, self.data);
                vec![asked, first[0], first[1], second[0], second[1], leaf[0], leaf[1]]
            }
            IN_PARTICIPANTS..=IN_PARTICIPANT => {
                let leaf = part(33, self.data);
                vec![asked, first[0], first[1], leaf[0], leaf[1], pair]
            }
            OUT_PARTICIPANTS..=OUT_PARTICIPANT => vec![asked, all[0], all[1], pair],
            _ => vec![asked],
        }
    }

    /// Every call but a parse; those that change the state and the script table each from the same beginning, and a transaction
    /// behind each setter.
    fn group(&self) -> Group {
        let mut group = Group::of(&self.file);
        group.words(PAIRS, &self.pairs);
        group.words(MAPS, &self.maps);
        group.numbers(REPORT, &self.report);
        group.numbers(LIST, &self.list);
        group.bytes(BUFFER, &self.buffer);
        group.room(OUT, self.room);
        for first in [None, Some(TX), Some(SET), Some(SET_TWO)] {
            group.numbers(STATE, &self.state);
            group.bytes(SCRIPTS, &self.scripts);
            let Some(first) = first else {
                for call in (LOCK..KNOWN).filter(|call| ![SET, TX, SET_TWO].contains(call)) {
                    group.ask(call, &self.arguments(call));
                }
                continue;
            };
            group.ask(first, &[]);
            if first != TX {
                group.ask(SCRIPT, &[self.asked]);
                group.ask(TX, &[]);
            }
        }
        group
    }
}

fn spoil(random: &mut Random, body: &mut Body) -> &'static str {
    let length = body.file.len();
    let at = |random: &mut Random, n: usize| random.below(n as u64) as usize;
    match random.below(18) {
        0..=2 if !body.pairs.is_empty() => {
            let i = at(random, body.pairs.len());
            body.pairs[i] = strange_word(random, body.pairs[i], length);
            "a word of a pair"
        }
        3..=4 if !body.maps.is_empty() => {
            let i = at(random, body.maps.len());
            body.maps[i] = strange_word(random, body.maps[i], body.pairs.len() / 4);
            "a word of a map"
        }
        5 => {
            let at = random.pick(&[INPUTS, OUTPUTS]);
            body.report[at] = strange_count(random, body.report[at]);
            "a count"
        }
        6 => {
            let words = if random.once_in(2) { &mut body.pairs } else { &mut body.maps };
            words.truncate(words.len().saturating_sub(random.between(1, 6)));
            "a table that ends early"
        }
        7 if body.pairs.len() >= 8 => {
            // Two pairs change places, or one stands twice.
            let (i, j) = (4 * at(random, body.pairs.len() / 4), 4 * at(random, body.pairs.len() / 4));
            let twice = random.once_in(2);
            for word in 0..4 {
                if twice {
                    body.pairs[i + word] = body.pairs[j + word];
                } else {
                    body.pairs.swap(i + word, j + word);
                }
            }
            "pairs swapped or doubled"
        }
        8 if body.maps.len() >= 4 => {
            let (i, j) = (2 * at(random, body.maps.len() / 2), 2 * at(random, body.maps.len() / 2));
            body.maps[i] = body.maps[j];
            body.maps[i + 1] = body.maps[j + 1];
            "maps that share pairs"
        }
        9 => {
            body.asked = strange_count(random, body.asked);
            "a strange number"
        }
        10 => {
            match random.below(4) {
                0 => body.data += 1,
                1 => body.data = body.data.saturating_sub(1),
                2 => body.key_type = body.key_type.wrapping_add(1),
                _ => body.pair = strange_count(random, body.pair),
            }
            "another key"
        }
        11 => {
            match random.below(4) {
                0 => body.scripts.truncate(body.scripts.len().saturating_sub(1)),
                1 => body.scripts.extend([9; 40]),
                _ if body.scripts.is_empty() => {}
                _ => {
                    let i = at(random, body.scripts.len());
                    body.scripts[i] = random.pick(&[0, 1, 2, 0x20, 0x51, 0x52]);
                }
            }
            "a script table"
        }
        12 => {
            match random.below(4) {
                0 => {
                    body.list.pop();
                }
                1 => body.list.extend([body.report[OUTPUTS], body.buffer.len() as u64 - 34, 34]),
                _ if body.list.is_empty() => {}
                _ => {
                    let i = at(random, body.list.len());
                    body.list[i] = strange_count(random, body.list[i]);
                }
            }
            "a list"
        }
        13 => {
            body.file.truncate(length - random.between(1, 12).min(length));
            "a file that ends early"
        }
        14 => {
            let i = at(random, length.max(1));
            if let Some(byte) = body.file.get_mut(i) {
                *byte ^= 1 << random.below(8);
            }
            "a byte of the file"
        }
        15 => {
            let any = random.number();
            let at = random.between(1, 3);
            body.report[at] = random.pick(&[0, u64::MAX, u64::MAX - 1, 1 << 32, any]);
            "a report"
        }
        16 => {
            // The words of a refused parse, or another count of values.
            if random.once_in(2) {
                body.report = vec![2, body.pairs.len() as u64 / 4, body.maps.len() as u64 / 2, 0, 0, 0, 0, 0];
            } else {
                body.report[0] = strange_count(random, body.report[0]);
            }
            "no report"
        }
        _ => {
            // A value of a sized field with another length.
            if !body.pairs.is_empty() {
                let i = 4 * at(random, body.pairs.len() / 4);
                if let Some(word) = body.pairs.get_mut(i + 3) {
                    *word = word.wrapping_add(random.pick(&[1, u32::MAX]));
                }
            }
            "a value's length"
        }
    }
}

pub fn generated<W: Write>(seed: u64, sink: &mut Sink<W>) -> io::Result<()> {
    let mut random = Random::new(seed);
    loop {
        let draft = if random.once_in(2) { valid::draft(&mut random) } else { valid::rich_draft(&mut random) };
        if draft.size().0 > 2_000 {
            continue;
        }
        let mut body = body(&mut random, &draft);
        let mut what = "tables of the file";
        for _ in 0..random.pick(&[0, 1, 1, 1, 2, 3]) {
            what = spoil(&mut random, &mut body);
        }
        // Last, since the others look at its counts.
        if random.once_in(20) {
            body.report.truncate(random.between(0, 7));
        }
        if !sink.put(what, &body.group())? {
            return Ok(());
        }
    }
}
