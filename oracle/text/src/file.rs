//! A file as the programs read it: with the room that they have, and what the model says of it.

use model::lookups::Lent;
use model::{lookups, parse, transaction};
use records::{Answer, Left, Memory};

/// Rule 65: the longest file, and room for pairs, maps and transaction bytes.
const LONGEST: usize = 65_536;
const PAIRS: usize = 1_024;
const MAPS: usize = 256;
const OUT: usize = 65_536;

/// What the parse told: a report, or a refusal with how many pairs and maps were taken before it.
pub enum Parsed {
    TooLong,
    Refused { number: u32, pairs: u64, maps: u64 },
    Accepted,
}

/// A pair's key and value.
pub type Pair = (Vec<u8>, Vec<u8>);

pub struct File {
    memory: Memory,
    pub parsed: Parsed,
}

impl File {
    pub fn read(file: Vec<u8>) -> Self {
        if file.len() > LONGEST {
            return File { memory: Memory::default(), parsed: Parsed::TooLong };
        }
        let (pairs, maps, out) = (vec![0; 4 * PAIRS], vec![0; 2 * MAPS], vec![0; OUT]);
        let mut memory = Memory { file, pairs, maps, out, ..Memory::default() };
        let Answer { number, words, .. } = parse::parse(&mut memory);
        if number != 0 {
            return File { memory, parsed: Parsed::Refused { number, pairs: words[1], maps: words[2] } };
        }
        memory.report = words.to_vec();
        File { memory, parsed: Parsed::Accepted }
    }

    pub fn version(&self) -> i32 {
        self.memory.reported(1) as u32 as i32
    }

    pub fn fallback(&self) -> Option<u64> {
        Some(self.memory.reported(2)).filter(|word| *word != parse::ABSENT)
    }

    pub fn inputs(&self) -> u64 {
        self.memory.reported(4)
    }

    pub fn outputs(&self) -> u64 {
        self.memory.reported(5)
    }

    /// The pairs of a map that has ended, of a refused file too.
    pub fn map(&self, number: usize) -> Vec<Pair> {
        let word = |at: usize| self.memory.maps[at] as usize;
        let (first, count) = (word(2 * number), word(2 * number + 1));
        let part = |entry: &[u32], at: usize| {
            let (start, length) = (entry[at] as usize, entry[at + 1] as usize);
            self.memory.file[start..start + length].to_vec()
        };
        let entries = self.memory.pairs.chunks_exact(4).skip(first).take(count);
        entries.map(|entry| (part(entry, 0), part(entry, 2))).collect()
    }

    /// How many inputs and outputs the global map counts, once it has ended.
    pub fn counted(&self) -> [u64; 2] {
        let global = self.map(0);
        [0x04, 0x05].map(|key| {
            let value = global.iter().find(|pair| pair.0 == [key]).map(|pair| &pair.1);
            value.and_then(|value| parse::count(value).ok()).expect("the global map was found right")
        })
    }

    /// A number of four bytes that an input has.
    pub fn input_number(&self, input: u64, key_type: u8) -> Option<u64> {
        let map = Lent::of(&self.memory).input(input);
        lookups::numbered(&map, key_type, 4).expect("the parse left the tables, and found sizes right")
    }

    pub fn lock(&self) -> transaction::Lock {
        transaction::lock(&Lent::of(&self.memory))
    }

    /// The unsigned transaction, or its refusal.
    pub fn transaction(&self) -> Result<Vec<u8>, u32> {
        let answer = transaction::unsigned(&mut self.memory.clone());
        match (answer.number, answer.left) {
            (0, Left::Bytes(bytes)) => Ok(bytes[..answer.words[1] as usize].to_vec()),
            (number, _) => Err(number),
        }
    }
}
