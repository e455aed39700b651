//! What is asked of one file: records that lend memory, and calls.

use crate::draft::put_size;
use records::{calls, Record, BUFFER, CALLS, FILE, MAPS, MOST, PAIRS};
use std::collections::{BTreeMap, BTreeSet};
use std::io::{self, Write};

pub struct Group {
    records: Vec<Record>,
    calls: u64,
    /// What was asked by `ask_once`.
    asked: BTreeSet<Vec<u8>>,
}

/// Words enough for all pairs and maps that a file of this length can have, as far as they can be lent.
pub fn ample(length: usize) -> (usize, usize) {
    (MOST[usize::from(PAIRS)].min(4 * (length / 3 + 1)), MOST[usize::from(MAPS)].min(2 * (length + 1)))
}

impl Group {
    pub fn of(file: &[u8]) -> Self {
        let mut group = Group { records: Vec::new(), calls: 0, asked: BTreeSet::new() };
        group.lend(FILE, file.len(), file.to_vec());
        group
    }

    /// A parse with so many words for pairs and for maps.
    pub fn parsed(file: &[u8], (pairs, maps): (usize, usize)) -> Self {
        let mut group = Group::of(file);
        group.room(PAIRS, pairs);
        group.room(MAPS, maps);
        group.ask(calls::PARSE, &[]);
        group
    }

    fn lend(&mut self, kind: u8, room: usize, body: Vec<u8>) {
        self.records.push(Record { kind, room: room as u32, body });
    }

    /// Cells that nothing is stored in.
    pub fn room(&mut self, kind: u8, cells: usize) {
        self.lend(kind, cells.min(MOST[usize::from(kind)]), Vec::new());
    }

    pub fn words(&mut self, kind: u8, words: &[u32]) {
        self.lend(kind, words.len(), words.iter().flat_map(|word| word.to_le_bytes()).collect());
    }

    pub fn numbers(&mut self, kind: u8, numbers: &[u64]) {
        self.lend(kind, numbers.len(), numbers.iter().flat_map(|number| number.to_le_bytes()).collect());
    }

    pub fn bytes(&mut self, kind: u8, bytes: &[u8]) {
        self.lend(kind, bytes.len(), bytes.to_vec());
    }

    /// The file's own bytes as the buffer, so that its keys can be asked.
    pub fn keys_of(&mut self, file: &[u8]) {
        self.bytes(BUFFER, &file[..file.len().min(MOST[usize::from(BUFFER)])]);
    }

    /// Arguments that are 0 at the end are left off; the others are compact sizes of at least this form.
    fn call(number: u8, arguments: &[u64], form: u8) -> Vec<u8> {
        let count = arguments.iter().rposition(|argument| *argument != 0).map_or(0, |last| last + 1);
        let mut call = vec![number, count as u8];
        for argument in &arguments[..count] {
            put_size(&mut call, *argument, form);
        }
        call
    }

    pub fn ask(&mut self, number: u8, arguments: &[u64]) {
        self.ask_in_form(number, arguments, 0);
    }

    pub fn ask_in_form(&mut self, number: u8, arguments: &[u64], form: u8) {
        let call = Self::call(number, arguments, form);
        match self.records.last_mut() {
            Some(last) if last.kind == CALLS => last.body.extend(call),
            _ => self.lend(CALLS, 0, call),
        }
        self.calls += 1;
    }

    pub fn ask_once(&mut self, number: u8, arguments: &[u64]) {
        if self.asked.insert(Self::call(number, arguments, 0)) {
            self.ask(number, arguments);
        }
    }
}

pub struct Sink<W: Write> {
    pub to: W,
    /// How many groups are still to be written.
    pub left: u64,
    pub calls: u64,
    pub bytes: u64,
    pub made: BTreeMap<&'static str, u64>,
}

impl<W: Write> Sink<W> {
    /// One group; `false` once all that were asked for are written.
    pub fn put(&mut self, what: &'static str, group: &Group) -> io::Result<bool> {
        if self.left == 0 {
            return Ok(false);
        }
        self.left -= 1;
        self.calls += group.calls;
        self.bytes += group.records[0].body.len() as u64;
        *self.made.entry(what).or_default() += 1;
        for record in &group.records {
            record.write(&mut self.to)?;
        }
        Ok(true)
    }
}
