//! The memory that records lend.

use crate::{calls, Answer, Call, Record};
use crate::{BUFFER, FILE, LIST, MAPS, MOST, OUT, PAIRS, REPORT, SCRIPTS, STATE};

/// What lent memory is filled with before a body is stored in it, and what a line leaves off at its end.
pub const FILL: u8 = 0xa5;

#[derive(Debug, Clone, Default, PartialEq, Eq)]
pub struct Memory {
    pub file: Vec<u8>,
    pub pairs: Vec<u32>,
    pub maps: Vec<u32>,
    pub report: Vec<u64>,
    /// The setter's: three numbers for each assignment.
    pub list: Vec<u64>,
    /// Keys that are asked, scripts that the setter gets.
    pub buffer: Vec<u8>,
    pub scripts: Vec<u8>,
    pub out: Vec<u8>,
    pub state: Vec<u64>,
}

/// So many cells, the body's in front; none if the body has more, or no whole cells.
fn lent<T: Clone, const W: usize>(room: usize, body: &[u8], cell: fn([u8; W]) -> T) -> Option<Vec<T>> {
    let cells = body.chunks_exact(W);
    if !cells.remainder().is_empty() || cells.len() > room {
        return None;
    }
    let mut all: Vec<T> = cells.map(|bytes| cell(bytes.try_into().unwrap())).collect();
    all.resize(room, cell([FILL; W]));
    Some(all)
}

impl Memory {
    /// Lends what a record lends; none if it lends nothing, or more than there is.
    pub fn lend(&mut self, record: &Record) -> Option<()> {
        let (room, body) = (record.room as usize, &record.body[..]);
        if room > *MOST.get(usize::from(record.kind))? {
            return None;
        }
        match record.kind {
            // A file takes all other memory back.
            FILE => *self = Memory { file: lent(room, body, u8::from_le_bytes)?, ..Memory::default() },
            PAIRS => self.pairs = lent(room, body, u32::from_le_bytes)?,
            MAPS => self.maps = lent(room, body, u32::from_le_bytes)?,
            REPORT => self.report = lent(room, body, u64::from_le_bytes)?,
            LIST => self.list = lent(room, body, u64::from_le_bytes)?,
            BUFFER => self.buffer = lent(room, body, u8::from_le_bytes)?,
            SCRIPTS => self.scripts = lent(room, body, u8::from_le_bytes)?,
            OUT => self.out = lent(room, body, u8::from_le_bytes)?,
            STATE => self.state = lent(room, body, u64::from_le_bytes)?,
            _ => return None,
        }
        Some(())
    }

    /// So many bytes of the buffer from there on, or as many as there are.
    pub fn part(&self, start: u64, length: u64) -> &[u8] {
        let rest = usize::try_from(start).ok().and_then(|start| self.buffer.get(start..)).unwrap_or(&[]);
        &rest[..usize::try_from(length).map_or(rest.len(), |length| length.min(rest.len()))]
    }

    /// A word of the report, 0 where it is missing.
    pub fn reported(&self, word: usize) -> u64 {
        self.report.get(word).copied().unwrap_or(0)
    }

    /// Whether scripts were set, and whether a transaction was written.
    pub fn state(&self) -> (bool, bool) {
        let word = |i: usize| self.state.get(i).is_some_and(|word| *word != 0);
        (word(0), word(1))
    }

    /// The list's first six numbers, as the setter over records takes them.
    pub fn two_assignments(&self) -> [u64; 6] {
        std::array::from_fn(|i| self.list.get(i).copied().unwrap_or(0))
    }

    /// What a call that refused nothing leaves for later ones: what was reported, or the state.
    pub fn follow(&mut self, call: &Call, answer: &Answer) {
        if answer.number != 0 {
            return;
        }
        match call.number {
            calls::PARSE => self.report = answer.words.to_vec(),
            calls::SET | calls::SET_TWO => self.state = answer.words[1..3].to_vec(),
            calls::TX => self.state = answer.words[2..4].to_vec(),
            _ => {}
        }
    }
}

/// Lays cells over the front of memory, if they fit, and gives them with what stands behind them.
pub fn laid<T: Copy>(memory: &mut [T], cells: &[T]) -> Vec<T> {
    match memory.get_mut(..cells.len()) {
        None => cells.to_vec(),
        Some(front) => {
            front.copy_from_slice(cells);
            memory.to_vec()
        }
    }
}
