//! Records in and lines out, as the program `answers` reads and prints them (`README.md` has the format). A record lends memory
//! or asks calls; every call gets one line.

mod answer;
pub mod calls;
mod memory;

pub use answer::{Answer, Left, Listing, Looked, Numbered};
pub use memory::{laid, Memory, FILL};

use std::io::{self, Read, Write};

/// The longest file that is read (21 above it).
pub const LIMIT: usize = 1_048_576;
/// The longest body that a record may have.
pub const LONGEST: usize = LIMIT + 1;

/// What records lend, by their kinds.
pub const FILE: u8 = 0;
pub const PAIRS: u8 = 1;
pub const MAPS: u8 = 2;
pub const REPORT: u8 = 3;
pub const LIST: u8 = 4;
pub const BUFFER: u8 = 5;
pub const SCRIPTS: u8 = 6;
pub const OUT: u8 = 7;
pub const STATE: u8 = 8;
/// The kind that lends nothing: its body is calls.
pub const CALLS: u8 = 9;

/// The most cells that can be lent of each.
pub const MOST: [usize; 9] = [LONGEST, 32_768, 4_096, 8, 1_542, 131_072, 17_920, 65_536, 2];

#[derive(Debug, Clone)]
pub struct Record {
    pub kind: u8,
    pub room: u32,
    pub body: Vec<u8>,
}

impl Record {
    pub fn write(&self, to: &mut impl Write) -> io::Result<()> {
        to.write_all(&[self.kind])?;
        to.write_all(&self.room.to_le_bytes())?;
        to.write_all(&(self.body.len() as u32).to_le_bytes())?;
        to.write_all(&self.body)
    }
}

#[derive(Debug, Clone)]
pub struct Call {
    pub number: u8,
    /// Those that aren't given are 0.
    pub arguments: [u64; 8],
}

pub enum Next {
    Call(Call),
    Cut,
    End,
}

/// Records as they are read, the memory that they have lent so far, and the calls that are still to be answered.
pub struct Stream<R> {
    from: R,
    pub memory: Memory,
    calls: Vec<u8>,
    at: usize,
}

/// Reads as much as there is, up to the buffer's length.
fn fill(from: &mut impl Read, buffer: &mut [u8]) -> io::Result<usize> {
    let mut at = 0;
    while at < buffer.len() {
        match from.read(&mut buffer[at..])? {
            0 => break,
            n => at += n,
        }
    }
    Ok(at)
}

impl<R: Read> Stream<R> {
    pub fn new(from: R) -> Self {
        Stream { from, memory: Memory::default(), calls: Vec::new(), at: 0 }
    }

    /// The next call, once all memory before it is lent.
    pub fn next(&mut self) -> io::Result<Next> {
        while self.at == self.calls.len() {
            let mut head = [0u8; 9];
            let got = fill(&mut self.from, &mut head)?;
            if got == 0 {
                return Ok(Next::End);
            }
            let word = |i: usize| u32::from_le_bytes([head[i], head[i + 1], head[i + 2], head[i + 3]]);
            let length = word(5) as usize;
            if got < head.len() || length > LONGEST {
                return Ok(Next::Cut);
            }
            let mut body = vec![0u8; length];
            if fill(&mut self.from, &mut body)? < length {
                return Ok(Next::Cut);
            }
            if head[0] == CALLS {
                (self.calls, self.at) = (body, 0);
            } else if self.memory.lend(&Record { kind: head[0], room: word(1), body }).is_none() {
                return Ok(Next::Cut);
            }
        }
        Ok(self.call().map_or(Next::Cut, Next::Call))
    }

    fn call(&mut self) -> Option<Call> {
        let mut call = Call { number: self.byte()?, arguments: [0; 8] };
        let count = usize::from(self.byte()?);
        for argument in call.arguments.get_mut(..count)? {
            *argument = self.size()?;
        }
        (call.number < calls::KNOWN).then_some(call)
    }

    fn byte(&mut self) -> Option<u8> {
        let byte = *self.calls.get(self.at)?;
        self.at += 1;
        Some(byte)
    }

    /// A compact size, in whatever form.
    fn size(&mut self) -> Option<u64> {
        let first = self.byte()?;
        let more = match first {
            0xfd => 2,
            0xfe => 4,
            0xff => 8,
            _ => return Some(first.into()),
        };
        let mut bytes = [0; 8];
        for byte in &mut bytes[..more] {
            *byte = self.byte()?;
        }
        Some(u64::from_le_bytes(bytes))
    }
}

/// Answers every call of standard input with a line; `none` where there is no answer.
pub fn run(mut answer: impl FnMut(&mut Memory, &Call) -> Option<Answer>) -> io::Result<()> {
    let mut stream = Stream::new(io::BufReader::with_capacity(1 << 16, io::stdin().lock()));
    let mut to = io::BufWriter::with_capacity(1 << 16, io::stdout().lock());
    loop {
        match stream.next()? {
            Next::Call(call) => match answer(&mut stream.memory, &call) {
                Some(answer) => {
                    writeln!(to, "{}", answer.line(call.number))?;
                    stream.memory.follow(&call, &answer);
                }
                None => writeln!(to, "none")?,
            },
            Next::Cut => {
                writeln!(to, "cut")?;
                break;
            }
            Next::End => break,
        }
    }
    to.flush()
}
