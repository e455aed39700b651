//! The lock, the setter and the unsigned transaction, over tables that may hold anything.

use crate::lookups::{find, Entry, Lent, BAD_VALUE, UNFIT};
use crate::parse::number;
use records::{laid, Answer, Left, Memory};

const MISSING_SCRIPT: u32 = 17;
const WRONG_SCRIPTS: u32 = 19;
const NO_ROOM: u32 = 25;

/// Where heights end and times begin.
const TIMES: u32 = 500_000_000;

/// What decided the lock, with inputs by their numbers, or the rule that refused.
pub enum Lock {
    Unfit(u32),
    Malformed(usize),
    BothKinds(usize, usize),
    TooGreat(u32, usize),
    TooSmall(u32, usize),
    Height(u32, usize),
    Time(u32, usize),
    Fallback(u32),
}

impl Lock {
    pub fn told(&self) -> Answer {
        match *self {
            Lock::Unfit(refusal) => Answer::told(refusal, &[]),
            Lock::Fallback(n) => Answer::told(0, &[0, n.into()]),
            Lock::Height(n, input) => Answer::told(0, &[1, n.into(), input as u64]),
            Lock::Time(n, input) => Answer::told(0, &[2, n.into(), input as u64]),
            Lock::BothKinds(height, time) => Answer::told(BAD_VALUE, &[1, height as u64, time as u64]),
            Lock::TooGreat(n, input) => Answer::told(BAD_VALUE, &[2, n.into(), input as u64]),
            Lock::TooSmall(n, input) => Answer::told(BAD_VALUE, &[3, n.into(), input as u64]),
            Lock::Malformed(input) => Answer::told(BAD_VALUE, &[4, input as u64]),
        }
    }
}

/// A number of four bytes; none if absent, an error if it has another length.
fn word(map: &[Entry], key_type: u8) -> Result<Option<u32>, ()> {
    match find(map, key_type, &[]) {
        None => Ok(None),
        Some(entry) if entry.value.len() == 4 => Ok(Some(number(entry.value) as u32)),
        Some(_) => Err(()),
    }
}

/// The greatest that is asked and the first input that asks it; behind it the first input that asks at all.
type Asked = Option<(u32, usize, usize)>;

fn raise(asked: &mut Asked, number: Option<u32>, input: usize) {
    if let Some(number) = number {
        *asked = Some(match *asked {
            None => (number, input, input),
            Some((most, _, first)) if number > most => (number, input, first),
            Some(same) => same,
        });
    }
}

fn lock_of(inputs: &[Vec<Entry>], fallback: Option<u32>) -> Lock {
    let (mut height, mut time): (Asked, Asked) = (None, None);
    for (input, map) in inputs.iter().enumerate() {
        let (Ok(h), Ok(t)) = (word(map, 0x12), word(map, 0x11)) else {
            return Lock::Malformed(input);
        };
        raise(&mut height, h, input);
        raise(&mut time, t, input);
    }
    match (height, time) {
        (Some((_, _, h)), Some((_, _, t))) => Lock::BothKinds(h, t),
        (Some((number, input, _)), None) if number >= TIMES => Lock::TooGreat(number, input),
        (Some((number, input, _)), None) => Lock::Height(number, input),
        (None, Some((number, input, _))) if number < TIMES => Lock::TooSmall(number, input),
        (None, Some((number, input, _))) => Lock::Time(number, input),
        (None, None) => Lock::Fallback(fallback.unwrap_or(0)),
    }
}

fn inputs_of<'e, 'a>(lent: &Lent, maps: &'e [Vec<Entry<'a>>]) -> &'e [Vec<Entry<'a>>] {
    &maps[1..1 + lent.inputs as usize]
}

fn outputs_of<'e, 'a>(lent: &Lent, maps: &'e [Vec<Entry<'a>>]) -> &'e [Vec<Entry<'a>>] {
    &maps[1 + lent.inputs as usize..]
}

pub fn lock(lent: &Lent) -> Lock {
    match lent.all() {
        Err(refusal) => Lock::Unfit(refusal),
        Ok(maps) => lock_of(inputs_of(lent, &maps), lent.fallback),
    }
}

fn is_taproot(script: &[u8]) -> bool {
    script.len() == 34 && script.starts_with(&[0x51, 0x20])
}

/// One entry of the script table, if the setter would write it for that output.
fn entry_fits(entry: &[u8], output: &[Entry]) -> bool {
    match find(output, 0x04, &[]) {
        Some(_) => entry.iter().all(|byte| *byte == 0),
        None => entry[0] == 1 && is_taproot(&entry[1..]),
    }
}

fn put_size(to: &mut Vec<u8>, n: usize) {
    let bytes = n.to_le_bytes();
    match n {
        0..=252 => to.push(bytes[0]),
        253..=65_535 => to.extend([0xfd, bytes[0], bytes[1]]),
        _ => to.extend([0xfe, bytes[0], bytes[1], bytes[2], bytes[3]]),
    }
}

/// A field of this width; 7 if it is absent or of another.
fn sized<'a>(map: &[Entry<'a>], key_type: u8, width: usize) -> Result<&'a [u8], u32> {
    match find(map, key_type, &[]) {
        Some(entry) if entry.value.len() == width => Ok(entry.value),
        _ => Err(BAD_VALUE),
    }
}

/// The transaction's bytes.
fn bytes(memory: &Memory) -> Result<Vec<u8>, u32> {
    let lent = &Lent::of(memory);
    let maps = lent.all()?;
    let (set, _) = memory.state();
    let (inputs, outputs) = (inputs_of(lent, &maps), outputs_of(lent, &maps));
    let entries: Vec<&[u8]> = memory.scripts.chunks_exact(35).collect();
    if set && (entries.len() < outputs.len() || !outputs.iter().zip(&entries).all(|(output, e)| entry_fits(e, output)))
    {
        return Err(UNFIT);
    }
    let lock = match lock_of(inputs, lent.fallback) {
        Lock::Height(number, _) | Lock::Time(number, _) | Lock::Fallback(number) => number,
        _ => return Err(BAD_VALUE),
    };
    let mut to = lent.tx_version.to_le_bytes().to_vec();
    put_size(&mut to, inputs.len());
    for input in inputs {
        to.extend(sized(input, 0x0e, 32)?);
        to.extend(sized(input, 0x0f, 4)?);
        to.push(0);
        match find(input, 0x10, &[]) {
            None => to.extend([0xff; 4]),
            Some(_) => to.extend(sized(input, 0x10, 4)?),
        }
    }
    put_size(&mut to, outputs.len());
    for (number, output) in outputs.iter().enumerate() {
        to.extend(sized(output, 0x03, 8)?);
        let script = match find(output, 0x04, &[]) {
            Some(entry) => entry.value,
            None if set => &entries[number][1..],
            None => return Err(MISSING_SCRIPT),
        };
        put_size(&mut to, script.len());
        to.extend(script);
    }
    to.extend(lock.to_le_bytes());
    if to.len() > memory.out.len() {
        return Err(NO_ROOM);
    }
    Ok(to)
}

/// Writes the transaction, if the buffer has the room.
pub fn unsigned(memory: &mut Memory) -> Answer {
    let (set, _) = memory.state();
    match bytes(memory) {
        Err(refusal) => Answer::told(refusal, &[]).leaving(Left::Bytes(memory.out.clone())),
        Ok(bytes) => {
            Answer::told(0, &[bytes.len() as u64, set.into(), 1]).leaving(Left::Bytes(laid(&mut memory.out, &bytes)))
        }
    }
}

/// Where the script of an output stands, in the file or (then true) in the script table.
pub fn script_place(memory: &Memory, output: &[Entry], number: u64) -> Result<Option<(bool, usize, usize)>, u32> {
    let (set, _) = memory.state();
    let start = usize::try_from(number).ok().and_then(|n| n.checked_mul(35));
    let entry = start.and_then(|start| memory.scripts.get(start..start.checked_add(35)?));
    if set && !entry.is_some_and(|entry| entry_fits(entry, output)) {
        return Err(UNFIT);
    }
    Ok(match find(output, 0x04, &[]) {
        Some(entry) => Some((false, entry.place[2], entry.place[3])),
        None if set => start.map(|start| (true, start + 1, 34)),
        None => None,
    })
}

/// The entries that the setter writes, one for each output.
fn entries(memory: &Memory, list: &[u64]) -> Result<Vec<[u8; 35]>, u32> {
    let lent = &Lent::of(memory);
    let maps = lent.all()?;
    let outputs = outputs_of(lent, &maps);
    if memory.state() != (false, false) || list.len() % 3 != 0 {
        return Err(WRONG_SCRIPTS);
    }
    let mut scripts: Vec<Option<&[u8]>> = vec![None; outputs.len()];
    for record in list.chunks_exact(3) {
        let [output, start, length] = [record[0], record[1], record[2]].map(|n| usize::try_from(n).unwrap());
        let script = start.checked_add(length).and_then(|end| memory.buffer.get(start..end));
        let Some(script) = script.filter(|script| is_taproot(script)) else { return Err(WRONG_SCRIPTS) };
        if output >= outputs.len() || find(&outputs[output], 0x04, &[]).is_some() || scripts[output].is_some() {
            return Err(WRONG_SCRIPTS);
        }
        scripts[output] = Some(script);
    }
    if outputs.iter().zip(&scripts).any(|(output, script)| find(output, 0x04, &[]).is_none() && script.is_none()) {
        return Err(WRONG_SCRIPTS);
    }
    if memory.scripts.len() / 35 < outputs.len() {
        return Err(NO_ROOM);
    }
    let entry = |script: Option<&[u8]>| {
        let mut entry = [0; 35];
        if let Some(script) = script {
            entry[0] = 1;
            entry[1..].copy_from_slice(script);
        }
        entry
    };
    Ok(scripts.into_iter().map(entry).collect())
}

/// Sets scripts; with no outputs nothing counts as set.
pub fn set(memory: &mut Memory, list: &[u64]) -> Answer {
    match entries(memory, list) {
        Err(refusal) => Answer::told(refusal, &[]).leaving(Left::Bytes(memory.scripts.clone())),
        Ok(entries) => Answer::told(0, &[u64::from(!entries.is_empty()), 0])
            .leaving(Left::Bytes(laid(&mut memory.scripts, &entries.concat()))),
    }
}
