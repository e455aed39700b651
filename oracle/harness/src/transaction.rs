//! The unsigned transaction by the original, as the bytes of its fields, the scripts that are set before it, and those of outputs.

use super::super::*;
use super::{number, place};
use records::{calls, laid, Answer, Call, Left, Memory};

/// Bytes of the script table for each output.
const ENTRY: usize = 35;
const NO_SUCH: u32 = 14;
const WRONG_SCRIPTS: u32 = 19;
const NO_ROOM: u32 = 25;

fn put_size(to: &mut Vec<u8>, n: usize) {
    match n {
        0..=0xfc => to.push(n as u8),
        0xfd..=0xffff => {
            to.push(0xfd);
            to.extend((n as u16).to_le_bytes());
        }
        _ => {
            to.push(0xfe);
            to.extend((n as u32).to_le_bytes());
        }
    }
}

/// The plain serialisation, field by field.
fn bytes(tx: &Transaction) -> Vec<u8> {
    let mut to = tx.version.0.to_le_bytes().to_vec();
    put_size(&mut to, tx.input.len());
    for input in &tx.input {
        to.extend(input.previous_output.txid.to_byte_array());
        to.extend(input.previous_output.vout.to_le_bytes());
        put_size(&mut to, input.script_sig.as_bytes().len());
        to.extend(input.script_sig.as_bytes());
        to.extend(input.sequence.to_consensus_u32().to_le_bytes());
    }
    put_size(&mut to, tx.output.len());
    for output in &tx.output {
        to.extend(output.value.to_sat().to_le_bytes());
        put_size(&mut to, output.script_pubkey.as_bytes().len());
        to.extend(output.script_pubkey.as_bytes());
    }
    to.extend(tx.lock_time.to_consensus_u32().to_le_bytes());
    to
}

/// Whether scripts are set, and whether a transaction was built.
fn state(psbt: &Psbt) -> (bool, bool) {
    (!psbt.sp_output_scripts.is_empty(), psbt.cached_unsigned_tx.get().is_some())
}

/// The script table that the original's scripts make.
fn entries(psbt: &Psbt) -> Vec<u8> {
    let entry = |script: &Option<ScriptBuf>| match script {
        Some(script) => [&[1], script.as_bytes()].concat(),
        None => vec![0; ENTRY],
    };
    psbt.sp_output_scripts.iter().flat_map(entry).collect()
}

/// The original brought to the state that memory tells: scripts are set, then the transaction is built. None if it refuses, or
/// if memory has a script table that it wouldn't leave.
fn advanced<'a>(mut psbt: Psbt<'a>, memory: &Memory) -> Option<Psbt<'a>> {
    let (set, written) = memory.state();
    if set {
        let entries = memory.scripts.chunks_exact(ENTRY).take(psbt.outputs.len()).enumerate();
        let scripts = entries.filter(|(_, entry)| entry[0] != 0);
        let scripts = scripts.map(|(output, entry)| (output, ScriptBuf::from_bytes(entry[1..].to_vec())));
        psbt.set_sp_output_scripts(scripts.collect()).ok()?;
    }
    if written {
        psbt.unsigned_tx().ok()?;
    }
    (state(&psbt) == memory.state() && memory.scripts.starts_with(&entries(&psbt))).then_some(psbt)
}

pub fn answer(psbt: Psbt, memory: &mut Memory, call: &Call) -> Option<Answer> {
    let psbt = advanced(psbt, memory)?;
    Some(match call.number {
        calls::SET => set(psbt, memory, &memory.list.clone()),
        calls::SET_TWO => set(psbt, memory, &memory.two_assignments()),
        calls::TX => unsigned(&psbt, memory),
        _ => script(&psbt, call),
    })
}

/// The original has no rooms: 25 is the harness's own.
fn unsigned(psbt: &Psbt, memory: &mut Memory) -> Answer {
    let refused = |number: u32, memory: &Memory| Answer::told(number, &[]).leaving(Left::Bytes(memory.out.clone()));
    let bytes = match psbt.unsigned_tx().map(bytes) {
        Err(error) => return refused(number(error), memory),
        Ok(bytes) if bytes.len() > memory.out.len() => return refused(NO_ROOM, memory),
        Ok(bytes) => bytes,
    };
    let (set, written) = state(psbt);
    let mut answer = Answer::told(0, &[bytes.len() as u64, set.into(), written.into()]);
    // What the one known difference comes from: the original takes the fallback into the greatest asked lock.
    let asked = psbt.inputs.iter().any(|i| i.required_time_locktime.is_some() || i.required_height_locktime.is_some());
    answer.fallback = psbt.fallback_locktime.filter(|_| asked);
    answer.leaving(Left::Bytes(laid(&mut memory.out, &bytes)))
}

/// The assignments as the original takes them. A list that ends inside a record and a script that leaves its buffer can't be
/// given to it.
fn assignments(memory: &Memory, list: &[u64]) -> Option<Vec<(usize, ScriptBuf)>> {
    let records = list.chunks_exact(3);
    if !records.remainder().is_empty() {
        return None;
    }
    records
        .map(|record| {
            let script = memory.buffer.get(record[1] as usize..record[1].checked_add(record[2])? as usize)?;
            Some((record[0] as usize, ScriptBuf::from_bytes(script.to_vec())))
        })
        .collect()
}

/// The harness's own are 19 for assignments that can't be given, and 25.
fn set(mut psbt: Psbt, memory: &mut Memory, list: &[u64]) -> Answer {
    let done = match assignments(memory, list) {
        None => Err(WRONG_SCRIPTS),
        Some(scripts) => psbt.set_sp_output_scripts(scripts).map_err(number),
    };
    let room = ENTRY * psbt.outputs.len() <= memory.scripts.len();
    match done.and(if room { Ok(()) } else { Err(NO_ROOM) }) {
        Err(number) => Answer::told(number, &[]).leaving(Left::Bytes(memory.scripts.clone())),
        Ok(()) => {
            let (set, written) = state(&psbt);
            Answer::told(0, &[set.into(), written.into()])
                .leaving(Left::Bytes(laid(&mut memory.scripts, &entries(&psbt))))
        }
    }
}

/// Where the script of an output stands: in the file (0), or in the script table (1), behind the first byte of its entry. The
/// original answers none for an output that doesn't exist: there 14 is the harness's own.
fn script(psbt: &Psbt, call: &Call) -> Answer {
    let index = call.arguments[0] as usize;
    let script = psbt.output_script(index);
    if call.number == calls::SCRIPT_PART {
        return Answer::part(script.unwrap_or(&[]));
    }
    let Some(output) = psbt.outputs.get(index) else { return Answer::told(NO_SUCH, &[]) };
    Answer::values(Ok(match script {
        None => vec![],
        Some(script) if output.script.is_some() => vec![0, place(psbt.raw_psbt, script) as u64, script.len() as u64],
        Some(script) => vec![1, (ENTRY * index + 1) as u64, script.len() as u64],
    }))
}
