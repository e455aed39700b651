//! Answers calls by the original. Rooms are ignored where a file is parsed: the original allocates.

extern crate alloc;

include!(concat!(env!("OUT_DIR"), "/module.rs"));

use fastpsbt::{inside, Psbt};
use inside::Tables;
use records::{calls, laid, Answer, Call, Left, Memory, LIMIT};

/// The whole entries of a parse, whatever the rooms; memory gets them where they fit.
fn parse(file: &[u8], memory: &mut Memory) -> Answer {
    let refused =
        |number: u32, tables: &Tables| Answer::told(number, &[tables.pairs.len() as u64, tables.maps.len() as u64]);
    let (answer, tables) = if file.len() > LIMIT {
        // The original has no limit: this number is the harness's own.
        (refused(21, &Tables::default()), Tables::default())
    } else {
        match Psbt::parse(file) {
            Ok(psbt) => {
                let tables = inside::tables(&psbt);
                (inside::report(&psbt, &tables), tables)
            }
            Err(error) => {
                let tables = inside::before_refusal(file);
                (refused(inside::number(error), &tables), tables)
            }
        }
    };
    let (pairs, maps) = tables.words();
    answer.leaving(Left::Tables(laid(&mut memory.pairs, &pairs), laid(&mut memory.maps, &maps)))
}

/// None where the original has no such call, or where memory isn't what its own parse and setter leave.
fn answer(memory: &mut Memory, call: &Call) -> Option<Answer> {
    let file = std::mem::take(&mut memory.file);
    let answer = match call.number {
        calls::PARSE => Some(parse(&file, memory)),
        _ if file.len() > LIMIT => None,
        _ => inside::own(&file, memory).and_then(|psbt| match call.number {
            calls::SET | calls::SET_TWO | calls::TX | calls::SCRIPT | calls::SCRIPT_PART => {
                inside::transaction::answer(psbt, memory, call)
            }
            _ => inside::lookups::answer(&psbt, memory, call),
        }),
    };
    memory.file = file;
    answer
}

fn main() -> std::io::Result<()> {
    records::run(answer)
}
