//! A model of the calls, written from the rules of the format (`docs/DEFINITIONS.md` has them in words) and, where these leave
//! room, from the readings in `docs/DECISIONS.md`. No line of it comes from the original or from the Rattle code. It answers the
//! same records with the same lines, and it says what the original can't: 22, 23, 24 and what small rooms leave.
//!
//! It is a model, a third opinion. Nothing is proved about it.

pub mod lookups;
pub mod parse;
pub mod transaction;

use lookups::{Lent, Wanted, UNFIT};
use records::calls::*;
use records::{Answer, Call, Left, Looked, Memory};
use Told::{List, Number, Part};
use Wanted::{Any, Exactly};

/// What a field answers: its place, its number of so many bytes, or where the pairs of its type stand.
#[derive(Clone, Copy)]
enum Told {
    Part(Wanted),
    Number(usize),
    List,
}

/// Fields of the global map that no number is asked with, of inputs and of outputs: call, key type, answer.
const GLOBAL_FIELDS: [(u8, u8, Told); 2] = [(GLOBAL_SHARES, 0x07, List), (GLOBAL_PROOFS, 0x08, List)];
const INPUT_FIELDS: [(u8, u8, Told); 17] = [
    (IN_NON_WITNESS_UTXO, 0x00, Part(Any)),
    (IN_WITNESS_UTXO, 0x01, Part(Any)),
    (IN_SIGHASH_TYPE, 0x03, Number(4)),
    (IN_REDEEM_SCRIPT, 0x04, Part(Any)),
    (IN_WITNESS_SCRIPT, 0x05, Part(Any)),
    (IN_FINAL_SCRIPTSIG, 0x07, Part(Any)),
    (IN_FINAL_SCRIPTWITNESS, 0x08, Part(Any)),
    (IN_PREVIOUS_TXID, 0x0e, Part(Exactly(32))),
    (IN_OUTPUT_INDEX, 0x0f, Number(4)),
    (IN_SEQUENCE, 0x10, Number(4)),
    (IN_REQUIRED_TIME, 0x11, Number(4)),
    (IN_REQUIRED_HEIGHT, 0x12, Number(4)),
    (IN_SP_TWEAK, 0x20, Part(Exactly(32))),
    (IN_DERIVATIONS, 0x06, List),
    (IN_SHARES, 0x1d, List),
    (IN_PROOFS, 0x1e, List),
    (IN_SPEND_DERIVATIONS, 0x1f, List),
];
const OUTPUT_FIELDS: [(u8, u8, Told); 7] = [
    (OUT_REDEEM_SCRIPT, 0x00, Part(Any)),
    (OUT_WITNESS_SCRIPT, 0x01, Part(Any)),
    (OUT_AMOUNT, 0x03, Number(8)),
    (OUT_SCRIPT, 0x04, Part(Any)),
    (OUT_SP_INFO, 0x09, Part(Exactly(66))),
    (OUT_SP_LABEL, 0x0a, Number(4)),
    (OUT_DERIVATIONS, 0x02, List),
];

/// The answer of a field, if the call is one of these.
fn field(fields: &[(u8, u8, Told)], call: u8, map: &lookups::Map) -> Option<Answer> {
    let (_, key_type, told) = fields.iter().find(|(number, _, _)| *number == call)?;
    Some(match told {
        Part(wanted) => Answer::looked(lookups::look(map, *key_type, &[], *wanted)),
        Number(width) => Answer::numbered(lookups::numbered(map, *key_type, *width)),
        List => Answer::listing(lookups::list(map, *key_type)),
    })
}

/// The bytes that stand at a place.
fn part_of(bytes: &[u8], looked: Looked) -> &[u8] {
    looked.ok().flatten().map_or(&[], |(start, length)| &bytes[start..start + length])
}

/// How many values an accepted parse tells: the first word of its report.
const REPORTED: u64 = 7;

/// What the calls that firmware has answer where the report is none. Nothing is written.
fn no_report(memory: &Memory, call: &Call) -> Answer {
    let told = Answer::told(UNFIT, &[]);
    match call.number {
        SET => told.leaving(Left::Bytes(memory.scripts.clone())),
        TX => told.leaving(Left::Bytes(memory.out.clone())),
        _ => told,
    }
}

/// What a call answers over lent memory.
pub fn answer(memory: &mut Memory, call: &Call) -> Answer {
    if (LOCK..=SCRIPT).contains(&call.number) && memory.reported(0) != REPORTED {
        return no_report(memory, call);
    }
    match call.number {
        PARSE => parse::parse(memory),
        SET => transaction::set(memory, &memory.list.clone()),
        SET_TWO => transaction::set(memory, &memory.two_assignments()),
        TX => transaction::unsigned(memory),
        LOCK => transaction::lock(&Lent::of(memory)).told(),
        SCRIPT | SCRIPT_PART => script(memory, call),
        GLOBAL_SHARE..=GLOBAL_PROOFS => global(memory, call),
        IN_NON_WITNESS_UTXO..=IN_UTXO | IN_UTXO_SCRIPT => input(memory, call),
        OUT_REDEEM_SCRIPT..=OUT_PARTICIPANT => output(memory, call),
        _ => general(memory, call),
    }
}

/// Calls that ask a map by its number among all.
fn general(memory: &Memory, call: &Call) -> Answer {
    let a = call.arguments;
    let map = Lent::of(memory).map(u128::from(a[0]));
    let get = || lookups::look(&map, a[1] as u8, memory.part(a[2], a[3]), Any);
    let nth = || lookups::nth(&map, a[1]);
    match call.number {
        GET => Answer::looked(get()),
        GET_PART => Answer::part(part_of(&memory.file, get())),
        LISTED => Answer::listing(lookups::list(&map, a[1] as u8)),
        NTH => Answer::values(nth().map(|entry| entry.place.map(|word| word as u64).to_vec())),
        NTH_KEY => Answer::part(nth().map_or(&[], |entry| entry.key)),
        NTH_VALUE => Answer::part(nth().map_or(&[], |entry| entry.value)),
        number => unreachable!("call {number} is known but has no answer"),
    }
}

fn global(memory: &Memory, call: &Call) -> Answer {
    let a = call.arguments;
    let map = Lent::of(memory).map(0);
    let scan = memory.part(a[0], a[1]);
    field(&GLOBAL_FIELDS, call.number, &map).unwrap_or_else(|| {
        Answer::looked(match call.number {
            GLOBAL_SHARE => lookups::scanned(&map, 0x07, scan, 33),
            _ => lookups::scanned(&map, 0x08, scan, 64),
        })
    })
}

fn input(memory: &Memory, call: &Call) -> Answer {
    let a = call.arguments;
    let map = Lent::of(memory).input(a[0]);
    let part = |i: usize| memory.part(a[i], a[i + 1]);
    let participants = || lookups::participants(&map, 0x1a, part(1), part(3));
    field(&INPUT_FIELDS, call.number, &map).unwrap_or_else(|| match call.number {
        IN_KEYS => Answer::listing(lookups::list(&map, a[1] as u8)),
        IN_SHARE => Answer::looked(lookups::scanned(&map, 0x1d, part(1), 33)),
        IN_PROOF => Answer::looked(lookups::scanned(&map, 0x1e, part(1), 64)),
        IN_NONCE => Answer::looked(lookups::signer(&map, 0x1b, part(1), part(3), part(5), 66)),
        IN_SIGNATURE => Answer::looked(lookups::signer(&map, 0x1c, part(1), part(3), part(5), 32)),
        IN_PARTICIPANTS => Answer::looked(participants()),
        IN_PARTICIPANT_COUNT => Answer::numbered(lookups::participant_count(participants())),
        IN_PARTICIPANT => Answer::looked(lookups::participant(participants(), a[5])),
        IN_UTXO => Answer::values(lookups::utxo(&map)),
        _ => Answer::part(match lookups::utxo(&map).as_deref() {
            Ok([_, start, length]) => &memory.file[*start as usize..][..*length as usize],
            _ => &[],
        }),
    })
}

fn output(memory: &Memory, call: &Call) -> Answer {
    let a = call.arguments;
    let map = Lent::of(memory).output(a[0]);
    let participants = || lookups::participants(&map, 0x08, memory.part(a[1], a[2]), &[]);
    field(&OUTPUT_FIELDS, call.number, &map).unwrap_or_else(|| match call.number {
        OUT_KEYS => Answer::listing(lookups::list(&map, a[1] as u8)),
        OUT_PARTICIPANTS => Answer::looked(participants()),
        OUT_PARTICIPANT_COUNT => Answer::numbered(lookups::participant_count(participants())),
        _ => Answer::looked(lookups::participant(participants(), a[3])),
    })
}

/// The script of an output and where it stands: 04 in the file, else the one set in the script table.
fn script(memory: &Memory, call: &Call) -> Answer {
    let number = call.arguments[0];
    let output = Lent::of(memory).output(number);
    let place = output.and_then(|output| transaction::script_place(memory, &output, number));
    if call.number == SCRIPT {
        return Answer::values(place.map(|found| {
            found.map_or(vec![], |(table, start, length)| vec![u64::from(table), start as u64, length as u64])
        }));
    }
    Answer::part(match place {
        Ok(Some((false, start, length))) => &memory.file[start..start + length],
        Ok(Some((true, start, length))) => &memory.scripts[start..start + length],
        _ => &[],
    })
}
