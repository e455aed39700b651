//! The lookups of an accepted file, asked of the original. Parts are told by their places in the file. Where the original answers
//! a copy, its bytes are held to the part that its own map has under that key; a copy that differs is told as 99.

use super::super::*;
use super::{entry, number, place};
use records::calls::*;
use records::{Answer, Call, Looked, Memory};

const WRONG_KEY: u32 = 7;
const NO_SUCH: u32 = 14;
const NOT_THE_SAME: u32 = 99;

/// A map with what asks it.
enum Of<'p, 'a> {
    Global(&'p Psbt<'a>),
    Input(&'p Input<'a>),
    Output(&'p Output<'a>),
}
use Of::{Global, Input as In, Output as Out};

impl<'p, 'a> Of<'p, 'a> {
    /// A map by its number among all.
    fn numbered(psbt: &'p Psbt<'a>, map: u64) -> Result<Self, u32> {
        let Some(map) = (map as usize).checked_sub(1) else { return Ok(Global(psbt)) };
        match map.checked_sub(psbt.inputs.len()) {
            None => Ok(In(&psbt.inputs[map])),
            Some(output) => psbt.outputs.get(output).map(Out).ok_or(NO_SUCH),
        }
    }

    fn map(&self) -> &ParsedMap<'a> {
        match self {
            Global(psbt) => &psbt.global_map,
            In(input) => &input.map,
            Out(output) => &output.map,
        }
    }

    fn get(&self, key_type: u8, data: &[u8]) -> Option<&'a [u8]> {
        match self {
            Global(psbt) => psbt.get_global(key_type, data),
            In(input) => input.get(key_type, data),
            Out(output) => output.get(key_type, data),
        }
    }

    fn list(&self, key_type: u8) -> (usize, usize) {
        match self {
            Global(psbt) => listing(self.map(), key_type, psbt.iter_keys(key_type)),
            In(input) => listing(self.map(), key_type, input.iter_keys(key_type)),
            Out(output) => listing(self.map(), key_type, output.iter_keys(key_type)),
        }
    }
}

/// The first pair's number and how many there are; no count at all if the public iterator has other pairs than the map.
fn listing<'i>(map: &ParsedMap, key_type: u8, items: impl Iterator<Item = (&'i [u8], &'i [u8])>) -> (usize, usize) {
    let pairs = map.iter_keys(key_type).as_slice();
    let first = (pairs.as_ptr() as usize - map.pairs.as_ptr() as usize) / core::mem::size_of::<MapPair>();
    let same = items.map(|(key, value)| (key.as_ptr(), key.len(), value.as_ptr(), value.len())).eq(pairs
        .iter()
        .map(|pair| (pair.key_data.as_ptr(), pair.key_data.len(), pair.value.as_ptr(), pair.value.len())));
    (first, if same { pairs.len() } else { usize::MAX })
}

fn part(file: &[u8], part: Option<&[u8]>) -> Looked {
    Ok(part.map(|part| (place(file, part), part.len())))
}

/// The place of a part that was answered as a copy.
fn copied(file: &[u8], found: Option<&[u8]>, answer: Result<Option<Vec<u8>>, PsbtError>) -> Looked {
    match answer {
        Err(error) => Err(number(error)),
        Ok(copy) if copy.as_deref() == found => part(file, found),
        Ok(_) => Err(NOT_THE_SAME),
    }
}

/// The place of a list of participants.
fn participants(file: &[u8], found: Option<&[u8]>, answer: Result<Option<Vec<[u8; 33]>>, PsbtError>) -> Looked {
    copied(file, found, answer.map(|keys| keys.map(|keys| keys.concat())))
}

/// A leaf hash: left out where it is empty; none at all if it has another length.
fn leaf(data: &[u8]) -> Option<Option<&[u8; 32]>> {
    match data {
        [] => Some(None),
        data => data.try_into().ok().map(Some),
    }
}

/// A list of participants, how many, or one of them: the last argument is its number.
fn told_of(list: Looked, call: &Call) -> Answer {
    let n = |at: usize| call.arguments[at] as usize;
    let one = |list: Looked, n: usize| match list? {
        Some((start, length)) if n < length / 33 => Ok(Some((start + 33 * n, 33))),
        Some(_) => Err(NO_SUCH),
        None => Ok(None),
    };
    match call.number {
        IN_PARTICIPANT_COUNT | OUT_PARTICIPANT_COUNT => {
            Answer::numbered(list.map(|place| place.map(|(_, length)| (length / 33) as u64)))
        }
        IN_PARTICIPANT => Answer::looked(one(list, n(5))),
        OUT_PARTICIPANT => Answer::looked(one(list, n(3))),
        _ => Answer::looked(list),
    }
}

/// None where the original has no such call. Its types rule out a key of a wrong length, its vectors a number past their end:
/// there 7 and 14 are the harness's own.
pub fn answer(psbt: &Psbt, memory: &Memory, call: &Call) -> Option<Answer> {
    let asked = match call.number {
        GET | LISTED | NTH | GET_PART | NTH_KEY | NTH_VALUE => {
            Of::numbered(psbt, call.arguments[0]).and_then(|of| general(psbt.raw_psbt, &of, memory, call))
        }
        GLOBAL_SHARE..=GLOBAL_PROOFS => global(psbt, memory, call),
        IN_NON_WITNESS_UTXO..=IN_UTXO | IN_UTXO_SCRIPT => {
            let input = psbt.inputs.get(call.arguments[0] as usize).ok_or(NO_SUCH);
            input.and_then(|input| input_call(psbt.raw_psbt, input, memory, call))
        }
        OUT_REDEEM_SCRIPT..=OUT_PARTICIPANT => {
            let output = psbt.outputs.get(call.arguments[0] as usize).ok_or(NO_SUCH);
            output.and_then(|output| output_call(psbt.raw_psbt, output, memory, call))
        }
        _ => return None,
    };
    Some(match (asked, call.number) {
        (Ok(answer), _) => answer,
        // The part of a refusal is empty.
        (Err(_), GET_PART..=IN_UTXO_SCRIPT) => Answer::part(&[]),
        (Err(refusal), _) => Answer::told(refusal, &[]),
    })
}

type Asked = Result<Answer, u32>;

fn general(file: &[u8], of: &Of, memory: &Memory, call: &Call) -> Asked {
    let a = call.arguments;
    let get = || of.get(a[1] as u8, memory.part(a[2], a[3]));
    let nth = || of.map().pairs.get(a[1] as usize).ok_or(NO_SUCH);
    Ok(match call.number {
        GET => Answer::looked(part(file, get())),
        GET_PART => Answer::part(get().unwrap_or(&[])),
        LISTED => Answer::listing(Ok(of.list(a[1] as u8))),
        NTH => Answer::values(Ok(entry(file, nth()?).map(|word| word as u64).to_vec())),
        NTH_KEY => Answer::part(&[&[nth()?.key_type], nth()?.key_data].concat()),
        _ => Answer::part(nth()?.value),
    })
}

fn global(psbt: &Psbt, memory: &Memory, call: &Call) -> Asked {
    let (file, map) = (psbt.raw_psbt, &psbt.global_map);
    let scan = || memory.part(call.arguments[0], call.arguments[1]).try_into().map_err(|_| WRONG_KEY);
    Ok(match call.number {
        GLOBAL_SHARE => Answer::looked(part(file, psbt.get_sp_ecdh_share(scan()?).map(|v| &v[..]))),
        GLOBAL_PROOF => Answer::looked(part(file, psbt.get_sp_dleq_proof(scan()?).map(|v| &v[..]))),
        GLOBAL_SHARES => {
            Answer::listing(Ok(listing(map, 0x07, psbt.sp_ecdh_shares().map(|(k, v)| (&k[..], &v[..])))))
        }
        _ => Answer::listing(Ok(listing(map, 0x08, psbt.sp_dleq_proofs().map(|(k, v)| (&k[..], &v[..]))))),
    })
}

fn input_call(file: &[u8], input: &Input, memory: &Memory, call: &Call) -> Asked {
    let a = call.arguments;
    let map = &input.map;
    let data = |i: usize| memory.part(a[i], a[i + 1]);
    let key = |i: usize| data(i).try_into().map_err(|_| WRONG_KEY);
    let leaf = |i: usize| leaf(data(i)).ok_or(WRONG_KEY);
    let place = |field: Option<&[u8]>| Answer::looked(part(file, field));
    let number_of = |field: Option<u32>| Answer::numbered(Ok(field.map(u64::from)));
    let list = |listing: (usize, usize)| Answer::listing(Ok(listing));
    Ok(match call.number {
        IN_NON_WITNESS_UTXO => place(input.non_witness_utxo),
        IN_WITNESS_UTXO => place(input.witness_utxo),
        IN_SIGHASH_TYPE => number_of(input.sighash_type),
        IN_REDEEM_SCRIPT => place(input.redeem_script),
        IN_WITNESS_SCRIPT => place(input.witness_script),
        IN_FINAL_SCRIPTSIG => place(input.final_scriptsig),
        IN_FINAL_SCRIPTWITNESS => place(input.final_scriptwitness),
        IN_PREVIOUS_TXID => place(input.previous_txid.map(|v| &v[..])),
        IN_OUTPUT_INDEX => number_of(input.output_index),
        IN_SEQUENCE => number_of(input.sequence),
        IN_REQUIRED_TIME => number_of(input.required_time_locktime),
        IN_REQUIRED_HEIGHT => number_of(input.required_height_locktime),
        IN_SP_TWEAK => place(input.sp_tweak.map(|v| &v[..])),
        IN_KEYS => list(listing(map, a[1] as u8, input.iter_keys(a[1] as u8))),
        IN_DERIVATIONS => list(listing(map, 0x06, input.bip32_derivations())),
        IN_SHARE => place(input.get_sp_ecdh_share(key(1)?).map(|v| &v[..])),
        IN_PROOF => place(input.get_sp_dleq_proof(key(1)?).map(|v| &v[..])),
        IN_SHARES => list(listing(map, 0x1d, input.sp_ecdh_shares().map(|(k, v)| (&k[..], &v[..])))),
        IN_PROOFS => list(listing(map, 0x1e, input.sp_dleq_proofs().map(|(k, v)| (&k[..], &v[..])))),
        IN_SPEND_DERIVATIONS => list(listing(map, 0x1f, input.sp_spend_bip32_derivations().map(|(k, v)| (&k[..], v)))),
        IN_NONCE => {
            let nonce = input.get_musig2_pub_nonce(key(1)?, key(3)?, leaf(5)?);
            let found = input.get(0x1b, &[data(1), data(3), data(5)].concat());
            Answer::looked(copied(file, found, nonce.map(|v| v.map(|v| v.to_vec()))))
        }
        IN_SIGNATURE => {
            let signature = input.get_musig2_partial_sig(key(1)?, key(3)?, leaf(5)?);
            let found = input.get(0x1c, &[data(1), data(3), data(5)].concat());
            Answer::looked(copied(file, found, signature.map(|v| v.map(|v| v.to_vec()))))
        }
        IN_PARTICIPANTS..=IN_PARTICIPANT => {
            let keys = input.get_musig2_participant_pubkeys(key(1)?, leaf(3)?);
            told_of(participants(file, input.get(0x1a, &[data(1), data(3)].concat()), keys), call)
        }
        IN_UTXO => match input.get_witness_utxo().map_err(number)? {
            None => Answer::told(0, &[]),
            Some(utxo) => {
                let script = input.witness_utxo.and_then(|value| value.get(9..));
                let place = copied(file, script, Ok(Some(utxo.script_pubkey.as_bytes().to_vec())));
                Answer::values(place.map(|place| {
                    let (start, length) = place.unwrap_or_default();
                    vec![utxo.value.to_sat(), start as u64, length as u64]
                }))
            }
        },
        _ => {
            let utxo = input.get_witness_utxo().map_err(number)?;
            Answer::part(utxo.map_or(&[], |utxo| utxo.script_pubkey.as_bytes()))
        }
    })
}

fn output_call(file: &[u8], output: &Output, memory: &Memory, call: &Call) -> Asked {
    let a = call.arguments;
    let place = |field: Option<&[u8]>| Answer::looked(part(file, field));
    Ok(match call.number {
        OUT_REDEEM_SCRIPT => place(output.redeem_script),
        OUT_WITNESS_SCRIPT => place(output.witness_script),
        OUT_AMOUNT => Answer::numbered(Ok(output.amount)),
        OUT_SCRIPT => place(output.script),
        OUT_SP_INFO => place(output.sp_v0_info.map(|v| &v[..])),
        OUT_SP_LABEL => Answer::numbered(Ok(output.sp_v0_label.map(u64::from))),
        OUT_KEYS => Answer::listing(Ok(listing(&output.map, a[1] as u8, output.iter_keys(a[1] as u8)))),
        OUT_DERIVATIONS => Answer::listing(Ok(listing(&output.map, 0x02, output.bip32_derivations()))),
        _ => {
            let data = memory.part(a[1], a[2]);
            let keys = output.get_musig2_participant_pubkeys(data.try_into().map_err(|_| WRONG_KEY)?);
            told_of(participants(file, output.get(0x08, data), keys), call)
        }
    })
}
