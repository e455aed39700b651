//! Times the library beside the original, on the same files in one run. Of each measure the best of fifteen rounds is
//! taken, in which both take turns.

extern crate alloc;

#[allow(dead_code)]
#[path = "../../examples/rust/fastpsbt.rs"]
mod fastpsbt;
mod files;
include!(concat!(env!("OUT_DIR"), "/module.rs"));

use bitcoin::script::ScriptBuf;
use fastpsbt::{Psbt, State};
use files::SCAN_KEY;
use original::Psbt as Original;
use std::{hint::black_box, time::Instant};

const ROUNDS: usize = 15;

/// No limit on how often a call is made in a round.
const ANY: usize = usize::MAX;

/// Room for any file here.
struct Room {
    pairs: Vec<u32>,
    maps: Vec<u32>,
    out: Vec<u8>,
    scripts: Vec<u8>,
}

/// A round takes at least this many nanoseconds, so that the clock itself doesn't count.
const ROUND: f64 = 1_000_000.0;

/// Nanoseconds that a call takes when it is made `reps` times.
fn timed(reps: usize, mut call: impl FnMut()) -> f64 {
    let start = Instant::now();
    (0..reps).for_each(|_| call());
    start.elapsed().as_nanos() as f64 / reps as f64
}

/// How often a call is made in a round, at most `most` times.
fn reps(most: usize, call: &mut impl FnMut(usize) -> f64) -> usize {
    let mut n = 1;
    while n < most && call(n) * (n as f64) < ROUND {
        n *= 2;
    }
    n.min(most)
}

/// The best of all rounds, of the original's way and of ours.
fn best(most: usize, mut theirs: impl FnMut(usize) -> f64, mut ours: impl FnMut(usize) -> f64) -> (f64, f64) {
    let (n, k) = (reps(most, &mut theirs), reps(ANY, &mut ours));
    (0..ROUNDS).fold((f64::MAX, f64::MAX), |(a, b), _| (a.min(theirs(n)), b.min(ours(k))))
}

fn line(what: &str, name: &str, bytes: usize, (theirs, ours): (f64, f64)) {
    // Megabytes of the file in a second, where the call reads the file.
    let rate = |ns: f64| match what {
        "parse" | "both" | "whole" => format!("{:.0}", bytes as f64 * 1000.0 / ns),
        _ => "-".to_string(),
    };
    println!(
        "{what:<12} {name:<21} {bytes:>8} {theirs:>12.0} {ours:>12.0} {:>9} {:>9} {:>8.2}",
        rate(theirs),
        rate(ours),
        ours / theirs
    );
}

/// How many parsed files the original may be given at once: some megabytes of them.
fn batch(file: &[u8]) -> usize {
    ((8 << 20) / file.len()).clamp(3, 2_000)
}

fn parse(name: &str, file: &[u8], room: &mut Room) {
    let theirs = |n| timed(n, || drop(black_box(Original::parse(black_box(file)).unwrap())));
    let ours = |n| {
        timed(n, || {
            black_box(Psbt::parse(black_box(file), &mut room.pairs, &mut room.maps).unwrap());
        })
    };
    line("parse", name, file.len(), best(ANY, theirs, ours));
}

/// One value by its key: an ECDH share of the first input, or of the global map where there is none.
fn lookup(name: &str, file: &[u8], room: &mut Room) {
    let parsed = Original::parse(file).unwrap();
    let psbt = Psbt::parse(file, &mut room.pairs, &mut room.maps).unwrap();
    let (map, key_type) = if psbt.inputs() > 0 { (1, 0x1d) } else { (0, 0x07) };
    let asked = |scan_key| match parsed.inputs.first() {
        Some(input) => input.get_sp_ecdh_share(scan_key),
        None => parsed.get_sp_ecdh_share(scan_key),
    };
    assert_eq!(asked(&SCAN_KEY).map(|v| &v[..]), psbt.get(map, key_type, &SCAN_KEY).unwrap());
    let theirs = |n| timed(n, || _ = black_box(asked(black_box(&SCAN_KEY))));
    let ours = |n| timed(n, || _ = black_box(psbt.get(map, key_type, black_box(&SCAN_KEY))));
    line("lookup", name, file.len(), best(ANY, theirs, ours));
}

/// The thirteen fields of each input, which the original has read in its parse.
fn fields(name: &str, file: &[u8], room: &mut Room) {
    let parsed = Original::parse(file).unwrap();
    let psbt = Psbt::parse(file, &mut room.pairs, &mut room.maps).unwrap();
    if psbt.inputs() == 0 {
        return;
    }
    let theirs = |n| timed(n, || parsed.inputs.iter().for_each(|input| original_fields(black_box(input))));
    let ours = |n| timed(n, || (0..psbt.inputs()).for_each(|i| our_fields(black_box(&psbt), i)));
    line("fields", name, file.len(), best(ANY, theirs, ours));
}

fn original_fields(input: &original::Input) {
    black_box((input.non_witness_utxo, input.witness_utxo, input.sighash_type, input.redeem_script));
    black_box((input.witness_script, input.final_scriptsig, input.final_scriptwitness, input.previous_txid));
    black_box((input.output_index, input.sequence, input.required_time_locktime, input.required_height_locktime));
    black_box(input.sp_tweak);
}

fn our_fields(psbt: &Psbt, i: u64) {
    _ = black_box((psbt.non_witness_utxo(i), psbt.witness_utxo(i), psbt.sighash_type(i), psbt.redeem_script(i)));
    _ = black_box((psbt.witness_script(i), psbt.final_scriptsig(i), psbt.final_scriptwitness(i), psbt.previous_txid(i)));
    _ = black_box((psbt.output_index(i), psbt.sequence(i)));
    _ = black_box((psbt.required_time_locktime(i), psbt.required_height_locktime(i), psbt.sp_tweak(i)));
}

/// The original keeps its transaction, so it gets a freshly parsed file each time, outside the clock.
fn transaction(name: &str, file: &[u8], room: &mut Room) {
    let psbt = Psbt::parse(file, &mut room.pairs, &mut room.maps).unwrap();
    let theirs = |n| {
        let fresh: Vec<_> = (0..n).map(|_| Original::parse(file).unwrap()).collect();
        let mut next = fresh.iter();
        timed(n, || {
            black_box(next.next().unwrap().unsigned_tx().unwrap());
        })
    };
    let ours = |n| {
        timed(n, || {
            black_box(psbt.unsigned_tx(State::default(), &[], &mut room.out).unwrap());
        })
    };
    line("transaction", name, file.len(), best(batch(file), theirs, ours));
}

/// From the file to its transaction. The original reads the fields in its parse, ours where the transaction is asked for, so neither half compares alone.
fn to_transaction(name: &str, file: &[u8], room: &mut Room) {
    let theirs = |n| {
        timed(n, || {
            let parsed = Original::parse(black_box(file)).unwrap();
            black_box(parsed.unsigned_tx().unwrap());
        })
    };
    let ours = |n| {
        timed(n, || {
            let psbt = Psbt::parse(black_box(file), &mut room.pairs, &mut room.maps).unwrap();
            black_box(psbt.unsigned_tx(State::default(), &[], &mut room.out).unwrap());
        })
    };
    line("both", name, file.len(), best(ANY, theirs, ours));
}

/// Parse, the fields of each input, then the transaction: what a terminal does with a file.
fn whole(name: &str, file: &[u8], room: &mut Room) {
    let theirs = |n| {
        timed(n, || {
            let parsed = Original::parse(black_box(file)).unwrap();
            parsed.inputs.iter().for_each(original_fields);
            black_box(parsed.unsigned_tx().unwrap());
        })
    };
    let ours = |n| {
        timed(n, || {
            let psbt = Psbt::parse(black_box(file), &mut room.pairs, &mut room.maps).unwrap();
            (0..psbt.inputs()).for_each(|i| our_fields(&psbt, i));
            black_box(psbt.unsigned_tx(State::default(), &[], &mut room.out).unwrap());
        })
    };
    line("whole", name, file.len(), best(ANY, theirs, ours));
}

/// One script for each output; the original's list of scripts is made outside the clock.
fn setter(name: &str, outputs: usize, file: &[u8], room: &mut Room) {
    let script = [&[0x51, 0x20][..], &[9; 32]].concat();
    let list: Vec<u64> = (0..outputs as u64).flat_map(|k| [k, 0, 34]).collect();
    let psbt = Psbt::parse(file, &mut room.pairs, &mut room.maps).unwrap();
    let theirs = |n| {
        let scripts = || (0..outputs).map(|k| (k, ScriptBuf::from_bytes(script.clone()))).collect::<Vec<_>>();
        let mut fresh: Vec<_> = (0..n).map(|_| (Original::parse(file).unwrap(), Some(scripts()))).collect();
        let mut next = fresh.iter_mut();
        timed(n, || {
            let (parsed, scripts) = next.next().unwrap();
            parsed.set_sp_output_scripts(scripts.take().unwrap()).unwrap();
        })
    };
    let ours = |n| {
        timed(n, || {
            black_box(psbt.set_sp_output_scripts(&list, &script, State::default(), &mut room.scripts).unwrap());
        })
    };
    line("setter", name, file.len(), best(batch(file), theirs, ours));
}

fn main() {
    let mut room = Room {
        pairs: vec![0; 4 * 200_000],
        maps: vec![0; 2 * 2_000],
        out: vec![0; 1 << 20],
        scripts: vec![0; 35 * 100],
    };
    println!(
        "{:<12} {:<21} {:>8} {:>12} {:>12} {:>9} {:>9} {:>8}",
        "", "file", "bytes", "original ns", "ours ns", "MB/s", "MB/s", "ratio"
    );
    let files = files::all();
    for measure in [parse, lookup, fields, transaction, to_transaction, whole] {
        for (name, file) in &files {
            measure(name, file, &mut room);
        }
    }
    for (name, outputs, file) in files::silents() {
        setter(name, outputs, &file, &mut room);
    }
}
