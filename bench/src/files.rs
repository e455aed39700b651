//! The files that are timed.

fn compact_size(v: &mut Vec<u8>, n: usize) {
    match n {
        0..=0xfc => v.push(n as u8),
        0xfd..=0xffff => {
            v.push(0xfd);
            v.extend((n as u16).to_le_bytes());
        }
        _ => {
            v.push(0xfe);
            v.extend((n as u32).to_le_bytes());
        }
    }
}

fn pair(v: &mut Vec<u8>, key: &[u8], value: &[u8]) {
    compact_size(v, key.len());
    v.extend(key);
    compact_size(v, value.len());
    v.extend(value);
}

fn key(key_type: u8, data: &[u8]) -> Vec<u8> {
    [&[key_type], data].concat()
}

/// The scan key that lookups ask for. The inputs of `input` have a share of it; F and the files without inputs don't.
pub const SCAN_KEY: [u8; 33] = [2; 33];

/// A file by its counts, its global pairs between the counts and the version, and what follows the global map.
fn file(inputs: usize, outputs: usize, global: impl Fn(&mut Vec<u8>), rest: impl Fn(&mut Vec<u8>)) -> Vec<u8> {
    let mut v = b"psbt\xff".to_vec();
    pair(&mut v, &[0x02], &[2, 0, 0, 0]);
    for (key_type, n) in [(0x04, inputs), (0x05, outputs)] {
        let mut count = vec![];
        compact_size(&mut count, n);
        pair(&mut v, &[key_type], &count);
    }
    global(&mut v);
    pair(&mut v, &[0xfb], &[2, 0, 0, 0]);
    v.push(0);
    rest(&mut v);
    v
}

/// An input as a wallet's coordinator writes it: the output that is spent, a derivation, txid, index, sequence, an ECDH share.
fn input(v: &mut Vec<u8>) {
    pair(v, &[0x01], &[&[0; 8][..], &[22], &[0; 22]].concat());
    pair(v, &key(0x06, &[2; 33]), &[1; 24]);
    pair(v, &[0x0e], &[0x11; 32]);
    pair(v, &[0x0f], &[0; 4]);
    pair(v, &[0x10], &[0xfe, 0xff, 0xff, 0xff]);
    pair(v, &key(0x1d, &SCAN_KEY), &[3; 33]);
    v.push(0);
}

/// An output: a derivation, an amount and a script.
fn output(v: &mut Vec<u8>) {
    pair(v, &key(0x02, &[2; 33]), &[1; 24]);
    pair(v, &[0x03], &[1, 2, 3, 4, 0, 0, 0, 0]);
    pair(v, &[0x04], &[0x51; 34]);
    v.push(0);
}

/// An output whose script the signer sets.
fn silent(v: &mut Vec<u8>) {
    pair(v, &[0x03], &[1, 2, 3, 4, 0, 0, 0, 0]);
    pair(v, &[0x09], &[2; 66]);
    v.push(0);
}

fn small(v: &mut Vec<u8>) {
    pair(v, &[0x0e], &[0x11; 32]);
    pair(v, &[0x0f], &[0; 4]);
    v.push(0);
    pair(v, &[0x03], &[0xe8, 3, 0, 0, 0, 0, 0, 0]);
    pair(v, &[0x04], &[0x51]);
    v.push(0);
}

fn times(n: usize, v: &mut Vec<u8>, part: fn(&mut Vec<u8>)) {
    (0..n).for_each(|_| part(v));
}

/// Pairs of a 5-byte key and a 3-byte value in the global map, up to a length.
fn small_pairs(length: usize) -> Vec<u8> {
    let global = |v: &mut Vec<u8>| {
        let mut i = 0u32;
        while v.len() < length - 30 {
            pair(v, &key(0x50, &i.to_be_bytes()), &[1, 2, 3]);
            i += 1;
        }
    };
    file(0, 0, global, |_| ())
}

/// Each file with its name.
pub fn all() -> Vec<(&'static str, Vec<u8>)> {
    let large = |v: &mut Vec<u8>| (0..65u8).for_each(|i| pair(v, &[0x50, i], &[7; 16000]));
    vec![
        ("F, 1 input", file(1, 1, |_| (), small)),
        ("3 inputs", file(3, 2, |_| (), |v| (times(3, v, input), times(2, v, output)).0)),
        ("1,000 inputs", file(1000, 2, |_| (), |v| (times(1000, v, input), times(2, v, output)).0)),
        ("small pairs, 64 KiB", small_pairs(1 << 16)),
        ("small pairs, 256 KiB", small_pairs(1 << 18)),
        ("small pairs, 1 MiB", small_pairs(1 << 20)),
        ("large values, 1 MiB", file(0, 0, large, |_| ())),
    ]
}

/// Files for the setter, with how many outputs lack a script.
pub fn silents() -> Vec<(&'static str, usize, Vec<u8>)> {
    vec![
        ("3 inputs, 2 silent", 2, file(3, 2, |_| (), |v| (times(3, v, input), times(2, v, silent)).0)),
        ("3 inputs, 100 silent", 100, file(3, 100, |_| (), |v| (times(3, v, input), times(100, v, silent)).0)),
    ]
}
