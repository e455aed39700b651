//! Files by name: the proved examples, the remembered vectors, the cases of BIP-370, and everything about short ones.

use crate::draft::put_size;
use crate::group::{ample, Group, Sink};
use crate::questions::{lookups, transaction, tx_room, Way, ENTRY};
use records::calls;
use records::{BUFFER, LIST, MAPS, MOST, OUT, PAIRS, REPORT, SCRIPTS, STATE};
use std::io::{self, Write};

fn hex(text: &str) -> Vec<u8> {
    let digits: Vec<u32> = text.chars().filter(|c| !c.is_whitespace()).map(|c| c.to_digit(16).unwrap()).collect();
    digits.chunks(2).map(|d| (16 * d[0] + d[1]) as u8).collect()
}

fn base64(text: &str) -> Vec<u8> {
    let (mut held, mut bits, mut bytes) = (0u32, 0, Vec::new());
    for c in text.bytes().filter(|c| *c != b'=') {
        let six = match c {
            b'A'..=b'Z' => c - b'A',
            b'a'..=b'z' => c - b'a' + 26,
            b'0'..=b'9' => c - b'0' + 52,
            b'+' => 62,
            b'/' => 63,
            _ => panic!("not base64"),
        };
        held = held << 6 | u32::from(six);
        bits += 6;
        if bits >= 8 {
            bits -= 8;
            bytes.push((held >> bits) as u8);
            held &= (1 << bits) - 1;
        }
    }
    bytes
}

const MAGIC: &str = "70736274ff";
const TX: &str = "01020402000000";
const VERSION: &str = "01fb0402000000";
const TXID: &str = "010e20 1111111111111111111111111111111111111111111111111111111111111111";
const INDEX: &str = "010f0400000000";
const AMOUNT: &str = "010308e803000000000000";
const SCRIPT: &str = "01040151";

/// A file from its maps in hex; the ends are added.
fn maps(maps: &[&[&str]]) -> Vec<u8> {
    let mut file = hex(MAGIC);
    for map in maps {
        for pair in *map {
            file.extend(hex(pair));
        }
        file.push(0);
    }
    file
}

fn counts(inputs: u8, outputs: u8) -> (String, String) {
    (format!("010401{inputs:02x}"), format!("010501{outputs:02x}"))
}

/// F with these inputs, each with its txid and index, and perhaps a fallback.
fn locked(fallback: Option<u32>, inputs: &[&[(u8, u32)]]) -> Vec<u8> {
    let (count, one) = counts(inputs.len() as u8, 1);
    let number = |n: u32| n.to_le_bytes().iter().map(|b| format!("{b:02x}")).collect::<String>();
    let fallback = fallback.map(|n| format!("010304{}", number(n))).unwrap_or_default();
    let locks: Vec<String> = inputs
        .iter()
        .map(|asked| asked.iter().map(|(key_type, n)| format!("01{key_type:02x}04{}", number(*n))).collect())
        .collect();
    let global = [TX, &fallback, &count, &one, VERSION];
    let ins: Vec<[&str; 3]> = locks.iter().map(|lock| [TXID, INDEX, lock.as_str()]).collect();
    let mut all: Vec<&[&str]> = vec![&global];
    all.extend(ins.iter().map(|input| &input[..]));
    all.push(&[AMOUNT, SCRIPT]);
    maps(&all)
}

pub fn e() -> Vec<u8> {
    maps(&[&[TX, "01040100", "01050100", VERSION]])
}

pub fn f() -> Vec<u8> {
    locked(None, &[&[]])
}

const REQUIRED_ONLY: &str = "\
    cHNidP8BAgQCAAAAAQQBAQEFAQIB+wQCAAAAAAEOIAsK2SFBnByHGXNdctxzn56p4GONH+TB7vD5lECEgV/IAQ8EAAAAAAABAwgA\
    CK8vAAAAAAEEFgAUxDD2TEdW2jENvRoIVXLvKZkmJywAAQMIi73rCwAAAAABBBYAFE3Rk6yWSlasG54cyoRU/i9HT4UTAA==";
const WITH_PREVIOUS: &str = "\
    cHNidP8BAgQCAAAAAQMEAAAAAAEEAQEBBQECAfsEAgAAAAABAFICAAAAAcGqJFHWEbBBGVkwAkx3BNLH1jyRwYJPDO6cgPoFF4ui\
    AAAAAAD9////AeoOpgAAAAAAFgAUTdGTrJZKVqwbnhzKhFT+L0dPhRMAAAAAAQ4gCwrZIUGcHIcZc11y3HOfnqngY40f5MHu8PmU\
    QISBX8gBDwQAAAAAAAEDCAAIry8AAAAAAQQWABTEMPZMR1baMQ29GghVcu8pmSYnLAABAwiLvesLAAAAAAEEFgAUTdGTrJZKVqwb\
    nhzKhFT+L0dPhRMA";

/// The files of P1 to P13 in their order.
fn examples() -> Vec<Vec<u8>> {
    let e_with = |pairs: &[&str]| maps(&[pairs]);
    let mut e_and_00 = e();
    e_and_00.push(0);
    let mut e_long_end = e();
    e_long_end.pop();
    e_long_end.extend(hex("fd0000"));
    let (one, two) = counts(1, 1);
    let f_global = [TX, &one, &two, VERSION];
    vec![
        e(),
        f(),
        vec![],
        hex(MAGIC),
        e_with(&[TX, "010402fd01", "01050100", VERSION]),
        e_with(&[TX, "010400", "01050100", VERSION]),
        e_and_00,
        e_with(&[TX, "01050100", "01040100", VERSION]),
        e_with(&[TX, "01040100", "01040100", "01050100", VERSION]),
        e_with(&[TX, "01040100", "01050100", "01fb0403000000"]),
        e_with(&[TX, "01040100", "01050100"]),
        maps(&[&f_global, &[TXID, INDEX], &[AMOUNT]]),
        locked(None, &[&[(0x12, 499_999_999)]]),
        locked(None, &[&[(0x12, 500_000_000)]]),
        locked(None, &[&[(0x11, 500_000_000)]]),
        locked(None, &[&[(0x11, 499_999_999)]]),
        locked(Some(1_700_000_000), &[&[(0x12, 800_000)]]),
        maps(&[&f_global, &[TXID, INDEX], &[AMOUNT, SCRIPT, "017f00"]]),
        e_long_end,
    ]
}

/// What BIP-370 wants refused, and its cases of lock times.
fn bip_370() -> Vec<Vec<u8>> {
    let (one, two) = counts(1, 1);
    let global = [TX, &one, &two, VERSION];
    let input = [TXID, INDEX];
    let output = [AMOUNT, SCRIPT];
    vec![
        maps(&[&["010000", TX, &one, &two, VERSION], &input, &output]),
        maps(&[&[&one, &two, VERSION], &input, &output]),
        maps(&[&[TX, &two, VERSION], &input, &output]),
        maps(&[&[TX, &one, VERSION], &input, &output]),
        maps(&[&global, &[INDEX], &output]),
        maps(&[&global, &[TXID], &output]),
        maps(&[&global, &input, &[SCRIPT]]),
        maps(&[&global, &input, &[AMOUNT]]),
        locked(None, &[&[(0x11, 0)]]),
        locked(None, &[&[(0x11, 499_999_999)]]),
        locked(None, &[&[(0x12, 500_000_000)]]),
        locked(None, &[&[(0x12, u32::MAX)]]),
        // Nothing asked; heights only; times only; both kinds on every input; one input of each kind alone.
        locked(None, &[&[], &[]]),
        locked(Some(0), &[&[], &[]]),
        locked(Some(800_000), &[&[], &[]]),
        locked(None, &[&[(0x12, 10_000)], &[]]),
        locked(None, &[&[(0x12, 10_000)], &[(0x12, 9_000)]]),
        locked(None, &[&[(0x11, 1_657_048_459)], &[(0x11, 1_657_048_460)]]),
        locked(None, &[&[(0x11, 1_657_048_459), (0x12, 10_000)], &[(0x11, 1_657_048_460), (0x12, 9_000)]]),
        locked(None, &[&[(0x11, 1_657_048_459), (0x12, 10_000)], &[(0x12, 9_000)]]),
        locked(None, &[&[(0x11, 1_657_048_459), (0x12, 10_000)], &[(0x11, 1_657_048_460)]]),
        locked(None, &[&[(0x11, 1_657_048_459)], &[(0x12, 9_000)]]),
        locked(None, &[&[(0x11, 86_400)], &[(0x11, 1_700_000_000)]]),
        locked(Some(1_700_000_000), &[&[(0x12, 0)]]),
    ]
}

/// Small files at the corners of the rules.
fn corners() -> Vec<Vec<u8>> {
    let key = "02".to_string() + &"aa".repeat(32);
    let many = |byte: &str, n: usize| byte.repeat(n);
    let (one, two) = counts(1, 1);
    let global = [TX, &one, &two, VERSION];
    let mut files = Vec::new();
    // Count fields: every first byte with every length of what follows.
    for first in ["00", "01", "fc", "fd", "fe", "ff"] {
        for rest in 0..10 {
            let value = first.to_string() + &many("00", rest);
            for key_type in ["04", "05"] {
                let pair = format!("01{key_type}{:02x}{value}", rest + 1);
                let pairs =
                    if key_type == "04" { [TX, &pair, "01050100", VERSION] } else { [TX, "01040100", &pair, VERSION] };
                files.push(maps(&[&pairs]));
            }
        }
    }
    files.push(maps(&[&[TX, "010400", "01050100", VERSION]]));
    files.push(maps(&[&[TX, "01040100", "010500", VERSION]]));
    // Counts near 2^64, with and without maps behind them.
    for value in ["ffffffffffffffffff", "fffeffffffffffffff", "ff0000000000000080", "fe00000100", "fdffff"] {
        let length = value.len() / 2;
        let many_inputs = format!("0104{length:02x}{value}");
        let many_outputs = format!("0105{length:02x}{value}");
        for pairs in [
            [TX, many_inputs.as_str(), "01050100", VERSION],
            [TX, "01040100", many_outputs.as_str(), VERSION],
            [TX, many_inputs.as_str(), many_outputs.as_str(), VERSION],
        ] {
            files.push(maps(&[&pairs]));
            files.push(maps(&[&pairs, &[], &[], &[]]));
        }
    }
    // Every sized type, with key data and value of 0 to 70 bytes, and some that have no size.
    for (kind, key_type) in [
        (0, "00"),
        (0, "02"),
        (0, "fb"),
        (0, "03"),
        (0, "06"),
        (0, "07"),
        (0, "08"),
        (1, "03"),
        (1, "0e"),
        (1, "0f"),
        (1, "10"),
        (1, "11"),
        (1, "12"),
        (1, "1d"),
        (1, "1e"),
        (1, "1f"),
        (1, "20"),
        (2, "03"),
        (2, "09"),
        (2, "0a"),
        (1, "00"),
        (1, "04"),
        (1, "19"),
        (2, "07"),
    ] {
        for data in [0, 1, 32, 33, 34] {
            for value in [0, 1, 2, 3, 4, 5, 7, 8, 9, 12, 31, 32, 33, 34, 63, 64, 65, 66, 67] {
                let pair = format!(
                    "{:02x}{key_type}{}{:02x}{}",
                    data + 1,
                    &key.repeat(2)[..2 * data],
                    value,
                    many("07", value)
                );
                let mut pairs: [Vec<&str>; 3] = [global.to_vec(), vec![], vec![SCRIPT]];
                // In place of one with its key.
                pairs[kind].retain(|other| data > 0 || other[..4] != pair[..4]);
                pairs[kind].push(&pair);
                // By key: the first byte of a pair is its length.
                pairs[kind].sort_by_key(|pair| &pair[2..2 + 2 * usize::from_str_radix(&pair[..2], 16).unwrap()]);
                files.push(maps(&[&pairs[0], &pairs[1], &pairs[2]]));
            }
        }
    }
    // Script, code and label under every value of the flags, on the second output.
    for flags in ["-", "00", "01", "02", "03", "04", "fc", "ff"] {
        for mixture in 0..8 {
            let flags = if flags == "-" { String::new() } else { format!("010601{flags}") };
            let code = format!("010942{}", key.repeat(2));
            let mut output = vec![AMOUNT];
            for (bit, pair) in [(1, SCRIPT), (2, code.as_str()), (4, "010a0401000000")] {
                if mixture & bit != 0 {
                    output.push(pair);
                }
            }
            files.push(maps(&[&[TX, "01040100", "01050102", &flags, VERSION], &[AMOUNT, SCRIPT], &output]));
            // A breach on the first output decides, and leftover bytes come before both.
            files.push(maps(&[&[TX, "01040100", "01050102", &flags, VERSION], &output, &[AMOUNT]]));
            files.push(maps(&[&[TX, "01040100", "01050101", &flags, VERSION], &output, &[]]));
        }
    }
    // Order before value, and order after it; key data decides; the next map begins anew.
    for pair in
        ["0102ff", "0102ffffffffffffffffff", "0102", "010203020000", "02020000", "0202", "010104", "0101", "010100"]
    {
        let mut file = hex(MAGIC);
        file.extend(hex(TX));
        file.extend(hex(pair));
        files.push(file);
        files.push(maps(&[&[TX, pair, "01040100", "01050100", VERSION]]));
    }
    files.extend(forms(&[0xfc, 0xfd, 0xff, 0x100]));
    files.extend(sizes());
    files.extend(orders());
    files
}

/// The bounds of a compact size, in the shortest form and in longer ones, as the length of a key, of a value and as a count, each
/// without its last byte too; and counts with as many maps behind them.
fn sizes() -> Vec<Vec<u8>> {
    let mut files = Vec::new();
    for size in [
        "00",
        "fc",
        "fdfc00",
        "fdfd00",
        "fefd000000",
        "fdffff",
        "feffff0000",
        "fe00000100",
        "ff0000010000000000",
        "feffffffff",
        "ff0000000001000000",
        "ffffffffffffffffff",
    ] {
        for size in [size, &size[..size.len() - 2]] {
            // A key and a value whose bytes are missing, or begin.
            for behind in ["", "31"] {
                files.push([hex(MAGIC), hex(TX), hex(size), hex(behind)].concat());
                files.push([hex(MAGIC), hex(TX), hex("0103"), hex(size), hex(behind)].concat());
            }
            let (inputs, outputs) =
                (format!("0104{:02x}{size}", size.len() / 2), format!("0105{:02x}{size}", size.len() / 2));
            files.push(maps(&[&[TX, &inputs, "01050100", VERSION]]));
            files.push(maps(&[&[TX, "01040100", &outputs, VERSION]]));
        }
    }
    for (size, number) in
        [("fc", 252), ("fdfc00", 252), ("fefc000000", 252), ("fdfd00", 253), ("fefd000000", 253), ("fd0001", 256)]
    {
        let inputs = format!("0104{:02x}{size}", size.len() / 2);
        for ends in [number - 1, number, number + 1] {
            let mut file = maps(&[&[TX, &inputs, "01050100", VERSION]]);
            file.extend(vec![0; ends]);
            files.push(file);
        }
    }
    files
}

/// Two keys of an input, in either order: prefixes, keys of 1, 8 and 9 bytes, first bytes that decide, the same key.
fn orders() -> Vec<Vec<u8>> {
    let mut files = Vec::new();
    for (one, other) in [
        ("01", "01"),
        ("01", "0100"),
        ("01ff", "02"),
        ("7f", "80"),
        ("00", "ff"),
        ("0102030405060708", "0102030405060708"),
        ("0102030405060708", "0102030405060709"),
        ("010203040506070809", "0102030405060708"),
        ("010203040506070809", "01020304050607080a"),
        ("0201010101010101", "0102020202020202"),
        ("0101010101010101ff", "0101010101010102"),
        ("0101010180", "0101010108"),
        ("01010101", "010101010101010101"),
    ] {
        for (first, second) in [(one, other), (other, one)] {
            let pair = |key: &str| format!("{:02x}{key}0151", key.len() / 2);
            files.push(maps(&[&[TX, "01040101", "01050100", VERSION], &[&pair(first), &pair(second)]]));
        }
    }
    files
}

/// Both setters on two assignments, over tables that are given: no inputs, and outputs whose maps are empty, as far as there are
/// maps.
fn setters<W: Write>(sink: &mut Sink<W>) -> io::Result<()> {
    // Two taproot scripts, then bytes that are none.
    let mut buffer = [0x33; 102];
    buffer[..3].copy_from_slice(&[0x51, 0x20, 0x11]);
    buffer[34..37].copy_from_slice(&[0x51, 0x20, 0x22]);
    let entries = 2 * ENTRY;
    for (outputs, list, state, room) in [
        (2, [0, 0, 1, 34], [0, 0], entries + 2),
        (2, [1, 0, 0, 34], [0, 0], entries + 2),
        (2, [0, 0, 0, 34], [0, 0], entries + 2),
        (1, [0, 0, 0, 34], [0, 0], entries + 2),
        (2, [0, 0, 2, 34], [0, 0], entries + 2),
        (1, [0, 0, 1, 34], [0, 0], entries + 2),
        (2, [0, 1, 1, 34], [0, 0], entries + 2),
        (2, [0, 68, 1, 34], [0, 0], entries + 2),
        (2, [0, 69, 1, 34], [0, 0], entries + 2),
        (2, [0, u64::MAX, 1, 34], [0, 0], entries + 2),
        (2, [u64::MAX, 0, 1, 34], [0, 0], entries + 2),
        (0, [0, 0, 1, 34], [0, 0], entries + 2),
        (3, [0, 0, 1, 34], [0, 0], entries + 2),
        (2, [0, 0, 1, 34], [1, 0], entries + 2),
        (2, [0, 0, 1, 34], [0, 1], entries + 2),
        (2, [0, 0, 1, 34], [0, 0], entries),
        (2, [0, 0, 1, 34], [0, 0], entries - 1),
    ] {
        for call in [calls::SET, calls::SET_TWO] {
            let mut group = Group::of(&[0]);
            group.words(PAIRS, &[0; 4]);
            group.words(MAPS, &[0; 6]);
            group.numbers(REPORT, &[7, 2, u64::MAX, u64::MAX, 0, outputs, 0, 3]);
            group.numbers(LIST, &[list[0], list[1], 34, list[2], list[3], 34]);
            group.bytes(BUFFER, &buffer);
            group.room(SCRIPTS, room);
            group.numbers(STATE, &state);
            group.ask(call, &[]);
            sink.put("setter", &group)?;
        }
    }
    Ok(())
}

/// Memory that nothing is stored in, that is missing or that a file has taken back, and longer spellings of arguments.
fn memories<W: Write>(sink: &mut Sink<W>) -> io::Result<()> {
    let mut asked = |mut group: Group| {
        for call in [calls::LOCK, calls::SET, calls::TX, calls::SET_TWO, calls::NTH, calls::IN_SEQUENCE, calls::SCRIPT]
        {
            group.ask(call, &[]);
        }
        sink.put("memory", &group)
    };
    asked(Group::of(&f()))?;
    asked(parsed(&f()))?;
    for words in 0..=8 {
        let mut group = parsed(&f());
        group.room(REPORT, words);
        group.room(STATE, words.min(2));
        asked(group)?;
        let mut group = parsed(&e());
        group.numbers(REPORT, &[7, 1 << 31, u64::MAX - 1, 0, 0, 0, 1, 1][..words]);
        group.room(OUT, 20);
        asked(group)?;
    }
    // E with version 3, which is refused; then with the words of that refusal as the report, and with other counts of values.
    let refused = maps(&[&[TX, "01040100", "01050100", "01fb0403000000"]]);
    asked(parsed(&refused))?;
    for first in [2, 0, 6, 7, 8, 7 << 32, u64::MAX] {
        let mut group = parsed(&refused);
        group.numbers(REPORT, &[first, 4, 1, 0, 0, 0, 0, 0]);
        group.room(OUT, 20);
        asked(group)?;
    }
    let mut group = parsed(&rich());
    for form in 0..4 {
        group.ask_in_form(calls::NTH, &[0, 3], form);
        group.ask_in_form(calls::LISTED, &[0, 0x1fc], form);
    }
    sink.put("memory", &group)?;
    Ok(())
}

/// A parse with ample room.
fn parsed(file: &[u8]) -> Group {
    Group::parsed(file, ample(file.len()))
}

/// Keys and values of these lengths, their compact sizes in every form that holds them.
fn forms(lengths: &[usize]) -> Vec<Vec<u8>> {
    let mut files = Vec::new();
    for length in lengths {
        for form in 0..4 {
            for in_key in [true, false] {
                let mut file = e();
                file.pop();
                if in_key {
                    put_size(&mut file, *length as u64, form);
                    file.push(0xfc);
                    file.extend(vec![0x31; length - 1]);
                    file.push(0);
                } else {
                    file.extend(hex("01fc"));
                    put_size(&mut file, *length as u64, form);
                    file.extend(vec![0x31; *length]);
                }
                file.push(0);
                files.push(file);
            }
        }
    }
    files
}

/// A short file with fields of every kind.
fn rich() -> Vec<u8> {
    let key = "02".to_string() + &"aa".repeat(32);
    let share = format!("2207{key}21{key}");
    let code = format!("010942{}", key.repeat(2));
    let tweak = format!("0120 20{}", "bb".repeat(32));
    let spend = format!("221f{key}0801020304 00000080");
    let list = format!("221a{key}21{key}");
    maps(&[
        &[TX, "010304 00ca9a3b", "01040101", "01050102", "01060100", &share, VERSION, "03fc0178 00"],
        &[TXID, INDEX, "011204 00350c00", &list, &spend, &tweak],
        &[AMOUNT, SCRIPT],
        &[AMOUNT, &code, "010a0401000000", "0135 00"],
    ])
}

pub fn all<W: Write>(sink: &mut Sink<W>) -> io::Result<()> {
    for file in examples() {
        sink.put("example", &parsed(&file))?;
    }
    for text in [REQUIRED_ONLY, WITH_PREVIOUS] {
        sink.put("vector", &parsed(&base64(text)))?;
    }
    for file in bip_370() {
        sink.put("case of BIP-370", &parsed(&file))?;
    }
    for file in corners() {
        sink.put("corner", &parsed(&file))?;
    }
    sink.put("rich", &parsed(&rich()))?;
    for file in [e(), f(), rich(), base64(REQUIRED_ONLY)] {
        for end in 0..file.len() {
            sink.put("every cut", &parsed(&file[..end]))?;
        }
    }
    for file in [e(), f()] {
        for at in 0..8 * file.len() {
            let mut flipped = file.clone();
            flipped[at / 8] ^= 1 << (at % 8);
            sink.put("every flipped bit", &parsed(&flipped))?;
        }
    }
    // Every room from none to one entry more than needed; also for files that are refused anyway.
    let mut cut = f();
    cut.truncate(80);
    let mut longer = f();
    longer.push(0);
    let mut unscripted = e();
    unscripted.truncate(27);
    for file in [vec![], hex(MAGIC), e(), f(), rich(), cut, longer, unscripted] {
        let (pairs, maps) = if file.len() > 100 { (24, 5) } else { (9, 4) };
        for pairs in 0..=pairs {
            for maps in 0..=maps {
                sink.put("every room", &Group::parsed(&file, (4 * pairs, 2 * maps)))?;
            }
        }
    }
    // Rooms with a part of an entry, and tables that held something before.
    for words in 0..=37 {
        sink.put("words", &Group::parsed(&f(), (words, 7)))?;
    }
    for file in [e(), f(), rich(), f()[..80].to_vec()] {
        let mut group = Group::of(&file);
        group.words(PAIRS, &(1..=120).collect::<Vec<u32>>());
        group.words(MAPS, &(201..=220).collect::<Vec<u32>>());
        group.ask(calls::PARSE, &[]);
        sink.put("used tables", &group)?;
    }
    memories(sink)?;
    setters(sink)
}

/// What lookups and transactions say of the files by name.
pub fn asked<W: Write>(sink: &mut Sink<W>) -> io::Result<()> {
    let named = examples().into_iter().chain([base64(REQUIRED_ONLY), base64(WITH_PREVIOUS), rich()]).chain(bip_370());
    for file in named {
        sink.put("lookups", &lookups(&file))?;
        sink.put("transaction", &transaction(&file, None, tx_room(file.len())))?;
        sink.put("with scripts", &transaction(&file, Some(Way::RIGHT), tx_room(file.len())))?;
    }
    for file in witness_utxos().into_iter().chain(signers()) {
        sink.put("lookups", &lookups(&file))?;
    }
    for file in [e(), f(), rich(), waiting()] {
        for way in 0..Way::MANY {
            sink.put("every way to set", &transaction(&file, Some(Way::numbered(way)), tx_room(file.len())))?;
        }
    }
    // Rooms about the lengths of the transactions, 61 and 147.
    for room in (0..=4).chain(58..=64) {
        sink.put("room", &transaction(&f(), None, room))?;
    }
    for room in (0..=4).chain(144..=150) {
        sink.put("room", &transaction(&waiting(), Some(Way::RIGHT), room))?;
    }
    Ok(())
}

/// F with a witness UTXO of many shapes.
fn witness_utxos() -> Vec<Vec<u8>> {
    let (one, two) = counts(1, 1);
    let mut files = Vec::new();
    for length in [0, 1, 7, 8, 9, 10, 11, 261, 262] {
        for said in [0u8, 1, 2, 0xfb, 0xfc, 0xfd, 0xff] {
            let mut value = vec![0xe8, 3, 0, 0, 0, 0, 0, 0x80, said];
            value.resize(length.max(9), 0x51);
            value.truncate(length);
            let mut pair = hex("0101");
            put_size(&mut pair, length as u64, 0);
            pair.extend(value);
            let pair: String = pair.iter().map(|byte| format!("{byte:02x}")).collect();
            files.push(maps(&[&[TX, &one, &two, VERSION], &[&pair, TXID, INDEX], &[AMOUNT, SCRIPT]]));
        }
    }
    files
}

/// F with lists of participants, nonces and signatures of many lengths, in input and output.
fn signers() -> Vec<Vec<u8>> {
    let (one, two) = counts(1, 1);
    let bytes = |byte: &str, n: usize| byte.repeat(n);
    let pair = |key_type: u8, data: usize, value: usize| {
        format!("{:02x}{key_type:02x}{}{value:02x}{}", data + 1, bytes("02", data), bytes("03", value))
    };
    let mut files = Vec::new();
    for value in [0, 1, 32, 33, 34, 65, 66, 67, 99] {
        for data in [0, 32, 33, 34, 64, 65, 66, 67, 97, 98, 99] {
            let (list, nonce, signature) = (pair(0x1a, data, value), pair(0x1b, data, value), pair(0x1c, data, value));
            let members = pair(0x08, data, value);
            files.push(maps(&[
                &[TX, &one, &two, VERSION],
                &[TXID, INDEX, &list, &nonce, &signature],
                &[AMOUNT, SCRIPT, &members],
            ]));
        }
    }
    files
}

/// Three outputs, two of which wait for a script.
fn waiting() -> Vec<u8> {
    let code = format!("010942{}", ("02".to_string() + &"aa".repeat(32)).repeat(2));
    maps(&[
        &[TX, "01040101", "01050103", VERSION],
        &[TXID, INDEX],
        &[AMOUNT, &code],
        &[AMOUNT, SCRIPT],
        &[AMOUNT, &code],
    ])
}

pub fn long<W: Write>(sink: &mut Sink<W>) -> io::Result<()> {
    // E with a proprietary pair that brings it to this length.
    let filled = |length: usize| {
        let mut file = e();
        file.pop();
        let before = file.len() + 2 + 5 + 1;
        file.extend(hex("01fc"));
        put_size(&mut file, (length - before) as u64, 2);
        file.resize(length - 1, 0x31);
        file.push(0);
        file
    };
    let limit = records::LIMIT;
    for length in [limit - 1, limit, limit + 1] {
        sink.put("length", &parsed(&filled(length)))?;
    }
    sink.put("length", &Group::parsed(&filled(limit + 1), (0, 0)))?;
    sink.put("length", &parsed(&vec![0; limit]))?;
    sink.put("length", &parsed(&vec![0; limit + 1]))?;
    for file in forms(&[0xffff, 0x1_0000]) {
        sink.put("form", &parsed(&file))?;
    }
    // As many pairs and maps as there is room for, and one more.
    let (most_pairs, most_maps) = (MOST[usize::from(PAIRS)], MOST[usize::from(MAPS)]);
    for pairs in [most_pairs / 4, most_pairs / 4 + 1] {
        let mut file = e();
        file.pop();
        for number in 0..pairs - 4 {
            file.extend(hex("03fc"));
            file.extend((number as u16).to_be_bytes());
            file.push(0);
        }
        file.push(0);
        for words in [most_pairs, most_pairs - 1] {
            sink.put("pair room", &Group::parsed(&file, (words, most_maps)))?;
        }
    }
    for maps in [most_maps / 2, most_maps / 2 + 1] {
        let mut file = hex(MAGIC);
        file.extend(hex(TX));
        file.extend(hex("0104 03fd"));
        file.extend((maps as u16 - 1).to_le_bytes());
        file.extend(hex("01050100"));
        file.extend(hex(VERSION));
        file.extend(vec![0; maps]);
        for words in [most_maps, most_maps - 1] {
            sink.put("map room", &Group::parsed(&file, (most_pairs, words)))?;
        }
    }
    Ok(())
}
