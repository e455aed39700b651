//! Rules 66 to 71 and 80 to 82: the text of `why`.

use crate::dates::date;
use crate::file::{File, Parsed};
use model::transaction::Lock;

const TIMES: u64 = 500_000_000;
const SEQUENCE: u8 = 0x10;
const TIME: u8 = 0x11;
const HEIGHT: u8 = 0x12;
const NO_SEQUENCE: u64 = 0xffff_ffff;

/// What the refusals of a parse mean.
fn meaning(number: u32) -> &'static str {
    match number {
        1 => "this is no signing file",
        2 => "bytes are missing, or left over at the end",
        3 => "a count has bytes left over",
        5 => "a key stands twice",
        6 => "a key stands below the one before it",
        7 => "a field has a wrong length",
        8 => "a count or a version is missing",
        13 => "the file is not of version 2",
        17 => "an output has no script",
        18 => "a silent payment breaks its rules",
        21 => "the file is longer than 65536 bytes",
        22 => "the file has more than 1024 pairs",
        23 => "the file has more than 256 maps",
        _ => unreachable!("no parse is refused by {number}"),
    }
}

/// Where a refused parse stopped, by the maps that had ended and the pairs that were taken; nothing of a wrong magic.
fn stopped(file: &File, number: u32, pairs: u64, maps: u64) -> Option<String> {
    let ended: usize = (0..maps as usize).map(|map| file.map(map).len()).sum();
    let pairs = pairs - ended as u64;
    let after = if pairs == 1 { "1 pair".to_string() } else { format!("{pairs} pairs") };
    let place = match (number, maps) {
        (1, _) => return None,
        // The rule asked where the global map ends: what is missing, and the version.
        (8 | 13, 1) => return Some("stopped at the end of the global map".to_string()),
        (_, 0) => "the global map".to_string(),
        _ => {
            let [inputs, outputs] = file.counted().map(u128::from);
            match u128::from(maps) - 1 {
                map if map < inputs => format!("input {map}"),
                map if map < inputs + outputs => format!("output {}", map - inputs),
                _ => return Some("stopped behind the last map".to_string()),
            }
        }
    };
    Some(format!("stopped in {place}, after {after}"))
}

/// What the network makes of a lock that was decided; nothing of 0, which is none.
fn heeded(file: &File, lock: u64) -> Option<String> {
    let below = |input: &u64| file.input_number(*input, SEQUENCE).unwrap_or(NO_SEQUENCE) < NO_SEQUENCE;
    match (0..file.inputs()).find(below) {
        _ if lock == 0 => None,
        None => Some(
            "the network ignores this lock, the transaction may be spent at once: no input has a sequence below ffffffff"
                .to_string(),
        ),
        Some(input) => Some(format!("the network heeds this lock: input {input} has a sequence below ffffffff")),
    }
}

/// A time with its date.
fn dated(time: u64) -> String {
    format!("time {time} ({})", date(time))
}

/// A lock as the network reads it.
fn as_read(lock: u64) -> String {
    match lock {
        0 => "time 0: none".to_string(),
        height if height < TIMES => format!("height {height}"),
        time => dated(time),
    }
}

fn input_line(file: &File, input: u64) -> String {
    let height = file.input_number(input, HEIGHT).map_or("no height".to_string(), |height| format!("height {height}"));
    let time = file.input_number(input, TIME).map_or("no time".to_string(), dated);
    format!("input {input} asks {height} and {time}")
}

/// What decided the lock, and the lock; or the field that refused it.
fn verdict(lock: Lock) -> Result<(String, u64), String> {
    match lock {
        Lock::Height(number, input) => Ok((format!("the greatest height asked decides: input {input}"), number.into())),
        Lock::Time(number, input) => Ok((format!("the greatest time asked decides: input {input}"), number.into())),
        Lock::Fallback(number) => Ok(("no input asks for a lock: the fallback decides".to_string(), number.into())),
        Lock::BothKinds(height, time) => Err(format!("input {height} asks a height and input {time} asks a time")),
        Lock::TooGreat(number, input) => {
            Err(format!("input {input} asks height {number}, which is not below 500000000 and would be read as a time"))
        }
        Lock::TooSmall(number, input) => Err(format!(
            "input {input} asks time {number}, which is below 500000000 and would be read as a block height"
        )),
        Lock::Malformed(_) | Lock::Unfit(_) => {
            unreachable!("a parse leaves tables that are fit, and found sizes right")
        }
    }
}

fn transaction_line(file: &File) -> String {
    match file.transaction() {
        Ok(bytes) => format!("transaction of {} bytes", bytes.len()),
        Err(number) => {
            let meaning = match number {
                7 => "an input has no txid or no index, or an output no amount",
                17 => "an output has no script",
                _ => unreachable!("no transaction of a parsed file is refused by {number} once its lock is decided"),
            };
            format!("no transaction, refused {number}: {meaning}")
        }
    }
}

pub fn text(file: &File) -> String {
    let refused = |number: u32| format!("refused {number}: {}", meaning(number));
    let said = match file.parsed {
        Parsed::TooLong => vec![refused(21)],
        Parsed::Refused { number, pairs, maps } => {
            [refused(number)].into_iter().chain(stopped(file, number, pairs, maps)).collect()
        }
        Parsed::Accepted => {
            let fallback = file.fallback().map_or("none".to_string(), as_read);
            let mut said = vec![format!("inputs {}, fallback {fallback}", file.inputs())];
            said.extend((0..file.inputs()).map(|input| input_line(file, input)));
            match verdict(file.lock()) {
                Err(field) => said.push(format!("{field}: refused 7")),
                Ok((decided, lock)) => {
                    said.extend([decided, format!("lock {}", as_read(lock)), transaction_line(file)]);
                    said.extend(heeded(file, lock));
                }
            }
            said
        }
    };
    said.into_iter().map(|line| line + "\n").collect()
}
