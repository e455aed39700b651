//! psbt_show FILE: the inputs of a signing file, what decides its lock time, and its unsigned transaction in hex.

#[allow(dead_code)]
mod fastpsbt;

use fastpsbt::{Lock, Psbt, Refused, State, MAP_WORDS, PAIR_WORDS};
use std::process::ExitCode;

fn hex(bytes: &[u8]) -> String {
    bytes.iter().map(|b| format!("{b:02x}")).collect()
}

/// A number of an input behind its name, if the input has it.
fn number(name: &str, answer: Result<Option<u64>, Refused>) -> String {
    match answer {
        Ok(Some(n)) => format!(" {name} {n}"),
        Ok(None) => String::new(),
        Err(Refused(n)) => format!(" {name} refused {n}"),
    }
}

fn show_input(psbt: &Psbt, i: u64) {
    print!("input {i}");
    if let Ok(Some(txid)) = psbt.previous_txid(i) {
        print!(" txid {}", hex(txid));
    }
    print!("{}", number("index", psbt.output_index(i)));
    print!("{}", number("height", psbt.required_height_locktime(i)));
    println!("{}", number("time", psbt.required_time_locktime(i)));
}

fn show(file: &[u8]) -> Result<(), String> {
    let (mut pairs, mut maps) = (vec![0; PAIR_WORDS * 1024], vec![0; MAP_WORDS * 256]);
    let psbt = Psbt::parse(file, &mut pairs, &mut maps).map_err(|Refused(n)| format!("refused {n}"))?;
    (0..psbt.inputs()).for_each(|i| show_input(&psbt, i));
    match psbt.lock_decided() {
        Ok(Lock::Height { number, .. }) => println!("lock height {number}"),
        Ok(Lock::Time { number, .. }) => println!("lock time {number}"),
        Ok(Lock::Fallback(number)) => println!("lock fallback {number}"),
        Err(Refused(n)) => println!("lock refused {n}"),
    }
    let mut out = vec![0; 65536];
    let (tx, _) =
        psbt.unsigned_tx(State::default(), &[], &mut out).map_err(|Refused(n)| format!("unsigned refused {n}"))?;
    println!("unsigned {}", hex(tx));
    Ok(())
}

fn main() -> ExitCode {
    let Some(file) = std::env::args().nth(1).and_then(|name| std::fs::read(name).ok()) else {
        eprintln!("usage: psbt_show FILE");
        return ExitCode::from(2);
    };
    if file.len() > 65536 {
        eprintln!("the file is longer than 65536 bytes");
        return ExitCode::from(2);
    }
    match show(&file) {
        Ok(()) => ExitCode::SUCCESS,
        Err(said) => {
            println!("{said}");
            ExitCode::from(1)
        }
    }
}
