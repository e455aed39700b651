//! Rules 58 to 65: the dump.

use crate::file::{File, Parsed};

fn hex(bytes: &[u8]) -> String {
    bytes.iter().map(|byte| format!("{byte:02x}")).collect()
}

fn hex_or_dash(bytes: &[u8]) -> String {
    if bytes.is_empty() {
        "-".to_string()
    } else {
        hex(bytes)
    }
}

pub fn text(file: &File) -> String {
    match file.parsed {
        Parsed::TooLong => return "refused 21\n".to_string(),
        Parsed::Refused { number, .. } => return format!("refused {number}\n"),
        Parsed::Accepted => {}
    }
    let mut text = format!("psbt 2 tx {} inputs {} outputs {}\n", file.version(), file.inputs(), file.outputs());
    for number in 0..=(file.inputs() + file.outputs()) as usize {
        let map = file.map(number);
        text += &format!("map {number} pairs {}\n", map.len());
        for (key, value) in map {
            text += &format!("{:02x} {} {}\n", key[0], hex_or_dash(&key[1..]), hex_or_dash(&value));
        }
    }
    match file.transaction() {
        Ok(bytes) => text + &format!("unsigned {}\n", hex(&bytes)),
        Err(number) => text + &format!("unsigned refused {number}\n"),
    }
}
