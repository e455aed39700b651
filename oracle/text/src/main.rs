//! The texts that `dump` and `why` print of a file, written from the rules of these texts (`docs/DEFINITIONS.md`) and, where
//! these give no wording, from the texts that are stored. What a file holds and asks the model says. No line of it comes from
//! the Rattle code, and nothing is proved about it.
//!
//!     text dump FILE..     the dumps of files, one behind the other
//!     text why FILE..      what `why` says of them
//!     text split FOLDER    stores the files that records of standard input lend, as FOLDER/000001 and so on

mod dates;
mod dump;
mod file;
mod why;

use file::File;
use std::io::{self, BufWriter, Error, Read, Write};
use std::path::Path;

/// Stores what records of kind 0 lend, each file once.
fn split(folder: &Path) -> io::Result<()> {
    let mut bytes = Vec::new();
    io::stdin().lock().read_to_end(&mut bytes)?;
    let mut rest = &bytes[..];
    let mut stored = std::collections::HashSet::new();
    while rest.len() >= 9 {
        let length = u32::from_le_bytes(rest[5..9].try_into().unwrap()) as usize;
        let body = rest.get(9..9 + length).ok_or(Error::other("a record is cut"))?;
        if rest[0] == records::FILE && stored.insert(body) {
            std::fs::write(folder.join(format!("{:06}", stored.len())), body)?;
        }
        rest = &rest[9 + length..];
    }
    Ok(())
}

fn main() -> io::Result<()> {
    let words: Vec<String> = std::env::args().skip(1).collect();
    let usage = || Error::other("text dump FILE.. | text why FILE.. | text split FOLDER");
    let (what, names) = words.split_first().ok_or_else(usage)?;
    if what == "split" {
        let [folder] = names else { return Err(usage()) };
        return split(Path::new(folder));
    }
    let mut to = BufWriter::new(io::stdout().lock());
    for name in names {
        let bytes = std::fs::read(name).map_err(|e| Error::other(format!("{name}: {e}")))?;
        let file = File::read(bytes);
        let text = match what.as_str() {
            "dump" => dump::text(&file),
            "why" => why::text(&file),
            _ => return Err(usage()),
        };
        to.write_all(text.as_bytes())?;
    }
    to.flush()
}
