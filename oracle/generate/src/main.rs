//! Makes records for the comparison.
//!
//!     generate SEED COUNT               parses of COUNT files, the same ones for the same seed
//!     generate lookups SEED COUNT       lookups of as many
//!     generate transactions SEED COUNT  transactions of as many, with and without scripts set
//!     generate tables SEED COUNT        every call over the tables of as many, which may hold anything
//!     generate fixed                    parses of the examples, the vectors, corners, every cut and flipped bit of short files, every
//!                                       small room; both setters over tables that are given
//!     generate asked                    lookups and transactions of the examples, the vectors and the corners
//!     generate long                     files about the limits of length and room
//!
//! Records go to standard output, a count of what was made to standard error. `compare --count` on somebody's answers tells
//! how often each answer occurred.

mod damage;
mod draft;
mod fixed;
mod group;
mod questions;
mod random;
mod tables;
mod valid;

use group::{ample, Group, Sink};
use questions::{tx_room, Way};
use random::Random;
use records::{MAPS, MOST, PAIRS};
use std::collections::BTreeMap;
use std::io::{self, BufWriter, Write};

/// Rooms in words: mostly ample; else from 0 up to one entry more than needed.
fn rooms(random: &mut Random, (pairs, maps): (usize, usize), length: usize) -> (usize, usize) {
    let ample = ample(length);
    let small_pairs = 4 * random.between(0, pairs + 1);
    let small_maps = 2 * random.between(0, maps + 1);
    let (pairs, maps) = (4 * pairs, 2 * maps);
    match random.below(100) {
        // A part of an entry is no room for one.
        0..=4 => (small_pairs + random.between(0, 3), ample.1),
        5..=8 => (ample.0, small_maps + random.between(0, 1)),
        9..=11 => (small_pairs, small_maps),
        // Exactly what is needed, or a little less.
        12..=13 => (pairs - random.pick(&[0, 1, 4]).min(pairs), maps),
        14 => (pairs, maps - random.between(0, 2).min(maps)),
        15 => (MOST[usize::from(PAIRS)], MOST[usize::from(MAPS)]),
        _ => ample,
    }
}

fn generated<W: Write>(seed: u64, sink: &mut Sink<W>) -> io::Result<()> {
    let mut random = Random::new(seed);
    loop {
        let draft = valid::draft(&mut random);
        match random.below(1_000) {
            // As it is.
            0..=249 => {
                let file = draft.bytes();
                let rooms = rooms(&mut random, draft.size(), file.len());
                if !sink.put("valid", &Group::parsed(&file, rooms))? {
                    return Ok(());
                }
            }
            // Every cut of a short file.
            250..=251 => {
                let file = draft.bytes();
                if file.len() > 260 {
                    continue;
                }
                for end in 0..file.len() {
                    let rooms = rooms(&mut random, draft.size(), end);
                    if !sink.put("every cut", &Group::parsed(&file[..end], rooms))? {
                        return Ok(());
                    }
                }
            }
            // No draft at all.
            252..=271 => {
                let file = damage::noise(&mut random);
                let rooms = rooms(&mut random, (3, 2), file.len());
                if !sink.put("noise", &Group::parsed(&file, rooms))? {
                    return Ok(());
                }
            }
            way => {
                let mut draft = draft;
                let mut what = damage::damage(&mut random, &mut draft);
                if way % 8 == 0 {
                    damage::damage(&mut random, &mut draft);
                    what = "two damages";
                }
                let file = draft.bytes();
                let rooms = rooms(&mut random, draft.size(), file.len());
                if !sink.put(what, &Group::parsed(&file, rooms))? {
                    return Ok(());
                }
            }
        }
    }
}

/// A file that is mostly accepted.
fn mostly_valid(random: &mut Random) -> (&'static str, draft::Draft) {
    let mut draft = if random.once_in(4) { valid::draft(random) } else { valid::rich_draft(random) };
    if random.once_in(10) {
        damage::damage(random, &mut draft);
        return ("damaged", draft);
    }
    ("valid", draft)
}

fn lookups<W: Write>(seed: u64, sink: &mut Sink<W>) -> io::Result<()> {
    let mut random = Random::new(seed);
    loop {
        let (what, draft) = mostly_valid(&mut random);
        if !sink.put(what, &questions::lookups(&draft.bytes()))? {
            return Ok(());
        }
    }
}

fn transactions<W: Write>(seed: u64, sink: &mut Sink<W>) -> io::Result<()> {
    let mut random = Random::new(seed);
    loop {
        let (what, draft) = mostly_valid(&mut random);
        let file = draft.bytes();
        let way = if random.once_in(3) { Way::RIGHT } else { Way::numbered(random.below(Way::MANY.into()) as u32) };
        let way = if random.once_in(3) { None } else { Some(way) };
        let ample = tx_room(file.len());
        let room = if random.once_in(12) { random.between(0, ample) } else { ample };
        if !sink.put(what, &questions::transaction(&file, way, room))? {
            return Ok(());
        }
    }
}

fn main() -> io::Result<()> {
    let arguments: Vec<String> = std::env::args().skip(1).collect();
    let words: Vec<&str> = arguments.iter().map(String::as_str).collect();
    let mut sink =
        Sink { to: BufWriter::new(io::stdout().lock()), left: u64::MAX, calls: 0, bytes: 0, made: BTreeMap::new() };
    match words[..] {
        ["fixed"] => fixed::all(&mut sink)?,
        ["long"] => fixed::long(&mut sink)?,
        ["asked"] => fixed::asked(&mut sink)?,
        [kind @ ("lookups" | "transactions" | "tables"), seed, count] => {
            let (Ok(seed), Ok(count)) = (seed.parse(), count.parse()) else {
                return Err(io::Error::other("a seed and a count are numbers"));
            };
            sink.left = count;
            match kind {
                "lookups" => lookups(seed, &mut sink)?,
                "transactions" => transactions(seed, &mut sink)?,
                _ => tables::generated(seed, &mut sink)?,
            }
        }
        [seed, count] => {
            let (Ok(seed), Ok(count)) = (seed.parse(), count.parse()) else {
                return Err(io::Error::other("a seed and a count are numbers"));
            };
            sink.left = count;
            generated(seed, &mut sink)?;
        }
        _ => {
            return Err(io::Error::other(
                "generate [lookups|transactions|tables] SEED COUNT | generate fixed|asked|long",
            ))
        }
    }
    sink.to.flush()?;
    let all: u64 = sink.made.values().sum();
    eprintln!("{all} files, {} calls, {} bytes of files", sink.calls, sink.bytes);
    for (what, number) in &sink.made {
        eprintln!("{number:>9} {what}");
    }
    Ok(())
}
