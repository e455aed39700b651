//! Compares two files of lines, call by call, or counts what one of them says.
//!
//!     compare OURS THEIRS [--whole] [--records RECORDS]
//!     compare --count LINES
//!
//! Without `--whole` THEIRS are the original's. Where it has no answer its line is `none`: that is skipped and counted. A parse of
//! OURS that is a 22 or a 23 is skipped and counted too, since the original knows no rooms; only its entries are looked at: they
//! must be the first of theirs, and for a 22 theirs must have another pair. A line of THEIRS that ends with `fallback NUMBER` is
//! about a transaction whose inputs ask a lock: it may differ from ours in the lock alone, and only so that its lock is the
//! greater of the fallback and ours. Such lines are counted. With `--records` a 22 or 23 must have used up its room, and of the
//! calls that differ the one over the shortest file is shown. Ends with 1 if anything differed or nothing was compared.

use records::{calls, Call, Memory, Next, Stream, FILL, MOST, OUT};
use std::collections::BTreeMap;
use std::fs::File;
use std::io::{self, BufRead, BufReader};
use std::process::ExitCode;

/// A line's call and number; the line itself if it has none.
fn verdict(line: &str) -> (u32, u32, &str) {
    let mut words = line.split(' ').map(str::parse);
    match (words.next(), words.next()) {
        (Some(Ok(call)), Some(Ok(number))) => (call, number, ""),
        _ => (u32::MAX, 0, line),
    }
}

/// A parse that rooms cut short.
fn short_of_room(line: &str) -> bool {
    let (call, number, _) = verdict(line);
    call == calls::PARSE.into() && matches!(number, 22 | 23)
}

/// Whether the entries of a line that rooms cut short are the first ones of the other line.
fn begins(ours: &str, theirs: &str) -> bool {
    let entries = |line: &str| -> Option<[Vec<String>; 2]> {
        let mut parts = line.split(':').skip(1).map(|part| part.split_whitespace().map(String::from).collect());
        Some([parts.next()?, parts.next()?])
    };
    let (Some([our_pairs, our_maps]), Some([their_pairs, their_maps])) = (entries(ours), entries(theirs)) else {
        return false;
    };
    let another = verdict(ours).1 != 22 || their_pairs.len() > our_pairs.len();
    their_pairs.starts_with(&our_pairs) && their_maps.starts_with(&our_maps) && another
}

/// Whether a 22 or a 23 has used up the room that was lent. Its two values are the entries used of pairs and of maps; a 0 at the
/// end is left off.
fn full(line: &str, memory: &Memory) -> bool {
    let head = line.split(" :").next().unwrap_or("");
    let used = |value: usize| head.split(' ').nth(2 + value).map_or(Some(0), |word| word.parse().ok());
    match verdict(line).1 {
        22 => used(1) == Some(memory.pairs.len() / 4),
        _ => used(2) == Some(memory.maps.len() / 2),
    }
}

/// How a line stands to the original's, which may tell the fallback behind it.
#[derive(PartialEq)]
enum Stands {
    Equal,
    /// Alike but for the lock, theirs the greater of the fallback and ours.
    GreaterLock,
    Differs,
}

fn stands(ours: &str, theirs: &str) -> Stands {
    if ours == theirs {
        return Stands::Equal;
    }
    let Some((theirs, fallback)) = theirs.split_once(" fallback ") else { return Stands::Differs };
    if ours == theirs {
        return Stands::Equal;
    }
    match (lock_of(ours), lock_of(theirs), fallback.parse::<u32>()) {
        (Some((our_rest, our_lock)), Some((their_rest, their_lock)), Ok(fallback))
            if our_rest == their_rest && their_lock == our_lock.max(fallback) =>
        {
            Stands::GreaterLock
        }
        _ => Stands::Differs,
    }
}

/// The line of a transaction without its lock, and the lock. Bytes at the end that are as the fill were left off: the
/// transaction's length, the first of its values, tells how many.
fn lock_of(line: &str) -> Option<(String, u32)> {
    let (head, hex) = line.split_once(" : ").filter(|_| verdict(line) == (calls::TX.into(), 0, ""))?;
    let length: usize = head.split(' ').nth(3)?.parse().ok().filter(|length| *length <= MOST[usize::from(OUT)])?;
    let mut hex = hex.to_string();
    while hex.len() < 2 * length {
        hex.push_str(&format!("{FILL:02x}"));
    }
    let lock = hex.split_off(hex.len().checked_sub(8)?);
    Some((format!("{head} : {hex}"), u32::from_str_radix(&lock, 16).ok()?.swap_bytes()))
}

/// How often an answer occurred, and how often it differed.
type Counts = BTreeMap<(u32, u32, String), [u64; 2]>;

fn count<'c>(counts: &'c mut Counts, line: &str) -> &'c mut [u64; 2] {
    let (call, number, other) = verdict(line);
    counts.entry((call, number, other.to_string())).or_default()
}

fn show(counts: &Counts) {
    println!("call number     lines differing");
    for ((call, number, other), [all, differing]) in counts {
        if other.is_empty() {
            println!("{call:>4} {number:>6} {all:>9} {differing:>9}");
        } else {
            println!("{:>11} {all:>9} {differing:>9}", shortened(other));
        }
    }
}

fn lines(path: &str) -> io::Result<impl Iterator<Item = io::Result<String>>> {
    Ok(BufReader::with_capacity(1 << 16, File::open(path).map_err(|e| io::Error::other(format!("{path}: {e}")))?)
        .lines())
}

fn shortened(line: &str) -> String {
    if line.len() <= 400 {
        return line.to_string();
    }
    format!("{} .. ({} characters)", &line[..400], line.len())
}

/// The call over the shortest file that differed.
struct Shortest {
    at: u64,
    call: Call,
    file: Vec<u8>,
}

impl Shortest {
    fn show(&self) {
        let hex: String = self.file.iter().take(2_000).map(|b| format!("{b:02x}")).collect();
        let Call { number, arguments } = &self.call;
        println!(
            "over the shortest file: line {}, call {number} {arguments:?}, {} bytes\n  {hex}",
            self.at,
            self.file.len()
        );
    }
}

/// What is known of the lines so far.
#[derive(Default)]
struct Tally {
    counts: Counts,
    compared: u64,
    equal: u64,
    none: u64,
    short: u64,
    differing: u64,
    greater_locks: u64,
}

impl Tally {
    /// Whether two lines agree, as far as they can. The memory is that which the call was asked over, if it is known.
    fn agree(&mut self, ours: &str, theirs: &str, whole: bool, memory: Option<&Memory>) -> bool {
        if !whole && theirs == "none" {
            self.none += 1;
            return true;
        }
        if !whole && short_of_room(ours) {
            self.short += 1;
            return begins(ours, theirs) && memory.is_none_or(|memory| full(ours, memory));
        }
        self.compared += 1;
        match stands(ours, theirs) {
            Stands::Equal => self.equal += 1,
            Stands::GreaterLock => self.greater_locks += 1,
            Stands::Differs => return false,
        }
        true
    }

    fn show(&self) {
        show(&self.counts);
        println!(
            "compared {}, equal {}, greater locks {}, differing {}, skipped {} without an answer and {} short of room",
            self.compared, self.equal, self.greater_locks, self.differing, self.none, self.short
        );
    }
}

fn compare(ours: &str, theirs: &str, whole: bool, records: Option<&str>) -> io::Result<bool> {
    let (mut our_lines, mut their_lines) = (lines(ours)?, lines(theirs)?);
    let mut stream = match records {
        Some(path) => Some(Stream::new(BufReader::new(File::open(path)?))),
        None => None,
    };
    let mut tally = Tally::default();
    let mut shortest: Option<Shortest> = None;
    for at in 1u64.. {
        let (our, their) = match (our_lines.next().transpose()?, their_lines.next().transpose()?) {
            (None, None) => break,
            (our, their) => (our.unwrap_or("(no line)".into()), their.unwrap_or("(no line)".into())),
        };
        let call = match stream.as_mut().map(Stream::next).transpose()? {
            Some(Next::Call(call)) => Some(call),
            _ => None,
        };
        let locks = tally.greater_locks;
        let memory = stream.as_ref().map(|stream| &stream.memory);
        let agree = tally.agree(&our, &their, whole, memory);
        count(&mut tally.counts, &our)[0] += 1;
        if tally.greater_locks == 1 && locks == 0 {
            println!("the first greater lock: line {at}\n  ours   {}\n  theirs {}", shortened(&our), shortened(&their));
        }
        if agree {
            continue;
        }
        count(&mut tally.counts, &our)[1] += 1;
        tally.differing += 1;
        if tally.differing <= 10 {
            println!("line {at}\n  ours   {}\n  theirs {}", shortened(&our), shortened(&their));
        }
        if let (Some(call), Some(memory)) = (call, memory) {
            if shortest.as_ref().is_none_or(|s| memory.file.len() < s.file.len()) {
                shortest = Some(Shortest { at, call, file: memory.file.clone() });
            }
        }
    }
    if let Some(shortest) = shortest {
        shortest.show();
    }
    tally.show();
    Ok(tally.differing == 0 && tally.compared > 0)
}

fn run(arguments: &[String]) -> io::Result<bool> {
    let mut paths = Vec::new();
    let (mut whole, mut only_count, mut records) = (false, false, None);
    let mut rest = arguments.iter();
    while let Some(argument) = rest.next() {
        match argument.as_str() {
            "--whole" => whole = true,
            "--count" => only_count = true,
            "--records" => records = rest.next().map(String::as_str),
            _ => paths.push(argument.as_str()),
        }
    }
    match paths[..] {
        [path] if only_count => {
            let mut counts = Counts::new();
            for line in lines(path)? {
                count(&mut counts, &line?)[0] += 1;
            }
            show(&counts);
            Ok(true)
        }
        [ours, theirs] if !only_count => compare(ours, theirs, whole, records),
        _ => Err(io::Error::other("compare OURS THEIRS [--whole] [--records RECORDS] | compare --count LINES")),
    }
}

fn main() -> ExitCode {
    let arguments: Vec<String> = std::env::args().skip(1).collect();
    match run(&arguments) {
        Ok(true) => ExitCode::SUCCESS,
        Ok(false) => ExitCode::from(1),
        Err(error) => {
            eprintln!("{error}");
            ExitCode::from(2)
        }
    }
}
