//! A file before it is written: maps of pairs, each with its spelling.

#[derive(Clone, Copy, PartialEq, Eq, Debug)]
pub enum Kind {
    Global,
    Input,
    Output,
}

#[derive(Clone)]
pub struct Pair {
    pub key: Vec<u8>,
    pub value: Vec<u8>,
    /// The least form that the lengths are written in: 0 for one byte, 1 for fd, 2 for fe, 3 for ff.
    pub forms: (u8, u8),
    /// The lengths that are written, if not the true ones.
    pub said: (Option<u64>, Option<u64>),
}

#[derive(Clone)]
pub struct Map {
    pub kind: Kind,
    pub pairs: Vec<Pair>,
    /// The form that the end is written in; none for a map that doesn't end.
    pub end: Option<u8>,
}

#[derive(Clone)]
pub struct Draft {
    pub magic: Vec<u8>,
    pub maps: Vec<Map>,
    pub tail: Vec<u8>,
    /// What is done to the bytes once they are written.
    pub blows: Vec<Blow>,
}

/// Places are taken modulo the file's length at the time.
#[derive(Clone)]
pub enum Blow {
    Cut(u64),
    Flip(u64, u8),
    Set(u64, u8),
    Insert(u64, u8),
    Delete(u64),
}

/// A compact size in the shortest form that is at least `form`.
pub fn put_size(to: &mut Vec<u8>, number: u64, form: u8) {
    let shortest = match number {
        0..=0xfc => 0,
        0xfd..=0xffff => 1,
        0x1_0000..=0xffff_ffff => 2,
        _ => 3,
    };
    let bytes = number.to_le_bytes();
    match form.max(shortest) {
        0 => to.push(bytes[0]),
        1 => {
            to.push(0xfd);
            to.extend_from_slice(&bytes[..2]);
        }
        2 => {
            to.push(0xfe);
            to.extend_from_slice(&bytes[..4]);
        }
        _ => {
            to.push(0xff);
            to.extend_from_slice(&bytes);
        }
    }
}

impl Pair {
    pub fn new(key_type: u8, data: &[u8], value: Vec<u8>) -> Self {
        let mut key = vec![key_type];
        key.extend_from_slice(data);
        Pair { key, value, forms: (0, 0), said: (None, None) }
    }
}

impl Map {
    pub fn new(kind: Kind) -> Self {
        Map { kind, pairs: Vec::new(), end: Some(0) }
    }

    /// Keys rising, each once.
    pub fn sort(&mut self) {
        self.pairs.sort_by(|a, b| a.key.cmp(&b.key));
        self.pairs.dedup_by(|a, b| a.key == b.key);
    }

    pub fn place(&self, key: &[u8]) -> Option<usize> {
        self.pairs.iter().position(|pair| pair.key == key)
    }

    pub fn remove(&mut self, key: &[u8]) {
        self.pairs.retain(|pair| pair.key != key);
    }

    /// The pair in place of any with its key, in order.
    pub fn set(&mut self, pair: Pair) {
        self.remove(&pair.key);
        let at = self.pairs.iter().position(|other| other.key > pair.key).unwrap_or(self.pairs.len());
        self.pairs.insert(at, pair);
    }
}

impl Draft {
    /// Pairs and maps.
    pub fn size(&self) -> (usize, usize) {
        (self.maps.iter().map(|map| map.pairs.len()).sum(), self.maps.len())
    }

    /// The entries of a draft that nothing was done to.
    pub fn tables(&self) -> (Vec<[u32; 4]>, Vec<[u32; 2]>) {
        let (mut pairs, mut maps) = (Vec::new(), Vec::new());
        let mut to = self.magic.clone();
        for map in &self.maps {
            maps.push([pairs.len() as u32, map.pairs.len() as u32]);
            for pair in &map.pairs {
                put_size(&mut to, pair.key.len() as u64, pair.forms.0);
                let key = to.len() as u32;
                to.extend_from_slice(&pair.key);
                put_size(&mut to, pair.value.len() as u64, pair.forms.1);
                let value = to.len() as u32;
                to.extend_from_slice(&pair.value);
                pairs.push([key, pair.key.len() as u32, value, pair.value.len() as u32]);
            }
            put_size(&mut to, 0, map.end.unwrap_or(0));
        }
        (pairs, maps)
    }

    pub fn bytes(&self) -> Vec<u8> {
        let mut to = self.magic.clone();
        for map in &self.maps {
            for pair in &map.pairs {
                put_size(&mut to, pair.said.0.unwrap_or(pair.key.len() as u64), pair.forms.0);
                to.extend_from_slice(&pair.key);
                put_size(&mut to, pair.said.1.unwrap_or(pair.value.len() as u64), pair.forms.1);
                to.extend_from_slice(&pair.value);
            }
            if let Some(form) = map.end {
                put_size(&mut to, 0, form);
            }
        }
        to.extend_from_slice(&self.tail);
        for blow in &self.blows {
            if to.is_empty() {
                break;
            }
            let length = to.len() as u64;
            match *blow {
                Blow::Cut(at) => to.truncate((at % length) as usize),
                Blow::Flip(at, bit) => to[(at % length) as usize] ^= 1 << (bit % 8),
                Blow::Set(at, byte) => to[(at % length) as usize] = byte,
                Blow::Insert(at, byte) => to.insert((at % length) as usize, byte),
                Blow::Delete(at) => {
                    to.remove((at % length) as usize);
                }
            }
        }
        to
    }
}
