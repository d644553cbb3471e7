//! Names and texts, each kept once under a number, and the hash table that finds what has numbers.

use std::cmp::Ordering;

const SEEDS: [u64; 4] = [0x9e37_79b9_7f4a_7c15, 0xa076_1d64_78bd_642f, 0xe703_7ed1_a0b4_28db, 0x8ebc_6af0_9c88_c6e3];

/// Numbers by the hashes of what they are of. A slot has a hash in its high half and a number plus one in its low half;
/// an empty slot is 0. The slot of a hash is its leading bits, so that the table grows without what its numbers are of.
pub struct Table {
    slots: Vec<u64>,
    count: usize,
    shift: u32,
}

impl Default for Table {
    fn default() -> Table {
        Table { slots: vec![0; 1024], count: 0, shift: 22 }
    }
}

impl Table {
    /// The number with this hash that is the one sought.
    pub fn find(&self, hash: u32, is_sought: impl Fn(u32) -> bool) -> Option<u32> {
        let mut place = (hash >> self.shift) as usize;
        loop {
            let slot = self.slots[place];
            if slot == 0 || (slot >> 32) as u32 == hash && is_sought(slot as u32 - 1) {
                return (slot as u32).checked_sub(1);
            }
            place = (place + 1) & (self.slots.len() - 1);
        }
    }

    pub fn insert(&mut self, hash: u32, number: u32) {
        self.count += 1;
        if 2 * self.count > self.slots.len() {
            let longer = vec![0; 4 * self.slots.len()];
            self.shift -= 2;
            let slots = std::mem::replace(&mut self.slots, longer);
            slots.into_iter().filter(|slot| *slot != 0).for_each(|slot| self.put(slot));
        }
        self.put(u64::from(hash) << 32 | u64::from(number + 1));
    }

    fn put(&mut self, slot: u64) {
        let mut place = (slot >> 32 >> self.shift) as usize;
        while self.slots[place] != 0 {
            place = (place + 1) & (self.slots.len() - 1);
        }
        self.slots[place] = slot;
    }
}

fn mixed(a: u64, b: u64) -> u64 {
    let product = u128::from(a) * u128::from(b);
    product as u64 ^ (product >> 64) as u64
}

/// A hash of three numbers.
pub fn hash_of(a: u64, b: u64, c: u64) -> u32 {
    (mixed(mixed(a ^ SEEDS[0], b ^ SEEDS[1]) ^ c, SEEDS[2]) >> 32) as u32
}

/// A hash of bytes after a number, in two lanes. What is left after the last 32 bytes ends with zeros.
pub fn hash_of_bytes(before: u64, bytes: &[u8]) -> u32 {
    let (mut state, mut lane) = (before ^ SEEDS[0], bytes.len() as u64 ^ SEEDS[1]);
    let mut add = |four: &[u8]| {
        let word = |at: usize| u64::from_le_bytes(four[at..at + 8].try_into().unwrap());
        state = mixed(state ^ word(0), word(8) ^ SEEDS[2]);
        lane = mixed(lane ^ word(16), word(24) ^ SEEDS[3]);
    };
    let fours = bytes.chunks_exact(32);
    let mut last = [0; 32];
    last[..fours.remainder().len()].copy_from_slice(fours.remainder());
    fours.for_each(&mut add);
    add(&last);
    (mixed(state ^ SEEDS[1], lane) >> 32) as u32
}

/// The number of the root, and what texts end with in the place of names.
pub const ROOT: u32 = 0;
pub const TEXT: u32 = 1;

/// A name: where its first label is, with its length octet; the size of the whole; the name after the label.
pub struct Node {
    begin: u32,
    count: u32,
    pub size: u32,
    pub rest: u32,
    pub folded: u32,
}

/// All names and texts that were read. Two of them are the same exactly if their numbers are.
pub struct Names {
    bytes: Vec<u8>,
    pub nodes: Vec<Node>,
    table: Table,
}

impl Default for Names {
    fn default() -> Names {
        let root = Node { begin: 0, count: 1, size: 1, rest: ROOT, folded: ROOT };
        let text = Node { begin: 0, count: 0, size: 0, rest: TEXT, folded: TEXT };
        Names { bytes: vec![0], nodes: vec![root, text], table: Table::default() }
    }
}

impl Names {
    /// The name of a label, its length octet first, and the rest after it; or a text, if the rest is `TEXT`.
    pub fn number_of(&mut self, label: &[u8], rest: u32) -> u32 {
        let hash = hash_of_bytes(u64::from(rest) << 32, label);
        let found = self.table.find(hash, |name| self.nodes[name as usize].rest == rest && self.label(name) == label);
        found.unwrap_or_else(|| self.add(hash, label, rest))
    }

    #[cold]
    fn add(&mut self, hash: u32, label: &[u8], rest: u32) -> u32 {
        let (lower, folded_rest) = (label.to_ascii_lowercase(), self.nodes[rest as usize].folded);
        let is_folded = rest == TEXT || folded_rest == rest && lower == label;
        let folded = if is_folded { None } else { Some(self.number_of(&lower, folded_rest)) };
        let name = self.nodes.len() as u32;
        let begin = u32::try_from(self.bytes.len()).expect("at most 4 GiB of labels and texts");
        let (count, size) = (label.len() as u32, label.len() as u32 + self.nodes[rest as usize].size);
        self.nodes.push(Node { begin, count, size, rest, folded: folded.unwrap_or(name) });
        self.bytes.extend_from_slice(label);
        self.table.insert(hash, name);
        name
    }

    pub fn label(&self, name: u32) -> &[u8] {
        let node = &self.nodes[name as usize];
        &self.bytes[node.begin as usize..][..node.count as usize]
    }

    /// The order of the bytes.
    pub fn compare(&self, mut one: u32, mut other: u32) -> Ordering {
        let mut order = Ordering::Equal;
        while one != other && order.is_eq() {
            order = self.label(one).cmp(self.label(other));
            (one, other) = (self.nodes[one as usize].rest, self.nodes[other as usize].rest);
        }
        order
    }

    /// The first 16 bytes as a number.
    fn prefix(&self, mut name: u32) -> u128 {
        let (mut bytes, mut filled) = ([0; 16], 0);
        while filled < 16 {
            let label = &self.label(name)[..(16 - filled).min(self.nodes[name as usize].count as usize)];
            bytes[filled..filled + label.len()].copy_from_slice(label);
            // After the end of all there is nothing more.
            filled += if name <= TEXT { 16 } else { label.len() };
            name = self.nodes[name as usize].rest;
        }
        u128::from_be_bytes(bytes)
    }

    /// The place in the order of their bytes of each name and text that is asked for, by its number.
    pub fn ranks(&self, asked: &[u32]) -> Vec<u32> {
        let mut ranks = vec![0; self.nodes.len()];
        let mut sorted = Vec::with_capacity(asked.len());
        for &name in asked {
            if std::mem::replace(&mut ranks[name as usize], 1) == 0 {
                sorted.push((self.prefix(name), name));
            }
        }
        sorted.sort_unstable_by(|one, other| one.0.cmp(&other.0).then_with(|| self.compare(one.1, other.1)));
        (0..).zip(sorted).for_each(|(rank, (_, name))| ranks[name as usize] = rank);
        ranks
    }
}
