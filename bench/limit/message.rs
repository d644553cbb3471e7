//! Multicast DNS responses, and what they say of records.

use crate::names::{Names, ROOT, TEXT};

pub const HEADER: usize = 12;
const NAME_LIMIT: usize = 256;
const LABEL_LIMIT: u8 = 63;
const POINTER: u8 = 0xc0;
/// How many offsets pointers can lead to.
const TARGETS: usize = 0x4000;
const CACHE_FLUSH: usize = 0x8000;

/// What the data of a record is.
#[derive(Clone, Copy)]
pub enum Form {
    Ipv4,
    Ipv6,
    Name,
    Strings,
    Service,
}

/// Gives a function the name of a type whose records are kept, with the blanks about it, and what its data is. Both are
/// constants where this is called: nothing is looked up.
#[inline(always)]
pub fn of_kind<T>(number: u16, take: impl FnOnce(&'static [u8], Form) -> T) -> Option<T> {
    Some(match number {
        1 => take(b" A ", Form::Ipv4),
        12 => take(b" PTR ", Form::Name),
        16 => take(b" TXT", Form::Strings),
        28 => take(b" AAAA ", Form::Ipv6),
        33 => take(b" SRV ", Form::Service),
        _ => return None,
    })
}

/// A record, whatever its spelling: the folded owner, the type, and the data, with numbers for names and texts.
#[derive(Clone, Copy, PartialEq, Eq)]
pub struct Key {
    pub data: [u64; 2],
    pub owner: u32,
    pub kind: u16,
}

/// What a message says of a record. The spelling is the owner's, and that of the target of PTR and SRV.
#[derive(Clone, Copy)]
pub struct Said {
    pub key: Key,
    pub spelling: [u32; 2],
    pub ttl: u32,
    pub flush: bool,
}

/// What reads messages, one after another.
#[derive(Default)]
pub struct Reader {
    pub names: Names,
    /// What the message says that was read last.
    pub said: Vec<Said>,
    /// The names at the offsets of the message, each below the number of the message that it is of.
    places: Vec<u64>,
    number: u64,
    steps: Vec<usize>,
}

pub fn half(bytes: &[u8], at: usize) -> usize {
    usize::from(u16::from_be_bytes([bytes[at], bytes[at + 1]]))
}

impl Reader {
    /// Reads a response; none where it is damaged.
    pub fn read(&mut self, message: &[u8]) -> Option<()> {
        self.said.clear();
        self.number += 1;
        self.places.resize(TARGETS, 0);
        let mut at = HEADER;
        for _ in 0..half(message, 4) {
            at = message.get(..self.name(message, at)?.1 + 4)?.len();
        }
        for (count_at, is_heard) in [(6, true), (8, false), (10, true)] {
            for _ in 0..half(message, count_at) {
                at = self.record(message, at, is_heard)?;
            }
        }
        Some(())
    }

    /// Reads a record, and gives the offset after it.
    fn record(&mut self, message: &[u8], at: usize, is_heard: bool) -> Option<usize> {
        let (owner, at) = self.name(message, at)?;
        let fixed = message.get(at..at + 10)?;
        let (begin, end) = (at + 10, at + 10 + half(fixed, 8));
        let bytes = message.get(begin..end)?;
        let (kind, class, mut target) = (half(fixed, 0) as u16, half(fixed, 2), ROOT);
        if !is_heard || class & !CACHE_FLUSH != 1 {
            return Some(end);
        }
        let Some(form) = of_kind(kind, |_, form| form) else {
            return Some(end);
        };
        let data = match form {
            Form::Ipv4 => [u64::from(u32::from_be_bytes(bytes.try_into().ok()?)), 0],
            Form::Ipv6 if bytes.len() != 16 => return None,
            Form::Ipv6 => [0, 8].map(|at| u64::from_be_bytes(bytes[at..at + 8].try_into().unwrap())),
            Form::Strings => [u64::from(self.names.number_of(bytes, TEXT)), 0],
            Form::Name => {
                target = self.name(message, begin).filter(|found| found.1 == end)?.0;
                [u64::from(self.names.nodes[target as usize].folded), 0]
            }
            Form::Service => {
                let numbers = bytes.get(..6)?;
                target = self.name(message, begin + 6).filter(|found| found.1 == end)?.0;
                let numbers = half(numbers, 0) << 32 | half(numbers, 2) << 16 | half(numbers, 4);
                [numbers as u64, u64::from(self.names.nodes[target as usize].folded)]
            }
        };
        let key = Key { data, owner: self.names.nodes[owner as usize].folded, kind };
        let ttl = (half(fixed, 4) << 16 | half(fixed, 6)) as u32;
        self.said.push(Said { key, spelling: [owner, target], ttl, flush: class & CACHE_FLUSH != 0 });
        Some(end)
    }

    /// The name at an offset, and the offset after it. Most are pointers to a name that is known.
    fn name(&mut self, message: &[u8], at: usize) -> Option<(u32, usize)> {
        if let Some(&[first, second]) = message.get(at..at + 2) {
            let target = usize::from(u16::from_be_bytes([first, second])) % TARGETS;
            if first >= POINTER && target < at && self.places[target] >> 32 == self.number {
                return Some((self.places[target] as u32, at + 2));
            }
        }
        self.new_name(message, at)
    }

    /// The name at an offset, and the offset after it. A pointer leads before the run of labels that it ends.
    fn new_name(&mut self, message: &[u8], at: usize) -> Option<(u32, usize)> {
        let (mut place, mut run, mut behind, mut size) = (at, at, None, 0);
        self.steps.clear();
        let mut name = loop {
            let octet = *message.get(place)?;
            if octet == 0 {
                behind = behind.or(Some(place + 1));
                break ROOT;
            }
            if octet <= LABEL_LIMIT {
                size += 1 + usize::from(octet);
                self.steps.push(place);
                place += 1 + usize::from(octet);
            } else {
                let is_whole = octet >= POINTER && place + 1 < message.len();
                let target = is_whole.then(|| half(message, place) % TARGETS).filter(|target| *target < run)?;
                behind = behind.or(Some(place + 2));
                if self.places[target] >> 32 == self.number {
                    break self.places[target] as u32;
                }
                self.steps.push(place);
                (place, run) = (target, target);
            }
            // A name isn't known yet, so that no more of it is read than it can have.
            if size >= NAME_LIMIT {
                return None;
            }
        };
        if size + self.names.nodes[name as usize].size as usize > NAME_LIMIT {
            return None;
        }
        while let Some(place) = self.steps.pop() {
            let octet = message[place];
            if octet <= LABEL_LIMIT {
                name = self.names.number_of(&message[place..=place + usize::from(octet)], name);
            }
            if place < TARGETS {
                self.places[place] = self.number << 32 | u64::from(name);
            }
        }
        Some((name, behind?))
    }
}
