//! What was heard: of each record its last hearing, of each record set its flush moments. A message that came before,
//! letter for letter, adds only its moment, and all is joined at the end.

use crate::message::{half, Key, Reader, Said, HEADER};
use crate::names::{hash_of, hash_of_bytes, Table};
use crate::SECOND;

/// How many hashes of messages that came once are kept.
const ONCE: usize = 65_536;

/// Moments of flushes: all of the second before the last one, and the last one before that second. No other can end a
/// record that is live at the newest hearing. As 0 strikes nothing, it stands for none.
#[derive(Default)]
struct Moments {
    last: u64,
    before: u64,
    /// Those between, in no order, and perhaps some that became old.
    recent: Vec<u64>,
}

impl Moments {
    fn add(&mut self, moment: u64) {
        if moment >= self.last + SECOND {
            (self.before, self.last) = (self.last, moment);
            self.recent.clear();
        } else if moment + SECOND <= self.last {
            self.before = self.before.max(moment);
        } else if moment != self.last {
            self.add_recent(moment.min(self.last));
            self.last = self.last.max(moment);
        }
    }

    fn add_recent(&mut self, moment: u64) {
        let (last, before, recent) = (self.last, &mut self.before, &mut self.recent);
        if recent.len() == recent.capacity() {
            recent.retain(|&moment| {
                let is_old = moment + SECOND <= last;
                *before = if is_old { moment.max(*before) } else { *before };
                !is_old
            });
            // So that the next look is as many moments away as are left.
            recent.reserve(recent.len().max(4));
        }
        recent.push(moment);
    }

    /// The first moment after another one, where the recent ones are all, in order, or none.
    fn first_after(&self, moment: u64) -> Option<u64> {
        let few = [self.before, self.last];
        let all = if self.recent.is_empty() { &few[..] } else { &self.recent };
        all.get(all.partition_point(|flush| *flush <= moment)).copied()
    }
}

/// The flushes of a record set, and the next set of its owner.
struct Set {
    kind: u16,
    next: u32,
    moments: Moments,
}

/// A record and its last hearing: the greatest by moment, then TTL, then spelling.
pub struct Record {
    pub key: Key,
    pub spelling: [u32; 2],
    pub moment: u64,
    pub ttl: u32,
    set: u32,
}

/// A message that came again: its bytes after the ID, what it says, and when it came since.
struct Message {
    bytes: (usize, usize),
    said: (usize, usize),
    moments: Moments,
}

/// What a packet's payload came to.
pub enum Outcome {
    Skipped,
    Refused,
    Heard(usize),
}

#[derive(Default)]
pub struct Cache {
    pub reader: Reader,
    pub records: Vec<Record>,
    record_table: Table,
    sets: Vec<Set>,
    /// The first set of each owner.
    first_sets: Vec<u32>,
    messages: Vec<Message>,
    message_table: Table,
    /// What all messages have that are kept.
    bytes: Vec<u8>,
    said: Vec<Said>,
    once: Vec<u32>,
    newest: u64,
}

impl Cache {
    /// Hears what a packet's payload says.
    pub fn hear(&mut self, moment: u64, payload: &[u8]) -> Outcome {
        if payload.len() < HEADER {
            return Outcome::Refused;
        }
        // A response without an OPCODE or RCODE.
        if half(payload, 2) & 0xf80f != 0x8000 {
            return Outcome::Skipped;
        }
        let hash = hash_of_bytes(0, &payload[2..]);
        let found = self.message_table.find(hash, |number| {
            let (begin, end) = self.messages[number as usize].bytes;
            self.bytes[begin..end] == payload[2..]
        });
        let Some(number) = found else {
            return self.hear_new(moment, payload, hash);
        };
        let message = &mut self.messages[number as usize];
        message.moments.add(moment);
        Outcome::Heard(message.said.1 - message.said.0)
    }

    /// Hears a message that isn't kept, and keeps it if it came once before.
    fn hear_new(&mut self, moment: u64, payload: &[u8], hash: u32) -> Outcome {
        self.once.resize(ONCE, 0);
        if self.reader.read(payload).is_none() {
            return Outcome::Refused;
        }
        let said = std::mem::take(&mut self.reader.said);
        said.iter().for_each(|said| self.hear_record(said, moment, None));
        if std::mem::replace(&mut self.once[hash as usize % ONCE], hash) == hash {
            self.message_table.insert(hash, self.messages.len() as u32);
            let (begin, first) = (self.bytes.len(), self.said.len());
            self.bytes.extend_from_slice(&payload[2..]);
            self.said.extend_from_slice(&said);
            let (bytes, said) = ((begin, self.bytes.len()), (first, self.said.len()));
            self.messages.push(Message { bytes, said, moments: Moments::default() });
        }
        self.reader.said = said;
        Outcome::Heard(self.reader.said.len())
    }

    /// Hears what is said of a record at a moment, and its flushes at others.
    fn hear_record(&mut self, said: &Said, moment: u64, flushes: Option<&Moments>) {
        let Said { key, spelling, ttl, flush } = *said;
        self.newest = self.newest.max(moment);
        let hash = hash_of(u64::from(key.owner) << 16 | u64::from(key.kind), key.data[1], key.data[0]);
        let found = self.record_table.find(hash, |number| self.records[number as usize].key == key);
        let number = found.unwrap_or_else(|| {
            let set = self.set_of(&key);
            self.records.push(Record { key, spelling, moment, ttl, set });
            self.record_table.insert(hash, self.records.len() as u32 - 1);
            self.records.len() as u32 - 1
        });
        let record = &mut self.records[number as usize];
        let names = &self.reader.names;
        let by_spelling = || {
            let owners = names.compare(spelling[0], record.spelling[0]);
            owners.then_with(|| names.compare(spelling[1], record.spelling[1]))
        };
        if (moment, ttl).cmp(&(record.moment, record.ttl)).then_with(by_spelling).is_gt() {
            (record.moment, record.ttl, record.spelling) = (moment, ttl, spelling);
        }
        if flush {
            let moments = &mut self.sets[record.set as usize].moments;
            moments.add(moment);
            if let Some(others) = flushes {
                moments.add(others.before);
                others.recent.iter().for_each(|other| moments.add(*other));
            }
        }
    }

    fn set_of(&mut self, key: &Key) -> u32 {
        let owner = key.owner as usize;
        self.first_sets.resize(self.first_sets.len().max(owner + 1), u32::MAX);
        let (first, mut set) = (self.first_sets[owner], self.first_sets[owner]);
        while let Some(own) = self.sets.get(set as usize) {
            if own.kind == key.kind {
                return set;
            }
            set = own.next;
        }
        self.sets.push(Set { kind: key.kind, next: first, moments: Moments::default() });
        self.first_sets[owner] = self.sets.len() as u32 - 1;
        self.first_sets[owner]
    }

    /// Hears each message that is kept at those moments at which it came that count.
    pub fn finish(&mut self) {
        let (messages, said) = (std::mem::take(&mut self.messages), std::mem::take(&mut self.said));
        for Message { said: (first, end), moments, .. } in messages {
            said[first..end].iter().for_each(|said| self.hear_record(said, moments.last, Some(&moments)));
        }
        for moments in self.sets.iter_mut().map(|set| &mut set.moments).filter(|moments| !moments.recent.is_empty()) {
            moments.recent.extend([moments.before, moments.last]);
            moments.recent.sort_unstable();
        }
    }

    /// When a record ends if it is live at the newest hearing: after its life, or one second after the first flush that
    /// strikes it. A goodbye counts for one second.
    pub fn end_if_live(&self, record: &Record) -> Option<u64> {
        let life = record.moment + u64::from(record.ttl.max(1)) * SECOND;
        let flush = self.sets[record.set as usize].moments.first_after(record.moment + SECOND);
        let end = flush.map_or(life, |flush| life.min(flush + SECOND));
        (self.newest < end).then_some(end)
    }
}
