//! What was heard: of each record its last hearing, of each record set its flush moments.

use crate::message::{Data, Hearing, Kind, Name, Record};
use crate::Listener;
use std::collections::{BTreeMap, BTreeSet};

pub const SECOND: u64 = 1_000_000_000;

/// A record set: the folded owner and the type.
#[derive(Clone, PartialEq, Eq, PartialOrd, Ord)]
pub struct SetKey {
    pub owner: Name,
    pub kind: u16,
}

/// A record, whatever its spelling: its set, and its data with the names in it folded.
#[derive(PartialEq, Eq, PartialOrd, Ord)]
pub struct Key {
    pub set: SetKey,
    data: Vec<u8>,
}

/// The last hearing of a record: the greatest by moment, then TTL, then spelling.
#[derive(PartialEq, Eq, PartialOrd, Ord)]
pub struct Latest {
    pub moment: u64,
    pub ttl: u32,
    pub record: Record,
}

#[derive(Default)]
pub struct Cache {
    records: BTreeMap<Key, Latest>,
    flushes: BTreeMap<SetKey, BTreeSet<u64>>,
    newest: u64,
}

/// A live record, as it was heard last, and the moment at which it ends.
pub struct Live<'a> {
    pub kind: &'static Kind,
    pub record: &'a Record,
    pub ttl: u32,
    pub moment: u64,
    pub end: u64,
}

impl Listener for Cache {
    fn hear(&mut self, hearing: Hearing) {
        self.newest = self.newest.max(hearing.moment);
        let key = Key::of(hearing.kind, &hearing.record);
        if hearing.flush {
            keep(
                self.flushes.entry(key.set.clone()).or_default(),
                hearing.moment,
            );
        }
        let heard = Latest::of(hearing);
        match self.records.get_mut(&key) {
            Some(latest) if *latest < heard => *latest = heard,
            Some(_) => {}
            None => {
                self.records.insert(key, heard);
            }
        }
    }
}

impl Cache {
    /// The records that are live at the newest hearing, in the order of their keys.
    pub fn live(&self) -> impl Iterator<Item = Live<'_>> {
        self.records.iter().filter_map(|(key, latest)| {
            let kind = Kind::of(key.set.kind)?;
            let end = self.end_of(key, latest);
            let Latest {
                moment,
                ttl,
                record,
            } = latest;
            (self.newest < end).then_some(Live {
                kind,
                record,
                ttl: *ttl,
                moment: *moment,
                end,
            })
        })
    }

    /// When a record ends: after its life, or one second after a flush that strikes it, whichever is first.
    fn end_of(&self, key: &Key, latest: &Latest) -> u64 {
        let alone = latest.moment + life_of(latest.ttl);
        let struck = self
            .flushes
            .get(&key.set)
            .and_then(|moments| moments.range(spared_by(latest.moment) + 1..).next());
        struck.map_or(alone, |flush| alone.min(flush + SECOND))
    }
}

/// How long a record of a TTL is live, in nanoseconds. A goodbye stands for one second (RFC 6762, section 10.1).
pub fn life_of(ttl: u32) -> u64 {
    u64::from(ttl.max(1)) * SECOND
}

/// The last moment of a flush that spares what was heard at a moment: it spares the second before it (RFC 6762, section
/// 10.2).
pub fn spared_by(moment: u64) -> u64 {
    moment + SECOND
}

/// Adds a flush moment, and keeps of all those of the last second and the last one before it: no other can end a
/// record that is live at the newest hearing.
fn keep(moments: &mut BTreeSet<u64>, moment: u64) {
    moments.insert(moment);
    while second_is_old(moments) {
        moments.pop_first();
    }
}

fn second_is_old(moments: &BTreeSet<u64>) -> bool {
    match (moments.iter().nth(1), moments.last()) {
        (Some(second), Some(newest)) => second + SECOND <= *newest,
        _ => false,
    }
}

impl Latest {
    pub fn of(hearing: Hearing) -> Latest {
        Latest {
            moment: hearing.moment,
            ttl: hearing.ttl,
            record: hearing.record,
        }
    }
}

impl Key {
    pub fn of(kind: &Kind, record: &Record) -> Key {
        let set = SetKey {
            owner: folded(&record.owner),
            kind: kind.number,
        };
        Key {
            set,
            data: key_data(&record.data),
        }
    }
}

/// The bytes of a record's data, the names in it folded and uncompressed.
fn key_data(data: &Data) -> Vec<u8> {
    match data {
        Data::Ipv4(address) => address.to_vec(),
        Data::Ipv6(address) => address.to_vec(),
        Data::Name(target) => folded(target),
        Data::Strings(text) => text.clone(),
        Data::Server {
            priority,
            weight,
            port,
            target,
        } => {
            let mut bytes = Vec::with_capacity(6 + target.len());
            bytes.extend_from_slice(&priority.to_be_bytes());
            bytes.extend_from_slice(&weight.to_be_bytes());
            bytes.extend_from_slice(&port.to_be_bytes());
            bytes.extend(target.iter().map(u8::to_ascii_lowercase));
            bytes
        }
    }
}

/// A name in lower case. A length octet is at most 63, which is below the letters.
fn folded(name: &[u8]) -> Name {
    name.to_ascii_lowercase()
}
