//! When each record was live. All hearings of each record and all flush moments of each set are kept, and sorted at the end.

use crate::cache::{life_of, spared_by, Key, Latest, SetKey, SECOND};
use crate::message::{Hearing, Kind};
use crate::text::{write_moment, write_record};
use crate::Listener;
use std::collections::BTreeMap;
use std::io::{self, Write};

/// Everything that was heard, and the moment of the latest packet.
#[derive(Default)]
pub struct Chronicle {
    records: BTreeMap<Key, Account>,
    flushes: BTreeMap<SetKey, Vec<u64>>,
    end: u64,
}

/// The last hearing of a record, and the moments and TTLs of all its hearings.
struct Account {
    last: Latest,
    heard: Vec<(u64, u32)>,
}

/// A stretch in which a record is live, with its last hearing.
struct Life {
    from: u64,
    ttl: u32,
    heard: u64,
    until: u64,
    reason: &'static str,
}

impl Listener for Chronicle {
    fn pass(&mut self, moment: u64) {
        self.end = self.end.max(moment);
    }

    fn hear(&mut self, hearing: Hearing) {
        let key = Key::of(hearing.kind, &hearing.record);
        let (moment, ttl) = (hearing.moment, hearing.ttl);
        if hearing.flush {
            let moments = self.flushes.entry(key.set.clone()).or_default();
            moments.push(moment);
        }
        let heard = Latest::of(hearing);
        match self.records.get_mut(&key) {
            Some(account) => account.add(heard),
            None => {
                let account = Account {
                    last: heard,
                    heard: vec![(moment, ttl)],
                };
                self.records.insert(key, account);
            }
        }
    }
}

impl Chronicle {
    /// Writes a line for each life, the records in the order of their keys.
    pub fn write_lives(&mut self, out: &mut impl Write) -> io::Result<()> {
        self.flushes
            .values_mut()
            .for_each(|moments| moments.sort_unstable());
        for (key, account) in &mut self.records {
            let Some(kind) = Kind::of(key.set.kind) else {
                continue;
            };
            account.heard.sort_unstable();
            let flushes = self.flushes.get(&key.set).map_or(&[][..], Vec::as_slice);
            for life in lives_of(&account.heard, flushes) {
                write_record(out, kind, &account.last.record)?;
                life.write(out, self.end)?;
            }
        }
        Ok(())
    }
}

impl Account {
    fn add(&mut self, heard: Latest) {
        self.heard.push((heard.moment, heard.ttl));
        if self.last < heard {
            self.last = heard;
        }
    }
}

/// The lives by hearings and flush moments in order. A hearing within a life or at its end goes on with it, and takes over
/// how it ends; of those of one moment the last has the greatest TTL.
fn lives_of(heard: &[(u64, u32)], flushes: &[u64]) -> Vec<Life> {
    let mut lives: Vec<Life> = Vec::new();
    for &(moment, ttl) in heard {
        let next = Life::begun(moment, ttl, flushes);
        match lives.last_mut() {
            Some(life) if moment <= life.until => {
                *life = Life {
                    from: life.from,
                    ..next
                }
            }
            _ => lives.push(next),
        }
    }
    lives
}

impl Life {
    /// The life that a hearing begins, up to its end if nothing follows.
    fn begun(moment: u64, ttl: u32, flushes: &[u64]) -> Life {
        let alone = moment + life_of(ttl);
        let next = flushes.partition_point(|&flush| flush <= spared_by(moment));
        let struck = flushes.get(next).map(|flush| flush + SECOND);
        let until = struck.map_or(alone, |end| end.min(alone));
        let reason = match ttl {
            0 => "goodbye",
            _ if until == alone => "expired",
            _ => "flushed",
        };
        Life {
            from: moment,
            ttl,
            heard: moment,
            until,
            reason,
        }
    }

    /// Writes what follows a record in a line, where the captures end at a moment.
    fn write(&self, out: &mut impl Write, end: u64) -> io::Result<()> {
        out.write_all(b" from ")?;
        write_moment(out, self.from)?;
        write!(out, " ttl {} heard ", self.ttl)?;
        write_moment(out, self.heard)?;
        out.write_all(b" until ")?;
        write_moment(out, self.until)?;
        let word = if self.until > end {
            "live"
        } else {
            self.reason
        };
        writeln!(out, " {word}")
    }
}
