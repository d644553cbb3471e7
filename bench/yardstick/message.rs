//! Multicast DNS responses, and the hearings that they carry.

const HEADER: usize = 12;
const RESPONSE: u16 = 0x8000;

/// OPCODE and RCODE, which are 0 in messages that count (RFC 6762, section 18).
const IGNORED: u16 = 0x780f;

const CACHE_FLUSH: u16 = 0x8000;
const CLASS_IN: u16 = 1;

const LABEL_LIMIT: u8 = 63;

/// The longest name, its final zero included (RFC 6762, Appendix C).
const NAME_LIMIT: usize = 256;

/// The least first octet of a pointer, and the bits of a pointer that are its target.
const POINTER: u8 = 0xc0;
const TARGET: u16 = 0x3fff;

pub const TYPE_A: u16 = 1;
pub const TYPE_PTR: u16 = 12;
pub const TYPE_TXT: u16 = 16;
pub const TYPE_AAAA: u16 = 28;
pub const TYPE_SRV: u16 = 33;

/// An uncompressed wire form of a name.
pub type Name = Vec<u8>;

/// A type whose records are kept, and how its data is read. The reader has just taken the bytes of the data.
pub struct Kind {
    pub number: u16,
    pub name: &'static str,
    data: fn(&Reader<'_>, &[u8]) -> Option<Data>,
}

static KINDS: &[Kind] = &[
    Kind {
        number: TYPE_A,
        name: "A",
        data: |_, bytes| Some(Data::Ipv4(bytes.try_into().ok()?)),
    },
    Kind {
        number: TYPE_PTR,
        name: "PTR",
        data: |reader, bytes| Some(Data::Name(reader.name_filling(bytes.len())?)),
    },
    Kind {
        number: TYPE_TXT,
        name: "TXT",
        data: |_, bytes| Some(Data::Strings(bytes.to_vec())),
    },
    Kind {
        number: TYPE_AAAA,
        name: "AAAA",
        data: |_, bytes| Some(Data::Ipv6(bytes.try_into().ok()?)),
    },
    Kind {
        number: TYPE_SRV,
        name: "SRV",
        data: |reader, bytes| {
            Some(Data::Server {
                target: reader.name_filling(bytes.len().checked_sub(6)?)?,
                priority: half(bytes, 0),
                weight: half(bytes, 2),
                port: half(bytes, 4),
            })
        },
    },
];

/// What a record says, by the form of its data. The order is that of the data's bytes, between records of one type.
#[derive(PartialEq, Eq, PartialOrd, Ord)]
pub enum Data {
    Ipv4([u8; 4]),
    Ipv6([u8; 16]),
    Name(Name),
    Strings(Vec<u8>),
    Server {
        priority: u16,
        weight: u16,
        port: u16,
        target: Name,
    },
}

#[derive(PartialEq, Eq, PartialOrd, Ord)]
pub struct Record {
    pub owner: Name,
    pub data: Data,
}

/// One record, as it was heard in a response.
pub struct Hearing {
    pub moment: u64,
    pub kind: &'static Kind,
    pub record: Record,
    pub ttl: u32,
    pub flush: bool,
}

impl Kind {
    /// The type of a number, if its records are kept.
    pub fn of(number: u16) -> Option<&'static Kind> {
        KINDS.iter().find(|kind| kind.number == number)
    }
}

/// The hearings of a message, in its order; none where it is damaged, or no response.
pub fn hearings(moment: u64, message: &[u8]) -> Option<Vec<Hearing>> {
    let mut reader = Reader {
        message,
        at: HEADER,
    };
    let counts = reader.counts()?;
    for _ in 0..counts.questions {
        reader.question()?;
    }
    let mut heard = Vec::new();
    for _ in 0..counts.answers {
        heard.extend(reader.record(moment)?);
    }
    for _ in 0..counts.authority {
        reader.passed_record()?;
    }
    for _ in 0..counts.additional {
        heard.extend(reader.record(moment)?);
    }
    Some(heard)
}

/// How many items a message has of each kind.
struct Counts {
    questions: u16,
    answers: u16,
    authority: u16,
    additional: u16,
}

/// What stands between the owner of a record and its data.
struct Fixed {
    kind: u16,
    class: u16,
    ttl: u32,
    length: usize,
}

/// A place in a message. What is read moves it on; none is given where the message is damaged there.
struct Reader<'a> {
    message: &'a [u8],
    at: usize,
}

impl<'a> Reader<'a> {
    /// The counts of the header, if it is that of a response that counts.
    fn counts(&self) -> Option<Counts> {
        let header = self.message.get(..HEADER)?;
        let flags = half(header, 2);
        if flags & RESPONSE == 0 || flags & IGNORED != 0 {
            return None;
        }
        Some(Counts {
            questions: half(header, 4),
            answers: half(header, 6),
            authority: half(header, 8),
            additional: half(header, 10),
        })
    }

    fn question(&mut self) -> Option<()> {
        self.name()?;
        self.take(4)?;
        Some(())
    }

    /// Steps over a record. Its owner counts all the same.
    fn passed_record(&mut self) -> Option<()> {
        self.name()?;
        let fixed = self.fixed()?;
        self.take(fixed.length)?;
        Some(())
    }

    /// Reads a record, and gives it if it is of a kind that is kept.
    fn record(&mut self, moment: u64) -> Option<Option<Hearing>> {
        let owner = self.name()?;
        let fixed = self.fixed()?;
        let bytes = self.take(fixed.length)?;
        if fixed.class & !CACHE_FLUSH != CLASS_IN {
            return Some(None);
        }
        let Some(kind) = Kind::of(fixed.kind) else {
            return Some(None);
        };
        let data = (kind.data)(self, bytes)?;
        let flush = fixed.class & CACHE_FLUSH != 0;
        Some(Some(Hearing {
            moment,
            kind,
            record: Record { owner, data },
            ttl: fixed.ttl,
            flush,
        }))
    }

    fn fixed(&mut self) -> Option<Fixed> {
        let bytes = self.take(10)?;
        Some(Fixed {
            kind: half(bytes, 0),
            class: half(bytes, 2),
            ttl: u32::from(half(bytes, 4)) << 16 | u32::from(half(bytes, 6)),
            length: usize::from(half(bytes, 8)),
        })
    }

    /// The name that fills the last bytes of what was just taken, if they are so many and not none.
    fn name_filling(&self, count: usize) -> Option<Name> {
        let at = self.at - count;
        let mut reader = Reader {
            message: self.message,
            at,
        };
        let name = reader.name()?;
        (count > 0 && reader.at == self.at).then_some(name)
    }

    fn name(&mut self) -> Option<Name> {
        let (name, behind) = name_at(self.message, self.at)?;
        self.at = behind;
        Some(name)
    }

    fn take(&mut self, count: usize) -> Option<&'a [u8]> {
        let bytes = self.message.get(self.at..)?.get(..count)?;
        self.at += count;
        Some(bytes)
    }
}

/// The name at a place, and the place behind it: behind its zero octet or its first pointer. A pointer leads before
/// the run of labels that it ends, so that reading ends.
fn name_at(message: &[u8], at: usize) -> Option<(Name, usize)> {
    let mut name = Name::new();
    let mut run = at;
    let mut place = at;
    let mut behind = None;
    loop {
        let octet = *message.get(place)?;
        if octet == 0 {
            name.push(0);
            return Some((name, behind.unwrap_or(place + 1)));
        }
        if octet <= LABEL_LIMIT {
            let label = message.get(place..place + 1 + usize::from(octet))?;
            if name.len() + label.len() + 1 > NAME_LIMIT {
                return None;
            }
            name.extend_from_slice(label);
            place += label.len();
            continue;
        }
        if octet < POINTER || place + 1 == message.len() {
            return None;
        }
        let target = usize::from(half(message, place) & TARGET);
        if target >= run {
            return None;
        }
        behind = behind.or(Some(place + 2));
        run = target;
        place = target;
    }
}

fn half(bytes: &[u8], at: usize) -> u16 {
    u16::from_be_bytes([bytes[at], bytes[at + 1]])
}
