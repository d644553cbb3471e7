//! Classic pcap captures, version 2.4, of Ethernet frames.

use std::io::{self, ErrorKind, Read};

const SECOND: u64 = 1_000_000_000;
const FILE_HEADER: usize = 24;
const PACKET_HEADER: usize = 16;
const VERSION: (u16, u16) = (2, 4);
const ETHERNET: u16 = 1;

/// The greatest captured length that is taken.
const LONGEST: u32 = 262_144;

/// How the numbers of a capture are written.
#[derive(Clone, Copy)]
struct Layout {
    big_endian: bool,
    /// What a unit of a packet's fraction of a second has in nanoseconds.
    unit: u64,
}

/// A capture that is being read.
pub struct Capture<R> {
    reader: R,
    layout: Layout,
    frame: Vec<u8>,
}

/// One packet: its moment in nanoseconds since 1970, and what was captured of it.
pub struct Packet<'a> {
    pub moment: u64,
    pub frame: &'a [u8],
}

impl Layout {
    fn of_magic(magic: [u8; 4]) -> Option<Layout> {
        let (big_endian, unit) = match magic {
            [0xd4, 0xc3, 0xb2, 0xa1] => (false, 1_000),
            [0xa1, 0xb2, 0xc3, 0xd4] => (true, 1_000),
            [0x4d, 0x3c, 0xb2, 0xa1] => (false, 1),
            [0xa1, 0xb2, 0x3c, 0x4d] => (true, 1),
            _ => return None,
        };
        Some(Layout { big_endian, unit })
    }

    fn half(self, bytes: &[u8], at: usize) -> u16 {
        let two = [bytes[at], bytes[at + 1]];
        if self.big_endian {
            u16::from_be_bytes(two)
        } else {
            u16::from_le_bytes(two)
        }
    }

    fn word(self, bytes: &[u8], at: usize) -> u32 {
        let four = [bytes[at], bytes[at + 1], bytes[at + 2], bytes[at + 3]];
        if self.big_endian {
            u32::from_be_bytes(four)
        } else {
            u32::from_le_bytes(four)
        }
    }

    /// The low half of the link type word, which alone names the link type.
    fn link_type(self, header: &[u8; FILE_HEADER]) -> u16 {
        self.word(header, 20) as u16
    }
}

impl<R: Read> Capture<R> {
    pub fn begin(mut reader: R) -> io::Result<Capture<R>> {
        let mut header = [0; FILE_HEADER];
        reader.read_exact(&mut header)?;
        let magic = [header[0], header[1], header[2], header[3]];
        let layout = Layout::of_magic(magic).ok_or_else(|| refused("not a classic pcap file"))?;
        if (layout.half(&header, 4), layout.half(&header, 6)) != VERSION {
            return Err(refused("pcap version is not 2.4"));
        }
        if layout.link_type(&header) != ETHERNET {
            return Err(refused("link type is not Ethernet"));
        }
        Ok(Capture {
            reader,
            layout,
            frame: Vec::new(),
        })
    }

    /// The next packet; none where the capture ends or is damaged.
    pub fn next(&mut self) -> io::Result<Option<Packet<'_>>> {
        let mut header = [0; PACKET_HEADER];
        if !self.reader.read_exact(&mut header).and_whole()? {
            return Ok(None);
        }
        let seconds = u64::from(self.layout.word(&header, 0));
        let fraction = u64::from(self.layout.word(&header, 4)) * self.layout.unit;
        let length = self.layout.word(&header, 8);
        if fraction >= SECOND || length > LONGEST {
            return Ok(None);
        }
        self.frame.resize(length as usize, 0);
        if !self.reader.read_exact(&mut self.frame).and_whole()? {
            return Ok(None);
        }
        Ok(Some(Packet {
            moment: seconds * SECOND + fraction,
            frame: &self.frame,
        }))
    }
}

/// Whether all bytes were there; other failures of the reader stay failures.
trait AndWhole {
    fn and_whole(self) -> io::Result<bool>;
}

impl AndWhole for io::Result<()> {
    fn and_whole(self) -> io::Result<bool> {
        match self {
            Ok(()) => Ok(true),
            Err(error) if error.kind() == ErrorKind::UnexpectedEof => Ok(false),
            Err(error) => Err(error),
        }
    }
}

fn refused(why: &str) -> io::Error {
    io::Error::new(ErrorKind::InvalidData, why)
}
