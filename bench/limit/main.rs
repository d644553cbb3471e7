//! The limit: `mdnsmerge records` and `mdnsmerge check` in plain Rust with its standard library, as fast as one core
//! does them. A message that came before costs a comparison; of others each name, text and record is kept once, in hash
//! tables, and all is sorted once at the end.
//!
//!     limit records FILE...
//!     limit check FILE...

mod cache;
mod message;
mod names;
mod report;

use cache::{Cache, Outcome};
use message::half;
use std::ffi::{OsStr, OsString};
use std::fs::File;
use std::io::{self, ErrorKind, Read, Write};
use std::os::unix::ffi::OsStrExt;
use std::process::ExitCode;

pub const SECOND: u64 = 1_000_000_000;
const FILE_HEADER: usize = 24;
const PACKET_HEADER: usize = 16;
const LONGEST: usize = 262_144;
const IPV6_GROUP: [u8; 16] = [0xff, 0x02, 0, 0, 0, 0, 0, 0, 0, 0, 0, 0, 0, 0, 0, 0xfb];

/// The bytes that are read ahead: more than the longest packet, and few enough for the processor's second cache.
const BUFFER: usize = 393_216;

fn main() -> ExitCode {
    let words: Vec<OsString> = std::env::args_os().skip(1).collect();
    let answer = match words.split_first() {
        Some((ask, files)) if ask == "records" || ask == "check" => answered(ask == "check", files),
        _ => Err("limit records FILE..., or limit check FILE...".to_string()),
    };
    match answer {
        Ok(is_whole) => ExitCode::from(u8::from(!is_whole)),
        Err(why) => {
            eprintln!("limit: {why}");
            ExitCode::from(2)
        }
    }
}

/// Prints what is asked for, and answers whether all captures were whole.
fn answered(is_check: bool, files: &[OsString]) -> Result<bool, String> {
    let (mut cache, mut buffer, mut lines, mut is_whole) = (Cache::default(), vec![0; BUFFER], Vec::new(), true);
    for name in files {
        let [mut skipped, mut refused, mut messages, mut hearings] = [0; 4];
        let ending = read(name, &mut buffer, |moment, frame| {
            match payload_of(frame).map_or(Outcome::Skipped, |payload| cache.hear(moment, payload)) {
                Outcome::Skipped => skipped += 1,
                Outcome::Refused => refused += 1,
                Outcome::Heard(count) => (messages, hearings) = (messages + 1, hearings + count),
            }
        });
        let ending = ending.map_err(|why| format!("{}: {why}", name.to_string_lossy()))?;
        is_whole &= ending == "whole";
        lines.extend_from_slice(name.as_bytes());
        let counts = format!("skipped {skipped} refused {refused} messages {messages} hearings {hearings}");
        lines.extend(format!(": packets {} {counts} {ending}\n", skipped + refused + messages).into_bytes());
    }
    let mut out = io::stdout().lock();
    let written = if is_check { out.write_all(&lines) } else { report::write_records(&mut out, &mut cache) };
    written.map(|()| is_whole).map_err(|error| error.to_string())
}

/// Reads a capture, gives each packet's moment and frame to a function, and answers how the capture ends.
fn read(name: &OsStr, buffer: &mut [u8], mut take: impl FnMut(u64, &[u8])) -> Result<String, String> {
    let mut file = File::open(name).map_err(|error| error.to_string())?;
    let (mut format, mut offset, mut end) = (None, 0, 0);
    loop {
        let count = match file.read(&mut buffer[end..]) {
            Err(error) if error.kind() == ErrorKind::Interrupted => continue,
            count => count.map_err(|error| error.to_string())?,
        };
        end += count;
        let mut begin = 0;
        if format.is_none() && end >= FILE_HEADER {
            format = Some(Format::of(&buffer[..FILE_HEADER])?);
            begin = FILE_HEADER;
        }
        while let Some(next) = format.as_ref().and_then(|format| format.next(&buffer[begin..end])) {
            match next {
                Ok((moment, frame)) => take(moment, frame),
                Err(what) => return Ok(format!("{what} out of range at {}", offset + begin)),
            }
            begin += PACKET_HEADER + next.map_or(0, |(_, frame)| frame.len());
        }
        if count == 0 {
            let ending = if begin == end { "whole".to_string() } else { format!("cut at {}", offset + begin) };
            return format.map(|_| ending).ok_or("shorter than a pcap file header".to_string());
        }
        buffer.copy_within(begin..end, 0);
        (offset, end) = (offset + begin, end - begin);
    }
}

/// How a capture writes numbers.
struct Format {
    is_big: bool,
    unit: u64,
}

impl Format {
    fn of(header: &[u8]) -> Result<Format, &'static str> {
        let (is_big, unit) = match header[..4] {
            [0xd4, 0xc3, 0xb2, 0xa1] => (false, 1000),
            [0xa1, 0xb2, 0xc3, 0xd4] => (true, 1000),
            [0x4d, 0x3c, 0xb2, 0xa1] => (false, 1),
            [0xa1, 0xb2, 0x3c, 0x4d] => (true, 1),
            _ => return Err("not a classic pcap file"),
        };
        let format = Format { is_big, unit };
        // Version 2.4, in two halves, and Ethernet in the low half of its word.
        match (format.word(header, 4).rotate_left(if is_big { 0 } else { 16 }), format.word(header, 20) & 0xffff) {
            (0x0002_0004, 1) => Ok(format),
            (0x0002_0004, _) => Err("link type is not Ethernet"),
            _ => Err("pcap version is not 2.4"),
        }
    }

    fn word(&self, bytes: &[u8], at: usize) -> u32 {
        let four = [bytes[at], bytes[at + 1], bytes[at + 2], bytes[at + 3]];
        if self.is_big { u32::from_be_bytes(four) } else { u32::from_le_bytes(four) }
    }

    /// The moment and the frame of the packet at the front, or what is wrong with it; none where it isn't whole.
    fn next<'a>(&self, bytes: &'a [u8]) -> Option<Result<(u64, &'a [u8]), &'static str>> {
        let header = bytes.get(..PACKET_HEADER)?;
        let fraction = u64::from(self.word(header, 4)) * self.unit;
        let length = self.word(header, 8) as usize;
        if fraction >= SECOND || length > LONGEST {
            return Some(Err(if fraction >= SECOND { "fraction" } else { "captured length" }));
        }
        let frame = bytes.get(PACKET_HEADER..PACKET_HEADER + length)?;
        Some(Ok((u64::from(self.word(header, 0)) * SECOND + fraction, frame)))
    }
}

/// The payload of a frame from port 5353 to port 5353 of the group of Multicast DNS, if it carries one.
fn payload_of(frame: &[u8]) -> Option<&[u8]> {
    let packet = frame.get(14..)?;
    let datagram = match (&frame[12..14], packet.first()? >> 4) {
        ([0x08, 0x00], 4) if packet.len() >= 20 && packet[9] == 17 && packet[16..20] == [224, 0, 0, 251] => {
            let size = 4 * usize::from(packet[0] & 0x0f);
            // A fragment carries no whole datagram.
            let is_whole = size >= 20 && half(packet, 6) & 0x3fff == 0;
            packet.get(size..half(packet, 2)).filter(|_| is_whole)?
        }
        ([0x86, 0xdd], 6) if packet.len() >= 40 && packet[6] == 17 && packet[24..40] == IPV6_GROUP => {
            packet[40..].get(..half(packet, 4))?
        }
        _ => return None,
    };
    let is_ours = datagram.len() >= 8 && datagram[..4] == [0x14, 0xe9, 0x14, 0xe9];
    datagram.get(8..half(datagram.get(4..6)?, 0)).filter(|_| is_ours)
}
