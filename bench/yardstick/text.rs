//! The lines of live records.

use crate::cache::{Live, SECOND};
use crate::message::{Data, Kind, Record};
use std::io::{self, Write};

/// Writes the line of a live record.
pub fn write_line(out: &mut impl Write, live: &Live<'_>) -> io::Result<()> {
    write_record(out, live.kind, live.record)?;
    write!(out, " ttl {} heard ", live.ttl)?;
    write_moment(out, live.moment)?;
    out.write_all(b" until ")?;
    write_moment(out, live.end)?;
    out.write_all(b"\n")
}

/// Writes the owner of a record, its type and its data.
pub fn write_record(out: &mut impl Write, kind: &Kind, record: &Record) -> io::Result<()> {
    write_name(out, &record.owner)?;
    write!(out, " {}", kind.name)?;
    write_data(out, &record.data)
}

/// Writes each word of the data after a space.
pub fn write_data(out: &mut impl Write, data: &Data) -> io::Result<()> {
    match data {
        Data::Ipv4([a, b, c, d]) => write!(out, " {a}.{b}.{c}.{d}"),
        Data::Ipv6(address) => write_ipv6(out, address),
        Data::Name(target) => write_name_word(out, target),
        Data::Strings(text) => write_texts(out, text),
        Data::Server {
            priority,
            weight,
            port,
            target,
        } => {
            write!(out, " {priority} {weight} {port}")?;
            write_name_word(out, target)
        }
    }
}

fn write_name_word(out: &mut impl Write, name: &[u8]) -> io::Result<()> {
    out.write_all(b" ")?;
    write_name(out, name)
}

/// Writes a name: its labels with a dot between them, the root as a dot.
pub fn write_name(out: &mut impl Write, name: &[u8]) -> io::Result<()> {
    if name[0] == 0 {
        return out.write_all(b".");
    }
    let mut at = 0;
    while name[at] != 0 {
        if at > 0 {
            out.write_all(b".")?;
        }
        let behind = at + 1 + usize::from(name[at]);
        write_label(out, &name[at + 1..behind])?;
        at = behind;
    }
    Ok(())
}

fn write_label(out: &mut impl Write, label: &[u8]) -> io::Result<()> {
    for &byte in label {
        if byte == b'.' {
            out.write_all(b"\\.")?;
        } else {
            write_byte(out, byte)?;
        }
    }
    Ok(())
}

fn write_byte(out: &mut impl Write, byte: u8) -> io::Result<()> {
    match byte {
        b'\\' => out.write_all(b"\\\\"),
        0x21..=0x7e => out.write_all(&[byte]),
        _ => write!(out, "\\{byte:03}"),
    }
}

/// Writes each string of TXT data that isn't empty; a last one that is cut short is taken as far as it goes.
fn write_texts(out: &mut impl Write, text: &[u8]) -> io::Result<()> {
    let mut rest = text;
    while let Some((&count, behind)) = rest.split_first() {
        let (string, after) = behind.split_at(usize::from(count).min(behind.len()));
        write_string(out, string)?;
        rest = after;
    }
    Ok(())
}

fn write_string(out: &mut impl Write, string: &[u8]) -> io::Result<()> {
    if string.is_empty() {
        return Ok(());
    }
    out.write_all(b" ")?;
    for &byte in string {
        write_byte(out, byte)?;
    }
    Ok(())
}

fn write_ipv6(out: &mut impl Write, address: &[u8; 16]) -> io::Result<()> {
    let mut mark = ' ';
    for group in address.chunks_exact(2) {
        write!(out, "{mark}{:02x}{:02x}", group[0], group[1])?;
        mark = ':';
    }
    Ok(())
}

/// Writes a moment as its seconds and nine digits of nanoseconds.
pub fn write_moment(out: &mut impl Write, moment: u64) -> io::Result<()> {
    write!(out, "{}.{:09}", moment / SECOND, moment % SECOND)
}
