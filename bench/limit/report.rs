//! The lines of live records, in the order of their keys.

use crate::cache::{Cache, Record};
use crate::message::{of_kind, Form};
use crate::names::{Names, ROOT};
use crate::SECOND;
use std::io::{self, Write};

/// The bytes of text that are written at once.
const TOGETHER: usize = 65_536;

/// Writes a line for each live record.
pub fn write_records(out: &mut impl Write, cache: &mut Cache) -> io::Result<()> {
    cache.finish();
    let mut text = Vec::with_capacity(2 * TOGETHER);
    for (_, _, number, end) in in_order(cache) {
        add_line(&mut text, cache, &cache.records[number as usize], end);
        if text.len() >= TOGETHER {
            out.write_all(&text)?;
            text.clear();
        }
    }
    out.write_all(&text)
}

/// Of each live record its set and data, with places in order for names and texts; its number, and its end.
fn in_order(cache: &Cache) -> Vec<(u64, [u64; 2], u32, u64)> {
    let (mut live, mut asked) = (Vec::new(), Vec::new());
    for (number, record) in (0..).zip(&cache.records) {
        if let Some(end) = cache.end_if_live(record) {
            live.push((record.key.owner.into(), record.key.data, number, end));
            asked.push(record.key.owner);
            asked.extend(number_in(&mut record.key.data.clone(), record.key.kind).map(|number| *number as u32));
        }
    }
    let ranks = cache.reader.names.ranks(&asked);
    for (set, data, number, _) in &mut live {
        let kind = cache.records[*number as usize].key.kind;
        *set = u64::from(ranks[*set as usize]) << 16 | u64::from(kind);
        number_in(data, kind).into_iter().for_each(|number| *number = ranks[*number as usize].into());
    }
    live.sort_unstable();
    live
}

/// The number of a name or text in the data of a record.
fn number_in(data: &mut [u64; 2], kind: u16) -> Option<&mut u64> {
    match of_kind(kind, |_, form| form)? {
        Form::Name | Form::Strings => Some(&mut data[0]),
        Form::Service => Some(&mut data[1]),
        Form::Ipv4 | Form::Ipv6 => None,
    }
}

fn add_line(text: &mut Vec<u8>, cache: &Cache, record: &Record, end: u64) {
    let (names, [first, second]) = (&cache.reader.names, record.key.data);
    add_name(text, names, record.spelling[0]);
    let form = of_kind(record.key.kind, |name, form| {
        text.extend_from_slice(name);
        form
    });
    match form {
        Some(Form::Ipv4) => {
            add_number(text, b"", first >> 24, 1);
            [16, 8, 0].iter().for_each(|place| add_number(text, b".", first >> place & 0xff, 1));
        }
        Some(Form::Ipv6) => add_ipv6(text, [first, second]),
        Some(Form::Strings) => add_strings(text, names.label(first as u32)),
        Some(Form::Name) => add_name(text, names, record.spelling[1]),
        Some(Form::Service) => {
            add_number(text, b"", first >> 32, 1);
            [16, 0].iter().for_each(|place| add_number(text, b" ", first >> place & 0xffff, 1));
            text.push(b' ');
            add_name(text, names, record.spelling[1]);
        }
        None => {}
    }
    add_number(text, b" ttl ", record.ttl.into(), 1);
    for (what, moment) in [(b" heard ", record.moment), (b" until ", end)] {
        add_number(text, what, moment / SECOND, 1);
        add_number(text, b".", moment % SECOND, 9);
    }
    text.push(b'\n');
}

fn add_name(text: &mut Vec<u8>, names: &Names, mut name: u32) {
    if name == ROOT {
        return text.push(b'.');
    }
    loop {
        for &byte in &names.label(name)[1..] {
            text.extend((byte == b'.').then_some(b'\\'));
            add_byte(text, byte);
        }
        name = names.nodes[name as usize].rest;
        if name == ROOT {
            return;
        }
        text.push(b'.');
    }
}

fn add_byte(text: &mut Vec<u8>, byte: u8) {
    match byte {
        b'\\' => text.extend_from_slice(b"\\\\"),
        0x21..=0x7e => text.push(byte),
        _ => text.extend_from_slice(&[b'\\', b'0' + byte / 100, b'0' + byte / 10 % 10, b'0' + byte % 10]),
    }
}

/// Adds each string that isn't empty, after a space; the last one as far as it goes.
fn add_strings(text: &mut Vec<u8>, mut strings: &[u8]) {
    while let Some((&count, rest)) = strings.split_first() {
        let (string, after) = rest.split_at(rest.len().min(count.into()));
        text.extend(string.first().map(|_| b' '));
        string.iter().for_each(|&byte| add_byte(text, byte));
        strings = after;
    }
}

fn add_ipv6(text: &mut Vec<u8>, halves: [u64; 2]) {
    for place in 0..32 {
        text.extend((place > 0 && place % 4 == 0).then_some(b':'));
        text.push(b"0123456789abcdef"[(halves[place / 16] >> (60 - place % 16 * 4) & 0xf) as usize]);
    }
}

/// Adds what stands before a number, and its digits, at least so many.
#[inline]
fn add_number(text: &mut Vec<u8>, before: &[u8], number: u64, least: usize) {
    text.extend_from_slice(before);
    add_digits(text, number, number.checked_ilog10().map_or(1, |log| log as usize + 1).max(least));
}

fn add_digits(text: &mut Vec<u8>, mut number: u64, count: usize) {
    let mut digits = [b'0'; 20];
    for digit in digits[..count].iter_mut().rev() {
        *digit += (number % 10) as u8;
        number /= 10;
    }
    text.extend_from_slice(&digits[..count]);
}
