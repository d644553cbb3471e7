//! The yardstick: the job of `mdnsmerge records` in plain Rust, as it is usually written. Each hearing owns what it
//! says, and two ordered maps keep what was heard. It prints what `mdnsmerge records FILE...` prints, byte for byte.
//!
//!     yardstick [--instances | --lives] FILE...
//!
//! With `--instances` it prints what `mdnsmerge instances FILE...` prints, and with `--lives` what `mdnsmerge lives FILE...`
//! does.

mod cache;
mod capture;
mod frame;
mod instances;
mod lives;
mod message;
mod text;

use cache::Cache;
use capture::Capture;
use lives::Chronicle;
use message::Hearing;
use std::fs::File;
use std::io::{self, BufReader, BufWriter, Write};
use std::process::ExitCode;

/// The bytes that are read from a file at once.
const READ_AHEAD: usize = 65_536;

/// What is printed.
enum Ask {
    Records,
    Instances,
    Lives,
}

/// What the command line asks for.
struct Request {
    ask: Ask,
    files: Vec<String>,
}

/// Who hears captures.
trait Listener {
    /// Takes note of the moment of a packet, whatever it carries.
    fn pass(&mut self, _moment: u64) {}

    fn hear(&mut self, hearing: Hearing);
}

fn main() -> ExitCode {
    let request = requested(std::env::args().skip(1));
    match answered(&request) {
        Ok(()) => ExitCode::SUCCESS,
        Err(why) => {
            eprintln!("yardstick: {why}");
            ExitCode::from(2)
        }
    }
}

fn requested(words: impl Iterator<Item = String>) -> Request {
    let mut request = Request {
        ask: Ask::Records,
        files: Vec::new(),
    };
    for word in words {
        match word.as_str() {
            "--instances" => request.ask = Ask::Instances,
            "--lives" => request.ask = Ask::Lives,
            _ => request.files.push(word),
        }
    }
    request
}

fn answered(request: &Request) -> io::Result<()> {
    let mut out = BufWriter::new(io::stdout().lock());
    match request.ask {
        Ask::Records => {
            for live in listened::<Cache>(request)?.live() {
                text::write_line(&mut out, &live)?;
            }
        }
        Ask::Instances => {
            let cache = listened::<Cache>(request)?;
            let live: Vec<_> = cache.live().collect();
            instances::write_instances(&mut out, &live)?;
        }
        Ask::Lives => listened::<Chronicle>(request)?.write_lives(&mut out)?,
    }
    out.flush()
}

/// A listener that heard all files.
fn listened<L: Listener + Default>(request: &Request) -> io::Result<L> {
    let mut listener = L::default();
    for name in &request.files {
        listen(name, &mut listener)?;
    }
    Ok(listener)
}

/// Hears what a capture says, up to where it ends or is damaged.
fn listen(name: &str, listener: &mut impl Listener) -> io::Result<()> {
    let file = BufReader::with_capacity(READ_AHEAD, File::open(name)?);
    let mut capture = Capture::begin(file)?;
    while let Some(packet) = capture.next()? {
        listener.pass(packet.moment);
        let Some(payload) = frame::payload_of(packet.frame) else {
            continue;
        };
        // A message that is damaged, or no response, says nothing.
        for hearing in message::hearings(packet.moment, payload).unwrap_or_default() {
            listener.hear(hearing);
        }
    }
    Ok(())
}
