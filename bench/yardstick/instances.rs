//! Service instances among the live records (RFC 6763, sections 4 and 5).

use crate::cache::Live;
use crate::message::{Data, Name, TYPE_A, TYPE_AAAA, TYPE_PTR, TYPE_SRV, TYPE_TXT};
use crate::text::{write_data, write_name};
use std::collections::HashMap;
use std::io::{self, Write};

/// What follows the first label of the name of a service.
const PROTOCOLS: [&[u8]; 2] = [b"\x04_tcp\x05local\0", b"\x04_udp\x05local\0"];

/// The data of the live records by their sets, in order.
struct Sets<'a> {
    data: HashMap<(Name, u16), Vec<&'a Data>>,
}

/// Writes each instance with its servers, their addresses and its texts.
pub fn write_instances(out: &mut impl Write, live: &[Live<'_>]) -> io::Result<()> {
    let sets = Sets::of(live);
    for row in live {
        if let (TYPE_PTR, Data::Name(target)) = (row.kind.number, &row.record.data) {
            if is_service(&row.record.owner) && is_instance_of(&row.record.owner, target) {
                write_instance(out, &sets, target)?;
            }
        }
    }
    Ok(())
}

fn write_instance(out: &mut impl Write, sets: &Sets<'_>, name: &Name) -> io::Result<()> {
    write_name(out, name)?;
    out.write_all(b"\n")?;
    let servers = sets.of_name(name, TYPE_SRV);
    if servers.is_empty() {
        out.write_all(b"  unresolved\n")?;
    }
    for server in servers {
        write_server(out, sets, server)?;
    }
    for text in sets.of_name(name, TYPE_TXT) {
        write_line(out, "  text", text)?;
    }
    Ok(())
}

fn write_server(out: &mut impl Write, sets: &Sets<'_>, server: &Data) -> io::Result<()> {
    let Data::Server {
        priority,
        weight,
        port,
        target,
    } = server
    else {
        return Ok(());
    };
    out.write_all(b"  server ")?;
    write_name(out, target)?;
    writeln!(out, " {port} priority {priority} weight {weight}")?;
    for kind in [TYPE_A, TYPE_AAAA] {
        for address in sets.of_name(target, kind) {
            write_line(out, "    address", address)?;
        }
    }
    Ok(())
}

fn write_line(out: &mut impl Write, what: &str, data: &Data) -> io::Result<()> {
    out.write_all(what.as_bytes())?;
    write_data(out, data)?;
    out.write_all(b"\n")
}

impl<'a> Sets<'a> {
    fn of(live: &[Live<'a>]) -> Sets<'a> {
        let mut data = HashMap::<_, Vec<_>>::new();
        for row in live {
            let key = (row.record.owner.to_ascii_lowercase(), row.kind.number);
            data.entry(key).or_default().push(&row.record.data);
        }
        Sets { data }
    }

    fn of_name(&self, name: &Name, kind: u16) -> &[&'a Data] {
        let key = (name.to_ascii_lowercase(), kind);
        self.data.get(&key).map_or(&[], Vec::as_slice)
    }
}

/// What follows the first label of a name; none for the root.
fn after_label(name: &[u8]) -> Option<&[u8]> {
    match name[0] {
        0 => None,
        count => Some(&name[1 + usize::from(count)..]),
    }
}

fn is_service(name: &[u8]) -> bool {
    after_label(name).is_some_and(|rest| {
        PROTOCOLS
            .iter()
            .any(|protocol| rest.eq_ignore_ascii_case(protocol))
    })
}

fn is_instance_of(service: &[u8], name: &[u8]) -> bool {
    after_label(name).is_some_and(|rest| rest.eq_ignore_ascii_case(service))
}
