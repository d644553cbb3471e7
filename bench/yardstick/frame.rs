//! Ethernet frames, and the Multicast DNS payloads that they carry.

const ETHERNET_SIZE: usize = 14;
const IPV4: u16 = 0x0800;
const IPV6: u16 = 0x86dd;
const IPV4_LEAST: usize = 20;
const IPV6_SIZE: usize = 40;
const UDP: u8 = 17;
const UDP_SIZE: usize = 8;
const PORT: u16 = 5353;

/// More-fragments and the fragment offset.
const FRAGMENT: u16 = 0x3fff;

const IPV4_GROUP: [u8; 4] = [224, 0, 0, 251];
const IPV6_GROUP: [u8; 16] = [0xff, 0x02, 0, 0, 0, 0, 0, 0, 0, 0, 0, 0, 0, 0, 0, 0xfb];

/// The payload of a frame from port 5353 to port 5353 of the group, if it carries one.
pub fn payload_of(frame: &[u8]) -> Option<&[u8]> {
    let packet = frame.get(ETHERNET_SIZE..)?;
    match half(frame, 12)? {
        IPV4 => udp_payload(ipv4_data(packet)?),
        IPV6 => udp_payload(ipv6_data(packet)?),
        _ => None,
    }
}

fn ipv4_data(packet: &[u8]) -> Option<&[u8]> {
    if packet.len() < IPV4_LEAST || packet[0] >> 4 != 4 {
        return None;
    }
    let header = 4 * usize::from(packet[0] & 0x0f);
    let is_whole = half(packet, 6)? & FRAGMENT == 0;
    if header < IPV4_LEAST || !is_whole || packet[9] != UDP || packet[16..20] != IPV4_GROUP {
        return None;
    }
    packet.get(header..usize::from(half(packet, 2)?))
}

fn ipv6_data(packet: &[u8]) -> Option<&[u8]> {
    if packet.len() < IPV6_SIZE || packet[0] >> 4 != 6 {
        return None;
    }
    if packet[6] != UDP || packet[24..40] != IPV6_GROUP {
        return None;
    }
    packet[IPV6_SIZE..].get(..usize::from(half(packet, 4)?))
}

fn udp_payload(datagram: &[u8]) -> Option<&[u8]> {
    if half(datagram, 0)? != PORT || half(datagram, 2)? != PORT {
        return None;
    }
    datagram.get(UDP_SIZE..usize::from(half(datagram, 4)?))
}

fn half(bytes: &[u8], at: usize) -> Option<u16> {
    let two = bytes.get(at..at + 2)?;
    Some(u16::from_be_bytes([two[0], two[1]]))
}
