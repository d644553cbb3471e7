"""The hearings of a capture, read from its bytes apart from the programs: frames by RFC 791, 8200 and 768, messages by RFC 1035
and 6762."""

import struct
from functools import lru_cache
from typing import NamedTuple

from tests.captures.wire import CACHE_FLUSH, IN, IPV4_GROUP, IPV6_GROUP, PORT, TYPES, UDP, Content
from tests.judges.savefile import frames_in

IPV4, IPV6 = 0x0800, 0x86DD
ETHERNET_HEADER, IPV4_HEADER, IPV6_HEADER, UDP_HEADER = 14, 20, 40, 8

# The EtherTypes of VLAN tags (IEEE 802.1Q).
TAGS = (0x8100, 0x88A8)

# The number of the IPv6 fragment header (RFC 8200 section 4.5), and those of other extension headers (RFC 7045 section 4).
FRAGMENT_HEADER = 44
EXTENSIONS = (0, 43, 50, 51, 60, 135, 139, 140, 253, 254)

# Those that may come before a fragment header: hop-by-hop options, routing, destination options (RFC 8200 section 4.1).
BEFORE_FRAGMENTS = (0, 43, 60)

CUT_HEADER, CUT, MALFORMED = "cut within the IP header", "cut within the datagram", "malformed IP header"
LENGTH, DAMAGED = "UDP length out of range", "damaged message"

# More fragments, and the offset of a fragment.
FRAGMENT = 0x3FFF

# A response; and OPCODE and RCODE, which are 0 in all that counts (RFC 6762 section 18).
RESPONSE_BIT, CODES = 0x8000, 0x780F

# The bytes of the longest name, its zero octet included (RFC 6762 Appendix C), and the first octet of a pointer.
LONGEST_NAME, POINTER = 256, 0xC0

# The bytes before the name of a service.
SERVICE_NUMBERS = 6


class Hearing(NamedTuple):
    """One record of a response: names are in wire form, without pointers and spelled as they were heard."""
    moment: int
    ttl: int
    flush: bool
    owner: bytes
    kind: int
    data: bytes

    @property
    def set_key(self):
        return self.owner.lower(), self.kind

    @property
    def key(self):
        """What hearings of one record have alike, and what orders records."""
        return (*self.set_key, folded(self.kind, self.data))

    @property
    def age(self):
        """What the last hearing of a record has the most of."""
        return self.moment, self.ttl, self.owner, self.data


class Nothing(Exception):
    """A frame that tells nothing, by the cause that is given."""


def folded(kind, data):
    """The data of a record with names in lower case; numbers stay."""
    content = TYPES[kind].content
    if content is Content.SERVICE:
        return data[:SERVICE_NUMBERS] + data[SERVICE_NUMBERS:].lower()
    return data.lower() if content is Content.NAME else data


def hearings_of(capture):
    """All hearings of a capture, those of its packets in turn."""
    for moment, frame in frames_in(capture):
        for told in told_by(frame):
            yield Hearing(moment, *told)


@lru_cache(maxsize=4096)
def told_by(frame):
    """What a frame tells, a tuple for each hearing: all that a hearing has but its moment."""
    try:
        return tuple(Message(payload_of(frame)).hearings())
    except Nothing:
        return ()


def need(is_so, cause):
    if not is_so:
        raise Nothing(cause)


def payload_of(frame):
    """What a frame carries over UDP from the port to the port of the group. The checks are in the order of the headers."""
    need(len(frame) >= ETHERNET_HEADER, "cut within the Ethernet header")
    kind, packet = number_at(frame, 12), frame[ETHERNET_HEADER:]
    need(kind not in TAGS, "VLAN tag")
    need(kind in (IPV4, IPV6), "neither IPv4 nor IPv6")
    datagram = ipv4_data(packet) if kind == IPV4 else ipv6_data(packet)
    need(len(datagram) >= UDP_HEADER, LENGTH)
    need(number_at(datagram, 0) == PORT and number_at(datagram, 2) == PORT, "another port")
    need(UDP_HEADER <= number_at(datagram, 4) <= len(datagram), LENGTH)
    return datagram[UDP_HEADER:number_at(datagram, 4)]


def ipv4_data(packet):
    need(len(packet) >= IPV4_HEADER, CUT_HEADER)
    size, total = packet[0] % 16 * 4, number_at(packet, 2)
    need(packet[0] // 16 == 4 and size >= IPV4_HEADER, MALFORMED)
    need(total >= size, "IPv4 total length below its header")
    need(len(packet) >= total, CUT)
    need(not number_at(packet, 6) & FRAGMENT, "fragment")
    need(packet[9] == UDP, "not UDP")
    need(packet[16:20] == IPV4_GROUP, "not to 224.0.0.251 or ff02::fb")
    return packet[size:total]


def ipv6_data(packet):
    need(len(packet) >= IPV6_HEADER, CUT_HEADER)
    need(packet[0] // 16 == 6, MALFORMED)
    end = IPV6_HEADER + number_at(packet, 4)
    need(len(packet) >= end, CUT)
    need(not leads_to_fragment(packet[6], packet[IPV6_HEADER:end]), "IPv6 fragment")
    need(packet[6] not in EXTENSIONS, "IPv6 extension header")
    need(packet[6] == UDP, "not UDP")
    need(packet[24:40] == IPV6_GROUP, "not to 224.0.0.251 or ff02::fb")
    return packet[IPV6_HEADER:end]


def leads_to_fragment(number, data):
    """Whether a chain of whole headers leads to that of a fragment: each names the next, and counts its bytes but for the first
    eight, in eights."""
    while number in BEFORE_FRAGMENTS and len(data) >= 8 and len(data) >= 8 + 8 * data[1]:
        number, data = data[0], data[8 + 8 * data[1]:]
    return number == FRAGMENT_HEADER


def source_of(frame):
    """The address of who sent a frame of IP."""
    at, size = (26, 4) if number_at(frame, 12) == IPV4 else (22, 16)
    return part(frame, at, at + size)


def part(whole, start, end):
    """The bytes from one offset to another, which are all there."""
    need(start <= end <= len(whole), DAMAGED)
    return whole[start:end]


def number_at(whole, at):
    return int.from_bytes(part(whole, at, at + 2), "big")


class Message:
    """A message that is being read."""

    def __init__(self, wire):
        self.wire = wire
        self.at = 0
        # The names and the offsets after them, by where they begin: each is read once, however many pointers lead to it.
        self.names = {}
        self.ends = {}

    def take(self, count):
        self.at += count
        return part(self.wire, self.at - count, self.at)

    def numbers(self, form):
        return struct.unpack(form, self.take(struct.calcsize(form)))

    def hearings(self):
        """What all records of the answers and of the additional section tell, if the whole message can be read."""
        _, flags, questions, answers, authority, additional = self.numbers("!HHHHHH")
        need(flags & RESPONSE_BIT and not flags & CODES, DAMAGED)
        for _ in range(questions):
            self.name()
            self.take(4)
        heard = [self.record() for _ in range(answers)]
        for _ in range(authority):
            self.name()
            self.take(self.numbers("!HHIH")[3])
        heard += [self.record() for _ in range(additional)]
        return [hearing for hearing in heard if hearing]

    def record(self):
        """What a record tells, if it is of the class IN and of a type that is heard."""
        owner = self.name()
        kind, of_class, ttl, size = self.numbers("!HHIH")
        data = self.take(size)
        if of_class & ~CACHE_FLUSH != IN or kind not in TYPES:
            return None
        return ttl, bool(of_class & CACHE_FLUSH), owner, kind, self.data_of(TYPES[kind], data)

    def data_of(self, of_type, data):
        """Data that was just taken, its name in full."""
        need(of_type.fits(data), DAMAGED)
        if of_type.content is Content.NAME:
            return self.name_in(data)
        if of_type.content is Content.SERVICE:
            return part(data, 0, SERVICE_NUMBERS) + self.name_in(data[SERVICE_NUMBERS:])
        return data

    def name_in(self, data):
        """The name that takes exactly the last bytes that were taken."""
        after, self.at = self.at, self.at - len(data)
        name = self.name()
        need(self.at == after, DAMAGED)
        return name

    def name(self):
        start = self.at
        name = self.name_at(start)
        self.at = self.ends[start]
        return name

    def name_at(self, at):
        """The name at an offset. A pointer leads before the labels that it ends."""
        runs, octet = [], None
        while at not in self.names and octet != 0:
            start = at
            while 0 < (octet := part(self.wire, at, at + 1)[0]) <= 63:
                at += 1 + octet
                need(at - start <= LONGEST_NAME, DAMAGED)
            need(octet == 0 or octet >= POINTER, DAMAGED)
            runs.append((start, self.wire[start:at]))
            self.ends[start] = at + (1 if octet == 0 else 2)
            if octet:
                at = number_at(self.wire, at) & 0x3FFF
                need(at < start, DAMAGED)
        rest = b"\0" if octet == 0 else self.names[at]
        for start, labels in reversed(runs):
            rest = labels + rest
            need(len(rest) <= LONGEST_NAME, DAMAGED)
            self.names[start] = rest
        return rest
