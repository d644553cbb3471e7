"""What a listener records: messages in datagrams in frames in a classic pcap capture."""

import struct
from contextlib import contextmanager
from enum import Enum
from functools import partial
from typing import Callable, NamedTuple

# Each magic as the byte order of a capture, its number and the nanoseconds of a unit of its fractions.
MAGICS = {
    "little-micro": ("<", 0xA1B2C3D4, 1000),
    "big-micro": (">", 0xA1B2C3D4, 1000),
    "little-nano": ("<", 0xA1B23C4D, 1),
    "big-nano": (">", 0xA1B23C4D, 1),
}

SECOND = 1_000_000_000
LAST_MOMENT = 4_294_967_296 * SECOND - 1
SNAPSHOT_LENGTH = 262_144
ETHERNET = 1

HEADER_SIZE = 12

PORT = 5353
IPV4_GROUP = bytes((224, 0, 0, 251))
IPV6_GROUP = bytes.fromhex("ff0200000000000000000000000000fb")
UDP = 17

A, PTR, TXT, AAAA, SRV, NSEC = 1, 12, 16, 28, 33, 47
ANY = 255
IN = 1
CACHE_FLUSH = 0x8000

QUERY = 0x0000
RESPONSE = 0x8400

# The sections of a message, by their order in its header.
QUESTION, ANSWER, AUTHORITY, ADDITIONAL = range(4)


class Content(Enum):
    """What data says: an address, a name, the three numbers and the name of a service, or strings, each after its length."""
    ADDRESS, NAME, SERVICE, STRINGS = range(4)


class Type(NamedTuple):
    """A type that is heard: its number and its name, what its data says, and whether bytes can be its data, apart from a name
    in them."""
    number: int
    name: str
    content: Content
    fits: Callable[[bytes], bool] = lambda data: True


# By their numbers, and by their names.
TYPES = {one.number: one for one in (
    Type(A, "A", Content.ADDRESS, lambda data: len(data) == 4),
    Type(PTR, "PTR", Content.NAME),
    Type(TXT, "TXT", Content.STRINGS),
    Type(AAAA, "AAAA", Content.ADDRESS, lambda data: len(data) == 16),
    Type(SRV, "SRV", Content.SERVICE),
)}
NAMED = {one.name: one for one in TYPES.values()}


# The types whose data ends in a name.
NAMES = tuple(one.name for one in TYPES.values() if one.content in (Content.NAME, Content.SERVICE))


@contextmanager
def capture(path, magic):
    """Begins a capture, and lends what adds a frame that was heard at a moment, in nanoseconds since 1970."""
    order, number, unit = MAGICS[magic]
    header = struct.Struct(order + "IIII").pack
    with open(path, "wb", buffering=1 << 20) as file:
        file.write(struct.pack(order + "IHHIIII", number, 2, 4, 0, 0, SNAPSHOT_LENGTH, ETHERNET))

        def add(moment, frame):
            seconds, nanos = divmod(moment, SECOND)
            file.write(header(seconds, nanos // unit, len(frame), len(frame)) + frame)

        yield add


class Message:
    """A message that is being written. Of each name as much as stands before becomes a pointer."""

    def __init__(self, flags):
        self.flags = flags
        self.counts = [0, 0, 0, 0]
        self.body = bytearray(HEADER_SIZE)
        self.offsets = {}

    def name(self, labels):
        for first in range(len(labels)):
            suffix = labels[first:]
            offset = self.offsets.get(suffix)
            if offset is not None:
                self.body += struct.pack("!H", 0xC000 | offset)
                return
            if len(self.body) < 0x4000:
                self.offsets[suffix] = len(self.body)
            self.body.append(len(labels[first]))
            self.body += labels[first]
        self.body.append(0)

    def question(self, labels, kind):
        self.counts[QUESTION] += 1
        self.name(labels)
        self.body += struct.pack("!HH", kind, IN)

    def record(self, section, record, ttl):
        owner, kind, data, flush = record
        self.counts[section] += 1
        self.name(owner)
        self.body += struct.pack("!HHI", kind, IN | CACHE_FLUSH if flush else IN, ttl)
        length_at = len(self.body)
        self.body += b"\0\0"
        self.data(kind, data)
        struct.pack_into("!H", self.body, length_at, len(self.body) - length_at - 2)

    def data(self, kind, data):
        """Adds data: the labels of a name, numbers and labels of a service, and bytes of all else."""
        content = TYPES[kind].content if kind in TYPES else None
        if content is Content.NAME:
            self.name(data)
        elif content is Content.SERVICE:
            *numbers, target = data
            self.body += struct.pack("!HHH", *numbers)
            self.name(target)
        elif kind == NSEC:
            owner, bitmap = data
            self.name(owner)
            self.body += bitmap
        else:
            self.body += data

    def wire(self):
        struct.pack_into("!HHHHHH", self.body, 0, 0, self.flags, *self.counts)
        return bytes(self.body)


def message_of(answers, additional=(), authority=(), questions=(), flags=RESPONSE):
    """A message of records, each with its TTL, and of questions, each a name and a type."""
    message = Message(flags)
    for name, kind in questions:
        message.question(name, kind)
    for section, records in ((ANSWER, answers), (AUTHORITY, authority), (ADDITIONAL, additional)):
        for record, ttl in records:
            message.record(section, record, ttl)
    return message.wire()


def checksum(data):
    """The checksum of IP and UDP (RFC 1071)."""
    if len(data) % 2:
        data += b"\0"
    total = sum(struct.unpack(f"!{len(data) // 2}H", data))
    while total > 0xFFFF:
        total = (total & 0xFFFF) + (total >> 16)
    return total ^ 0xFFFF


def datagram(addresses, payload, source_port, port):
    """A UDP datagram between two addresses, which its checksum covers."""
    length = 8 + len(payload)
    pseudo = addresses + struct.pack("!HH", UDP, length)
    header = struct.pack("!HHHH", source_port, port, length, 0)
    total = checksum(pseudo + header + payload) or 0xFFFF
    return header[:6] + struct.pack("!H", total) + payload


def ipv4_frame(source, payload, group=IPV4_GROUP, source_port=PORT, port=PORT):
    """A frame with a payload over IPv4."""
    data = datagram(source + group, payload, source_port, port)
    header = struct.pack("!BBHHHBBH", 0x45, 0, 20 + len(data), 0, 0x4000, 255, UDP, 0) + source + group
    header = header[:10] + struct.pack("!H", checksum(header)) + header[12:]
    ethernet = b"\x01\x00\x5e" + bytes((group[1] & 0x7F,)) + group[2:] + b"\x02\x00" + source + b"\x08\x00"
    return ethernet + header + data


def ipv6_frame(source, payload):
    """A frame with a payload over IPv6."""
    data = datagram(source + IPV6_GROUP, payload, PORT, PORT)
    header = struct.pack("!IHBB", 0x60000000, len(data), UDP, 255) + source + IPV6_GROUP
    return b"\x33\x33" + IPV6_GROUP[12:] + b"\x02\x00" + source[12:] + b"\x86\xdd" + header + data


def message_in(frame):
    """What makes such a frame of a message, and the message that a frame made here carries, if it carries one that is
    whole, from the port to the port of the group."""
    ports = struct.pack("!HH", PORT, PORT)
    if frame[12:14] == b"\x86\xdd":
        return partial(ipv6_frame, frame[22:38]), frame[62:]
    if frame[12:14] == b"\x08\x00" and frame[20:22] == b"\x40\x00" and frame[30:38] == IPV4_GROUP + ports:
        return partial(ipv4_frame, frame[26:30]), frame[42:]
    return None
