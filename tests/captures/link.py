"""A large link: thousands of hosts that announce, answer, ask, move, leave and come back for hours."""

import random
import shlex
import struct
from collections import deque
from itertools import islice
from pathlib import Path
from typing import NamedTuple

from tests.captures.wire import A, AAAA, ANY, NSEC, PTR, QUERY, SECOND, SRV, TXT, ipv4_frame, ipv6_frame, message_of

START = 1_700_000_000 * SECOND

# Moments are whole microseconds, so that captures of all four magics tell the same.
MICROSECOND = 1000

# A million packets in six hours.
MEAN_GAP = 21_600 * SECOND // 1_000_000

# How long a record holds: those that name a host or its address, and all others (RFC 6762, section 10).
HOST_TTL, OTHER_TTL = 120, 4500

# What a host that is there does when its turn comes, and how often of all.
TURNS = {
    "answer": 49,
    "announcement": 12,
    "address": 14,
    "query": 16,
    "probe": 2,
    "goodbye": 0.5,
    "other": 4,
    "damage": 0.5,
}

# How likely a host moves at its turn, and how likely one that left comes back.
MOVES = 0.0002
RETURNS = 0.2

LOCAL = b"local"
META = (b"_services", b"_dns-sd", b"_udp", LOCAL)

# The types A and AAAA, and the types TXT and SRV, as NSEC records list them (RFC 4034, section 4.1.2).
ADDRESSES_ALONE = bytes.fromhex("000440000008")
SERVICE_ALONE = bytes.fromhex("00050000800040")

TREES = ("Alder", "Ash", "Beech", "Birch", "Cedar", "Elm", "Fir", "Hazel", "Larch", "Maple", "Oak", "Pine", "Yew")
PLACES = ("Office", "Lab", "Kitchen", "Studio", "Hall", "Library", "Anna's", "Caf\u00e9", "Room 4.12")


class Kind(NamedTuple):
    """A kind of service: its type, what its instances are called, its port and the strings of its text."""

    label: str
    noun: str
    port: int
    text: tuple


def read_kinds(file):
    """The kinds that a file lists, below a line on its cells."""
    for line in file.read_text().splitlines()[1:]:
        label, noun, port, text = map(str.strip, line.split("|"))
        yield Kind(label, noun, int(port), tuple(shlex.split(text)))


KINDS = tuple(read_kinds(Path(__file__).with_name("kinds.txt")))


class Record(NamedTuple):
    owner: tuple
    kind: int
    data: object
    flush: bool


class Service:
    """A service instance and its records."""

    def __init__(self, number, kind, host):
        self.type = (kind.label.encode(), b"_tcp", LOCAL)
        name = (f"{PLACES[number % len(PLACES)]} {kind.noun} {number}".encode(), *self.type)
        self.listing = Record(META, PTR, self.type, False)
        self.pointer = Record(self.type, PTR, name, False)
        self.server = Record(name, SRV, (0, 0, kind.port, host), True)
        # Without strings, one empty string (RFC 6763, section 6.1).
        text = b"".join(bytes((len(string),)) + string.encode() for string in kind.text) or b"\0"
        self.text = Record(name, TXT, text, True)


class Host:
    """A host: its addresses, its services, and the messages that it sends, each made once and then sent again."""

    def __init__(self, number):
        self.number = number
        label = f"{TREES[number % len(TREES)]}-{number}".encode()
        self.name = (label, LOCAL)
        # Some speakers spell their name one way in announcements, and another way in answers.
        self.answered_name = (label.lower(), LOCAL) if number % 50 == 0 else self.name
        self.services = []
        # Some hosts send each message over IPv4 and over IPv6.
        self.is_dual = number % 8 == 0
        self.is_present = True
        self.move(0)

    def move(self, subnet):
        """Takes the addresses of another subnet, those for benchmarks of RFC 2544 and RFC 5180."""
        self.ipv4 = struct.pack("!BBH", 198, 18 + subnet % 2, (self.number + 4096 * subnet) & 0xFFFF)
        self.ipv6 = bytes.fromhex("200100020000") + struct.pack("!HII", subnet, 0, self.number)
        self.link_local = bytes.fromhex("fe80000000000000") + struct.pack("!II", 0x02005EFF, self.number)
        self.sent = {}

    def addresses(self, name, flush=True):
        return [(Record(name, A, self.ipv4, flush), HOST_TTL), (Record(name, AAAA, self.ipv6, flush), HOST_TTL)]

    def records(self):
        """All that the host has to say, each with its TTL."""
        for service in self.services:
            yield service.listing, OTHER_TTL
            yield service.pointer, OTHER_TTL
            yield service.server, HOST_TTL
            yield service.text, OTHER_TTL
        yield from self.addresses(self.name)
        # Some speakers say whose their address is, too.
        if self.number % 8 == 1:
            reverse_name = tuple(str(octet).encode() for octet in reversed(self.ipv4)) + (b"in-addr", b"arpa")
            yield Record(reverse_name, PTR, self.name, True), HOST_TTL

    def frames(self, what):
        """The frames of a message that the host sends."""
        if what not in self.sent:
            payload = getattr(self, what[0])(*what[1:])
            self.sent[what] = self.framed(payload)
        return self.sent[what]

    def framed(self, payload):
        frame = ipv4_frame(self.ipv4, payload)
        return (frame, ipv6_frame(self.link_local, payload)) if self.is_dual else (frame,)

    def announcement(self):
        """All records, unasked (RFC 6762, section 8.3)."""
        return message_of(self.records())

    def goodbye(self):
        """All records, to be forgotten (RFC 6762, section 10.1)."""
        return message_of((record, 0) for record, _ in self.records())

    def answer(self, index):
        """A service that was asked for, and what is wanted next (RFC 6763, section 12.1)."""
        service = self.services[index]
        return message_of([(service.pointer, OTHER_TTL)], [
            (service.server, HOST_TTL), (service.text, OTHER_TTL), no_other(service.text.owner, SERVICE_ALONE),
            *self.addresses(self.answered_name), no_other(self.answered_name, ADDRESSES_ALONE)])

    def address(self):
        """The addresses of the host alone."""
        return message_of(self.addresses(self.answered_name), [no_other(self.answered_name, ADDRESSES_ALONE)])

    def query(self, index):
        """A question for services, with the host's own as a known answer (RFC 6762, section 7.1)."""
        service = self.services[index]
        return message_of([(service.pointer, OTHER_TTL)], questions=[(service.type, PTR)], flags=QUERY)

    def probe(self):
        """A question whether the host's name is taken (RFC 6762, section 8.1)."""
        return message_of((), authority=self.addresses(self.name, False), questions=[(self.name, ANY)], flags=QUERY)


def no_other(name, types):
    """The record that says which types of records a name has, and that it has no other (RFC 6762, section 6.1)."""
    return Record(name, NSEC, (name, types), True), HOST_TTL


def damaged(rng, payload):
    """A message with something wrong: cut short, an octet that begins no label, or a pointer to itself."""
    way = rng.randrange(3)
    if way == 0:
        return payload[: rng.randrange(12, len(payload))]
    wrong = b"\x80" if way == 1 else b"\xc0\x0c"
    return payload[:12] + wrong + payload[12 + len(wrong):]


def other_frames(host):
    """Traffic of a host that is no message of the group: ARP, a search by SSDP, a reply to one asker, a fragment."""
    arp = bytes.fromhex("ffffffffffff02000000000108060001080006040001020000000001") + host.ipv4 + bytes(6) + host.ipv4
    search = b"M-SEARCH * HTTP/1.1\r\nHOST: 239.255.255.250:1900\r\nST: ssdp:all\r\nMX: 2\r\n\r\n"
    discovery = ipv4_frame(host.ipv4, search, bytes((239, 255, 255, 250)), 50_000, 1900)
    unicast = ipv4_frame(host.ipv4, host.address(), bytes((198, 18, 255, 1)), 5353, 40_000)
    whole = host.frames(("address",))[0]
    return arp, discovery, unicast, whole[:20] + b"\x20\0" + whole[22:]


class Link:
    """The hosts of a link, with four services for each three, and whose turn it is."""

    def __init__(self, seed, count):
        self.rng = random.Random(seed)
        self.hosts = [Host(number) for number in range(count)]
        for number in range(count * 4 // 3):
            host = self.hosts[number % count]
            host.services.append(Service(number, KINDS[number * 7 % len(KINDS)], host.name))

    def packets(self, count):
        """So many packets in order, each with its moment."""
        return islice(self.endless(), count)

    def endless(self):
        moment = START
        # Each announcement comes twice, one second apart (RFC 6762, section 8.3).
        repeats = deque()
        while True:
            while repeats and repeats[0][0] <= moment:
                yield repeats.popleft()
            frames, is_repeated = self.turn()
            for delay, frame in enumerate(frames):
                yield moment + MICROSECOND * delay, frame
                if is_repeated:
                    repeats.append((moment + SECOND + MICROSECOND * delay, frame))
            moment += MICROSECOND * (2 + int(self.rng.expovariate(MICROSECOND / MEAN_GAP)))

    def turn(self):
        """The frames of one turn, and whether they come again a second later."""
        rng, what = self.rng, "other"
        host = rng.choice(self.hosts)
        if not host.is_present:
            if rng.random() < RETURNS:
                host.is_present, what = True, "announcement"
        elif rng.random() < MOVES:
            host.move(rng.randrange(1, 16))
            what = "announcement"
        else:
            what = rng.choices(list(TURNS), TURNS.values())[0]
        if what == "other":
            return (rng.choice(other_frames(host)),), False
        if what == "damage":
            return host.framed(damaged(rng, host.address())), False
        if what == "goodbye":
            host.is_present = False
        index = [rng.randrange(len(host.services))] if what in ("answer", "query") else []
        return host.frames((what, *index)), what == "announcement"
