"""Packets to begin with: of a small link, of the examples, of few records told closely, of few messages that come again
and again, of instances with hostile labels, of hostile messages, of a host whose report is a product, and of one record set
that is flushed or grows again and again."""

from functools import lru_cache

from tests import EXAMPLES
from tests.captures import floods
from tests.captures import hostile
from tests.captures.link import LOCAL, META, START, Link, Record
from tests.captures.wire import (A, LAST_MOMENT, NSEC, PTR, QUERY, RESPONSE, SECOND, SRV, TXT, TYPES, Content, ipv4_frame, ipv6_frame,
                                 message_of)
from tests.judges.savefile import frames_in

IPV4_SOURCE = bytes((192, 0, 2, 1))
IPV6_SOURCE = bytes.fromhex("fe80000000000000") + bytes((0, 0, 0, 0, 0, 0, 0, 1))

IPP = (b"_ipp", b"_tcp", LOCAL)


def long_name(size):
    """A name whose wire form has so many bytes; 256 are the most."""
    return (b"l" * 63,) * 3 + (b"m" * (size - 194),)


# UTF-8 of every length, hidden characters, a surrogate, and sequences that are cut short.
ODD = "\u00e9.\u20ac\U0001f5a8\u00a0\u200f\U000e0001".encode() + b"\xed\xa0\x80\xc3\xf0\x9f\x96"

# Few names, so that records and record sets come again and again, in more than one spelling.
NAMES = (
    (b"a", LOCAL), (b"A", b"LOCAL"), (b"b", LOCAL), (b"a.b \\\x80", LOCAL), (), (b"local",),
    META, (b"_SERVICES",) + META[1:], IPP, (b"_IPP", b"_TCP", LOCAL), (b"_x", b"_udp", LOCAL),
    (b"p",) + IPP, (b"P", b"_ipp", b"_tcp", b"Local"), (b"q", b"_x", b"_udp", LOCAL), (b"q", b"r") + IPP,
    long_name(255), long_name(256), long_name(257),
    (ODD, LOCAL), (ODD,) + IPP,
)

TEXTS = (b"", b"\0", b"\0\0", b"\x05ab", b"\x03a \\", b"\x01a\0\x01b", b"\xff" + b"t" * 255, b"\x02A=\x02a=",
         bytes((len(ODD),)) + ODD)

# What labels of instances are made of: markup, escapes, hidden characters, and bytes that are no text.
PIECES = (b"<", b">", b"&", b'"', b"'", b"</bdi>", b"<script>", b"&lt;", b"-->", b"\\", b".", b" ", b"\0", b"\n",
          b"\x1b[31m", b"\xff", *(sign.encode() for sign in "\u202e\u2066\u200d\U0001f5a8\u05d0"), b"a", b"B")

# Of IPv6 with one run of zero groups, two of which the second is longer, and two of which neither is.
ADDRESSES = tuple(map(bytes.fromhex, ("c0000201", "c0000202", "c0000203", "fe800000000000000000000000000001",
                                      "fe800000000000000000000000000002", "00010000000000020000000000000003",
                                      "20010db8000000000001000000000001")))

# All types that are heard, some more often than others, and one that isn't.
KINDS = sorted((A, PTR, NSEC, *TYPES))

# The priority and weight of a server.
ORDERS = ((0, 0), (0, 0), (0, 20), (10, 0))

TTLS = (0, 1, 2, 119, 120, 4500, 0x7FFFFFFF, 0x80000000, 0xFFFFFFFF)

BEGINNINGS = (START, START, 100 * SECOND, 0, LAST_MOMENT - 3 * SECOND, LAST_MOMENT)

# How many servers, and as many addresses, a product has at most in a message, and how many messages: 2 MB are
# printed of the greatest.
MOST_TOGETHER, MOST_MESSAGES = 100, 3

# How many flushes a flood has at most, and how many messages, each of a thousand records.
MOST_FLUSHES, MOST_OF_A_SET = 20_000, 5

# About the second that goodbyes and flushes count.
GAPS = (0, 0, 1, 1000, SECOND // 2, SECOND - 1000, SECOND - 1, SECOND, SECOND + 1, SECOND + 1000, 2 * SECOND,
        2 * SECOND + 1, 120 * SECOND)


def packets(rng):
    """The packets of one source, each a moment and a frame."""
    sources = (of_link, of_examples, of_records, of_repeats, of_instances, of_hostile, of_product, of_flood)
    return rng.choices(sources, (20, 20, 25, 20, 15, 2, 2, 1))[0](rng)


def of_link(rng):
    return list(Link(rng.randrange(1 << 32), rng.randint(1, 6)).packets(rng.randint(1, 30)))


@lru_cache
def example(name):
    return frames_in((EXAMPLES / name).read_bytes())


def of_examples(rng):
    all_packets = example(rng.choice(("west.pcap", "east.pcap")))
    first = rng.randrange(len(all_packets))
    return all_packets[first:first + rng.randint(1, 40)]


def of_records(rng):
    """Few records, told again and again with every TTL, about one second apart."""
    moment = rng.choice(BEGINNINGS)
    names = rng.sample(NAMES, rng.randint(1, 6))
    made = []
    for _ in range(rng.randint(1, 12)):
        made.append((moment, framed(rng, message(rng, names))))
        moment = min(moment + rng.choice(GAPS), LAST_MOMENT)
    return made


def of_repeats(rng):
    """Few messages that come again and again, at moments in no order, and others that nearly equal them."""
    names = rng.sample(NAMES, rng.randint(1, 4))
    messages = [message(rng, names) for _ in range(rng.randint(1, 4))]
    moment = rng.choice(BEGINNINGS)
    made = []
    for _ in range(rng.randint(4, 60)):
        payload = rng.choice(messages)
        made.append((moment, framed(rng, nearly(rng, payload) if rng.random() < 0.2 else payload)))
        moment = min(max(moment + rng.choice((1, 1, -1)) * rng.choice(GAPS), 0), LAST_MOMENT)
    return made


def nearly(rng, payload):
    """A message with one other bit, or without its last byte."""
    if rng.random() < 0.1:
        return payload[:-1]
    at = rng.randrange(len(payload))
    return payload[:at] + bytes((payload[at] ^ 1 << rng.randrange(8),)) + payload[at + 1:]


def message(rng, names):
    flags = rng.choices((RESPONSE, 0x8000, QUERY, 0x8800, 0x8401, 0xFFF0 & ~0x7800), (20, 4, 1, 1, 1, 2))[0]
    questions = [(rng.choice(names), rng.choice((A, PTR))) for _ in range(rng.choice((0, 0, 0, 1, 2)))]
    counts = rng.choice((1, 1, 2, 4, 8)), rng.choice((0, 0, 0, 1)), rng.choice((0, 0, 1, 3))
    answers, authority, additional = ([(record(rng, names), rng.choice(TTLS)) for _ in range(count)] for count in counts)
    return message_of(answers, additional, authority, questions, flags)


def record(rng, names):
    kind = rng.choice(KINDS)
    return Record(rng.choice(names), kind, data(rng, names, kind), rng.random() < 0.4)


def data(rng, names, kind):
    if kind == NSEC:
        return rng.choice(names), b"\x00\x01\x40"
    content = TYPES[kind].content
    if content is Content.NAME:
        return rng.choice(names + list(NAMES[8:15]))
    if content is Content.SERVICE:
        return *rng.choice(ORDERS), rng.choice((0, 631, 65_535)), rng.choice(names)
    some = ADDRESSES if content is Content.ADDRESS else TEXTS
    return rng.choice([one for one in some if TYPES[kind].fits(one)])


def framed(rng, payload):
    return ipv4_frame(IPV4_SOURCE, payload) if rng.random() < 0.6 else ipv6_frame(IPV6_SOURCE, payload)


def of_instances(rng):
    """Instances whose labels are markup or hidden, that come, end and come back, some with a server and a text."""
    moment = rng.choice(BEGINNINGS)
    names = [(b"".join(rng.choices(PIECES, k=rng.randint(1, 12)))[:63], *rng.choice((IPP, *NAMES[9:11])))
             for _ in range(rng.randint(1, 8))]
    made = []
    for _ in range(rng.randint(1, 30)):
        told = []
        for name in rng.sample(names, rng.randint(1, len(names))):
            told.append((Record(name[1:], PTR, name, rng.random() < 0.1), rng.choice(TTLS)))
            if rng.random() < 0.3:
                host = name[0], LOCAL
                told += [(Record(name, SRV, (*rng.choice(ORDERS), 631, host), rng.random() < 0.5), 120),
                         (Record(host, A, bytes((192, 0, 2, rng.randint(1, 3))), False), 120),
                         (Record(name, TXT, bytes((len(name[0]),)) + name[0], False), 120)]
        made.append((moment, framed(rng, message_of(told))))
        moment = min(moment + rng.choice(GAPS), LAST_MOMENT)
    return made


def of_hostile(rng):
    make = rng.choice((hostile.questions_message, hostile.owners_message, hostile.targets_message))
    return list(hostile.frames_of(make(), rng.randint(1, 2)))


def of_product(rng):
    """Servers of one instance or of many, all on one host that has as many addresses: each is printed with each."""
    together = rng.randint(2, MOST_TOGETHER)
    return list(hostile.product(rng.randint(1, MOST_MESSAGES), together, rng.choice((1, 2, together))))


def of_flood(rng):
    """Flushes of one record set within a second, or many records of one set, in one of all orders."""
    seed, order = rng.randrange(1 << 32), rng.choice(floods.ORDERS)
    if rng.random() < 0.5:
        return list(floods.flushes(seed, rng.randint(1, MOST_FLUSHES), 1, order))
    make = rng.choice((floods.addresses, floods.instances))
    return list(make(seed, rng.randint(1, MOST_OF_A_SET), order))
