"""Messages that no responder sends: small captures that ask for much work or much memory."""

import struct

from tests.captures.floods import SERVICE, SOURCE
from tests.captures.link import START, Record
from tests.captures.wire import HEADER_SIZE, IN, PTR, RESPONSE, SECOND, SRV, A, ipv4_frame, message_of

# The longest payload of UDP over IPv4, whose total length is at most 65,535.
LONGEST = 65_535 - 20 - 8

# What a pointer can't lead to: its target has 14 bits.
BEYOND_POINTERS = 0x4000

NULL = 10

# So many records of 23 bytes fill the longest message after its first names.
LONG_NAMED = 2_800

# How many servers, and as many addresses, a message of a product has, and whose these are.
TOGETHER = 500
HOST = (b"host", b"local")


def frames_of(payload, count):
    """The same message again and again, one in a second."""
    frame = ipv4_frame(SOURCE, payload)
    return ((START + number * SECOND, frame) for number in range(count))


def pointer(offset):
    return struct.pack("!H", 0xC000 | offset)


def header(questions, answers):
    return struct.pack("!HHHHHH", 0, RESPONSE, questions, answers, 0, 0)


def chain(begin):
    """As many pointers as pointers can lead to, each to the one before it, the first to the name after the header."""
    offsets = range(begin, BEYOND_POINTERS - 1, 2)
    return b"".join(pointer(offset - 2 if offset > begin else HEADER_SIZE) for offset in offsets)


def questions_message():
    """Questions whose type and class are pointers too, so that each has a name of three more steps than the last."""
    # The first question is whole: the root, its type and its class.
    first = b"\0" * 5
    begin = HEADER_SIZE + len(first)
    links = chain(begin)
    count = (LONGEST - begin) // 6
    body = links + pointer(begin + len(links) - 2) * LONGEST
    return header(1 + count, 0) + first + body[: 6 * count]


def fixed(kind, data):
    """What stands between the owner of a record and its data."""
    return struct.pack("!HHIH", kind, IN, 120, len(data))


def owners_message():
    """Records without data, each of whose owners is at the end of a chain."""
    return after_chain(lambda deepest: deepest + fixed(NULL, b""))


def targets_message():
    """PTR records whose owners and targets are both at the end of a chain."""
    return after_chain(lambda deepest: deepest + fixed(PTR, deepest) + deepest)


def after_chain(record_of):
    """A record whose data, which is stepped over, is a chain; and after it one that is made of a pointer to the end of the chain, as
    often as there is room."""
    begin = HEADER_SIZE + 1 + 10
    links = chain(begin)
    first, record = b"\0" + fixed(NULL, links) + links, record_of(pointer(begin + len(links) - 2))
    count = (LONGEST - HEADER_SIZE - len(first)) // len(record)
    return header(0, 1 + count) + first + record * count


def long_names(count):
    """So many messages of different SRV records, whose two names take seven bytes here and 510 when they are read."""
    # Bytes that print as four each, in labels that together make a name of 255 bytes.
    target = tuple(bytes((octet,)) * 63 for octet in (0x80, 0x81, 0x82)) + (b"\x83" * 61,)
    suffix = (b"\x84" * 60,) + target[1:]
    for number in range(count):
        message = message_of((Record((struct.pack("!H", port),) + suffix, SRV, (0, number, port, target), True), 120)
                             for port in range(LONG_NAMED))
        yield START + number * SECOND, ipv4_frame(SOURCE, message)


def product(count, together=TOGETHER, instances=1):
    """So many messages of servers that are all on one host, of so many instances in turn, and of as many addresses of that
    host. Among the instances each server is printed with each address."""
    for first in range(0, count * together, together):
        told = []
        for number in range(first, first + together):
            instance = (b"instance-%d" % (number % instances),) + SERVICE
            if number < instances:
                told.append(Record(SERVICE, PTR, instance, False))
            told += [Record(instance, SRV, (0, 0, number, HOST), False), Record(HOST, A, struct.pack("!I", 0xC6120000 | number), False)]
        yield START + first * 1000, ipv4_frame(SOURCE, message_of((record, 120) for record in told))
