"""Messages made unlike all before them, in size and records as they were."""

import struct
from collections import Counter
from functools import cache
from hashlib import blake2b

from tests.captures.wire import HEADER_SIZE, message_in


def unique(packets):
    """Packets of which no message equals an earlier one after its ID: the first TTL of one that would is raised, by one
    more each time. Of damaged messages it is the last four bytes."""
    times = Counter()
    made = set()
    for moment, frame in packets:
        found = message_in(frame)
        if found is None:
            yield moment, frame
            continue
        framed, message = found
        changed = message
        while (digest := blake2b(changed[2:], digest_size=8).digest()) in made:
            times[message] += 1
            at = first_ttl(message)
            (number,) = struct.unpack_from("!I", message, at)
            changed = message[:at] + struct.pack("!I", (number + times[message]) % (1 << 32)) + message[at + 4:]
        made.add(digest)
        yield moment, framed(changed)


@cache
def first_ttl(message):
    """The offset of the first TTL of a message, or of its last four bytes."""
    questions = struct.unpack_from("!H", message, 4)[0]
    at = HEADER_SIZE
    try:
        for _ in range(questions):
            at = after_name(message, at) + 4
        at = after_name(message, at) + 4
    except IndexError:
        at = len(message)
    return min(at, len(message) - 4)


def after_name(message, at):
    """The offset after a name."""
    while 0 < message[at] < 64:
        at += 1 + message[at]
    return at + (1 if message[at] == 0 else 2)
