"""Why packets tell nothing, read apart from the programs: the check of the frame that fails first, and then the kind of the message.
The words are those of `mdnswhy`, but all damaged messages have the same."""

from collections import Counter
from functools import lru_cache

from tests.captures.wire import HEADER_SIZE
from tests.judges.hearings import (CODES, CUT, CUT_HEADER, DAMAGED, LENGTH, MALFORMED, RESPONSE_BIT, Message, Nothing, need, number_at,
                                   payload_of)
from tests.judges.savefile import frames_in

# The causes by which a frame loses what it may have told.
LOSSES = ("VLAN tag", "cut within the Ethernet header", CUT_HEADER, CUT, "fragment", "IPv6 fragment", MALFORMED,
          "IPv4 total length below its header", LENGTH)

# All by which it may be missed, with damaged messages.
LOST = (*LOSSES, DAMAGED)


def causes_of(capture):
    """How many packets of a capture tell nothing for each cause."""
    causes = Counter(cause_of(frame) for _, frame in frames_in(capture))
    del causes[None]
    return causes


@lru_cache(maxsize=4096)
def cause_of(frame):
    """Why a frame tells nothing; None of one that carries a response without a fault."""
    try:
        expect_response(payload_of(frame))
    except Nothing as why:
        return why.args[0]
    return None


def expect_response(payload):
    """A message without a damaged header is skipped by its kind, whatever follows (RFC 6762 section 18)."""
    need(len(payload) >= HEADER_SIZE, DAMAGED)
    flags = number_at(payload, 2)
    need(flags & RESPONSE_BIT, "query")
    need(not flags & CODES, "OPCODE or RCODE")
    Message(payload).hearings()
