"""What a classic pcap capture holds, by the savefile format and the program's limits, read apart from the program."""

import struct
from functools import lru_cache
from typing import NamedTuple

from tests.captures.wire import ETHERNET, MAGICS, SECOND, SNAPSHOT_LENGTH

FILE_HEADER = 24
PACKET_HEADER = 16
LONGEST = SNAPSHOT_LENGTH

# The first four bytes of a capture, and the byte order and the nanoseconds of a unit that they tell.
LAYOUTS = {struct.pack(order + "I", number): (order, unit) for order, number, unit in MAGICS.values()}


class Packet(NamedTuple):
    """A whole packet: where its header begins, and the bytes of its header and of its frame."""

    at: int
    wire: bytes


class Reading(NamedTuple):
    """What reading comes to: a fault of the file header, or whole packets and how they end."""

    fault: str
    header: bytes
    packets: tuple
    ending: str

    @property
    def is_whole(self):
        return self.ending == "whole"

    @property
    def whole_part(self):
        """The capture without what stands after its whole packets."""
        return self.header + b"".join(packet.wire for packet in self.packets)


@lru_cache(maxsize=64)
def reading_of(capture):
    fault = header_fault(capture)
    if fault:
        return Reading(fault, b"", (), None)
    packets, ending = packets_of(capture)
    return Reading(None, capture[:FILE_HEADER], tuple(packets), ending)


def header_fault(capture):
    """Why a capture is refused, if it is: the first check that fails."""
    if len(capture) < FILE_HEADER:
        return "file header is cut short"
    if capture[:4] not in LAYOUTS:
        return "not a classic pcap file"
    order, _ = LAYOUTS[capture[:4]]
    if struct.unpack_from(order + "HH", capture, 4) != (2, 4):
        return "pcap version is not 2.4"
    # The high half of the word says other things than the link type.
    if struct.unpack_from(order + "I", capture, 20)[0] & 0xFFFF != ETHERNET:
        return "link type is not Ethernet"
    return None


def packets_of(capture):
    order, unit = LAYOUTS[capture[:4]]
    header = struct.Struct(order + "IIII")
    packets = []
    at = FILE_HEADER
    while at < len(capture):
        if at + PACKET_HEADER > len(capture):
            return packets, f"cut at {at}"
        _, fraction, length, _ = header.unpack_from(capture, at)
        if fraction * unit >= SECOND:
            return packets, f"fraction out of range at {at}"
        if length > LONGEST:
            return packets, f"captured length out of range at {at}"
        after = at + PACKET_HEADER + length
        if after > len(capture):
            return packets, f"cut at {at}"
        packets.append(Packet(at, capture[at:after]))
        at = after
    return packets, "whole"


def moment_of(capture, packet):
    """The moment of a packet, in nanoseconds since 1970."""
    order, unit = LAYOUTS[capture[:4]]
    seconds, fraction = struct.unpack_from(order + "II", packet.wire)
    return seconds * SECOND + fraction * unit


def frames_in(capture):
    """The moment and the frame of each whole packet."""
    return [(moment_of(capture, packet), packet.wire[PACKET_HEADER:]) for packet in reading_of(capture).packets]


def snapshot_length(capture):
    """The most bytes of a packet that were captured, as the file header says."""
    order, _ = LAYOUTS[capture[:4]]
    return struct.unpack_from(order + "I", capture, 16)[0]


def split_at(capture, at):
    """Two captures of one that is cut where a packet header begins."""
    return capture[:at], capture[:FILE_HEADER] + capture[at:]
