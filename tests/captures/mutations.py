"""What is done to packets and captures, so that they are damaged in every way."""

import struct
from random import Random

from tests.captures import sources
from tests.captures.built import write_capture
from tests.captures.wire import LAST_MOMENT, MAGICS, ipv4_frame, ipv6_frame
from tests.judges.savefile import FILE_HEADER, LAYOUTS, LONGEST, reading_of

EDGES = (0, 1, 7, 8, 11, 12, 0x3FFF, 0xFFFF, LONGEST, LONGEST + 1, 2**32 - 1)

# Where the numbers of an Ethernet frame stand: EtherType, lengths, fragments, protocols, ports and UDP lengths.
FRAME_HALVES = (12, 14, 16, 18, 20, 22, 34, 36, 38, 54, 56, 58)

MESSAGE_LONGEST = 65_535 - 40 - 8


def flip_bit(rng, data):
    if data:
        data[rng.randrange(len(data))] ^= 1 << rng.randrange(8)


def change_byte(rng, data):
    if data:
        octets = 0, 1, 0x3F, 0x40, 0x7F, 0x80, 0xBF, 0xC0, 0xFF, rng.randrange(256)
        data[rng.randrange(len(data))] = rng.choice(octets)


def cut(rng, data):
    del data[rng.randint(0, len(data)):]


def insert(rng, data):
    at = rng.randint(0, len(data))
    data[at:at] = rng.randbytes(rng.choice((1, 2, 4, 16)))


def delete(rng, data):
    at = rng.randint(0, len(data))
    del data[at:at + rng.choice((1, 2, 4, 16))]


def put(data, at, form, number):
    """Puts a number over bytes, where there is room for it."""
    if 0 <= at <= len(data) - struct.calcsize(form):
        struct.pack_into(form, data, at, number)


# The last one puts an edge value over two bytes.
BYTES = (flip_bit, change_byte, cut, insert, delete,
         lambda rng, data: put(data, rng.randint(0, len(data)), "!H", rng.choice(EDGES) & 0xFFFF))


def put_count(rng, message):
    put(message, rng.choice((4, 6, 8, 10)), "!H", rng.choice((*EDGES[:8], 2, 3)))


def put_flags(rng, message):
    put(message, 2, "!H", rng.choice((0, 0x8000, 0x8400, 0x8600, 0x8401, 0xC000, 0xFFFF)))


def offset_of(rng, data, is_wanted):
    """An offset after the header of a message whose byte is wanted; -1 where there is none."""
    offsets = [at for at in range(12, len(data)) if is_wanted(data[at])]
    return rng.choice(offsets) if offsets else -1


def redirect(rng, message):
    """Leads a pointer elsewhere: to itself, before the names, to the end, to nowhere."""
    at = offset_of(rng, message, lambda octet: octet >= 0xC0)
    target = rng.choice((at, at - 1, at - 2, at + 2, 0, 11, 12, len(message) - 1, 0x3FFF, rng.randrange(0x200)))
    put(message, at, "!H", 0xC000 | max(target, 0) & 0x3FFF)


def point(rng, message):
    """Makes a pointer of what was none."""
    put(message, rng.randint(12, max(12, len(message))), "!H", 0xC000 | rng.randrange(max(1, len(message))) & 0x3FFF)


def lengthen(rng, message):
    """Lets a label claim more or fewer bytes."""
    at = offset_of(rng, message, lambda octet: 1 <= octet <= 63)
    if at >= 0:
        message[at] = rng.choice((1, message[at] - 1, message[at] + 1, 62, 63, 64, 0xBF))


def grow(rng, message):
    """Lets a label have more bytes, with the bytes."""
    at = offset_of(rng, message, lambda octet: 1 <= octet <= 62)
    if at >= 0:
        more = rng.randint(1, 63 - message[at])
        message[at + 1:at + 1] = b"G" * more
        message[at] += more


MESSAGES = (*BYTES, put_count, put_count, put_flags, redirect, redirect, point, lengthen, grow)


def mutate_message(rng, frame):
    """A frame whose message is damaged, while what is around it is as it should be."""
    is_ipv4 = frame[12:14] == b"\x08\x00"
    message = bytearray(frame[42 if is_ipv4 else 62:])
    for _ in range(rng.choice((1, 1, 1, 2, 4))):
        rng.choice(MESSAGES)(rng, message)
    payload = bytes(message[:MESSAGE_LONGEST])
    return ipv4_frame(sources.IPV4_SOURCE, payload) if is_ipv4 else ipv6_frame(sources.IPV6_SOURCE, payload)


def put_frame_half(rng, frame):
    at = rng.choice(FRAME_HALVES)
    number = rng.choice((*EDGES, 0x0800, 0x86DD, 0x8100, 0x2000, 0x4000, 5353, len(frame) - at, len(frame) - at - 1))
    put(frame, at, "!H", number & 0xFFFF)


def pad(rng, frame):
    frame += bytes(rng.choice((1, 3, 18, 64)))


def fill(rng, frame):
    """Pads a frame to the greatest length, or to one byte less or more. Not often, since it takes time."""
    if rng.random() < 0.25:
        frame += bytes(max(0, LONGEST + rng.choice((-1, 0, 1)) - len(frame)))


def add_options(rng, frame):
    """Gives an IPv4 header options, which its length and the total length tell of."""
    if frame[12:15] == b"\x08\x00\x45" and len(frame) >= 34:
        words = rng.randint(1, 10)
        total = struct.unpack_from("!H", frame, 16)[0] + 4 * words
        frame[14] += words
        frame[34:34] = bytes(4 * words)
        put(frame, 16, "!H", total & 0xFFFF)


FRAMES = (*BYTES, put_frame_half, put_frame_half, put_frame_half, pad, fill, add_options)


def mutate_frame(rng, frame):
    changed = bytearray(frame)
    rng.choice(FRAMES)(rng, changed)
    return bytes(changed)


def drop(rng, packets):
    if packets:
        del packets[rng.randrange(len(packets))]


def repeat(rng, packets):
    if packets:
        packets.insert(rng.randint(0, len(packets)), rng.choice(packets))


def splice(rng, packets):
    """Goes on with the packets of another source."""
    del packets[rng.randint(0, len(packets)):]
    packets += sources.packets(rng)


def move(rng, packets):
    """Lets a packet come at another moment."""
    if packets:
        at = rng.randrange(len(packets))
        moment = rng.choice((0, LAST_MOMENT, packets[at][0] + rng.choice(sources.GAPS), rng.choice(packets)[0]))
        packets[at] = min(moment, LAST_MOMENT), packets[at][1]


def change(rng, packets):
    """Damages some packets, most of them in their messages."""
    for _ in range(rng.choice((1, 1, 2, 5, 8))):
        if packets:
            at = rng.randrange(len(packets))
            moment, frame = packets[at]
            packets[at] = moment, rng.choice((mutate_message, mutate_message, mutate_frame))(rng, frame)


PACKETS = (drop, repeat, Random.shuffle, splice, move, *[change] * 7)


def put_field(rng, capture):
    """Puts an edge value into a field of the file header or of a packet header."""
    order = LAYOUTS.get(bytes(capture[:4]), ("<",))[0]
    if rng.random() < 0.25:
        put(capture, rng.choice((0, 4, 8, 16, 20)), order + "I", rng.choice(EDGES))
        return
    packets = reading_of(bytes(capture)).packets
    if packets:
        at = rng.choice(packets).at + rng.choice((0, 4, 4, 8, 8, 12))
        put(capture, at, order + "I", rng.choice((*EDGES, 999_999, 1_000_000, 999_999_999, 1_000_000_000)))


def put_magic(rng, capture):
    magics = [*LAYOUTS, b"\x0a\x0d\x0d\x0a", b"\x34\xcd\xb2\xa1", b"\x1f\x8b\x08\x00"]
    capture[:4] = rng.choice(magics)


def cut_header(rng, capture):
    del capture[rng.randint(0, FILE_HEADER):]


CAPTURES = (*BYTES, put_field, put_field, put_field, put_field, cut, cut, put_magic, cut_header)


def mutate_capture(rng, capture):
    changed = bytearray(capture)
    for _ in range(rng.choice((1, 1, 2))):
        rng.choices(CAPTURES, [1] * (len(CAPTURES) - 2) + [0.3, 0.1])[0](rng, changed)
    return bytes(changed)


def captures_of(rng, scratch):
    """The captures of a case: of one, two or three listeners who heard parts of the same, and damaged."""
    packets = sources.packets(rng)
    listeners = rng.choice((1, 1, 2, 2, 3))
    return [capture_of(rng, [packet for packet in packets if listeners == 1 or rng.random() < 0.7], scratch) for _ in range(listeners)]


def capture_of(rng, packets, scratch):
    for _ in range(rng.choice((0, 1, 1, 2, 4))):
        rng.choice(PACKETS)(rng, packets)
    made = write_capture(scratch, rng.choice(list(MAGICS)), packets)
    return mutate_capture(rng, made) if rng.random() < 0.4 else made
