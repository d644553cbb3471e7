"""Floods: many flushes of one record set, and many different records, of one set or of many."""

import random
import struct

from tests.captures.link import START, Record
from tests.captures.wire import A, PTR, SECOND, ipv4_frame, message_of

SOURCE = bytes((198, 18, 0, 1))
HOST = (b"flood", b"local")
SERVICE = (b"_http", b"_tcp", b"local")

ORDERS = ("ascending", "descending", "shuffled", "inward")

# How many records stand in each message of many records.
TOGETHER = 10

# How many records of one set stand in each message.
OF_ONE_SET = 1000

# The first of 16 million addresses for private use.
FIRST_ADDRESS = 0x0A000000

# Prime to the numbers of records, so that its multiples visit each of them, in no order.
STRIDE = 7_368_787


def ordered(seed, count, order):
    """The numbers below a count in an order: ascending, descending, in none, or inward from both ends in turn."""
    numbers = list(range(count))
    if order == "descending":
        numbers.reverse()
    elif order == "shuffled":
        random.Random(seed).shuffle(numbers)
    elif order == "inward":
        half = (count + 1) // 2
        numbers[::2], numbers[1::2] = numbers[:half], numbers[:half - 1:-1]
    return numbers


def late(seed, count, seconds, rounds):
    """The numbers below a count in rounds, each of which has a part of each second's, in no order."""
    rng = random.Random(seed)
    of_seconds = []
    for second in range(seconds):
        numbers = list(range(count * second // seconds, count * (second + 1) // seconds))
        rng.shuffle(numbers)
        of_seconds.append(numbers)
    for turn in range(rounds):
        for numbers in of_seconds:
            yield from numbers[turn::rounds]


def flushes(seed, count, seconds, order):
    """So many flushes of one record set, in so many seconds."""
    return hearings_at(ordered(seed, count, order), count, seconds, True)


def late_flushes(seed, count, seconds, rounds):
    """The same, in rounds through the seconds, so that most flushes come when others of later seconds came before."""
    return hearings_at(late(seed, count, seconds, rounds), count, seconds, True)


def hearings(seed, count, seconds, order):
    """So many hearings of one record that flush nothing, in so many seconds."""
    return hearings_at(ordered(seed, count, order), count, seconds, False)


def hearings_at(numbers, count, seconds, flush):
    frame = ipv4_frame(SOURCE, message_of([(Record(HOST, A, SOURCE, flush), 120)]))
    return ((START + number * seconds * SECOND // count, frame) for number in numbers)


def addresses(seed, packets, order):
    """So many packets of different addresses of one host. None of them flushes the set, so all of them are live."""
    return together(ordered(seed, packets * OF_ONE_SET, order), OF_ONE_SET, 1000, lambda number: Record(
        HOST, A, struct.pack("!I", FIRST_ADDRESS + number), False))


def instances(seed, packets, order):
    """The same of different instances of one service type."""
    return together(ordered(seed, packets * OF_ONE_SET, order), OF_ONE_SET, 1000, lambda number: Record(
        SERVICE, PTR, (b"instance-%07d" % number,) + SERVICE, False))


def records(packets):
    """So many packets of different records, each heard once: a million in less than a second, so that all of them are live."""
    hosts = [number * STRIDE % (packets * TOGETHER) for number in range(packets * TOGETHER)]
    return together(hosts, TOGETHER, 100, lambda host: Record(
        (b"host-%07d" % host, b"local"), A, struct.pack("!I", 0xC6120000 | host & 0x1FFFF), True))


def together(numbers, count, apart, record_of):
    """Packets of so many records each, one for each number, which are so many nanoseconds apart."""
    for first in range(0, len(numbers), count):
        message = message_of((record_of(number), 120) for number in numbers[first:first + count])
        yield START + first * apart, ipv4_frame(SOURCE, message)
