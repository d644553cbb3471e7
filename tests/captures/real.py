"""The example captures again and again, as of listeners who go on recording."""

from tests import EXAMPLES
from tests.captures.wire import SECOND
from tests.judges.savefile import frames_in

NAMES = ("west.pcap", "east.pcap")


def repeated(rounds):
    """For each example its packets, so many times. Each time all clocks are those of the time before, moved on by the
    span of both captures and a second."""
    captures = [frames_in((EXAMPLES / name).read_bytes()) for name in NAMES]
    moments = [moment for packets in captures for moment, _ in packets]
    step = max(moments) - min(moments) + SECOND
    return [moved(packets, step, rounds) for packets in captures]


def moved(packets, step, rounds):
    for turn in range(rounds):
        for moment, frame in packets:
            yield moment + turn * step, frame
