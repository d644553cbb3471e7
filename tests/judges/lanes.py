"""What a page must draw and say of the seconds in which captures heard a record, by hearings that were read apart from the
program. A host says a record at most once a second (RFC 6762 section 6), so that a second counts once, however often the
record was heard in it.

Below the bars of a row each capture has a lane: a tick for each second, at the first hearing there; but of a second whose first
or last hearing is a goodbye a thick one, at that goodbye, of two at the last."""

from itertools import groupby
from typing import NamedTuple, Optional

from tests.captures.wire import SECOND

# The height of a picture without lanes, and that of a lane; the line on which ticks stand is so far below its top.
BARS, LANE, BASE = 24, 8, 5

# With more captures they have neither signs nor lanes of their own.
SIGNED = 4


class Second(NamedTuple):
    """A whole second in which a record was heard: the moments of its first hearing there and, where the first or the last is a
    goodbye, of that. Of several hearings at one moment that of the greatest TTL is the last."""
    first: int
    goodbye: Optional[int]


def seconds_of(hearings):
    """The seconds in which each record was heard, in order, by its key."""
    heard = {}
    for hearing in hearings:
        heard.setdefault(hearing.key, []).append((hearing.moment, hearing.ttl))
    return {key: [second_of(list(same)) for _, same in groupby(sorted(ages), lambda age: age[0] // SECOND)]
            for key, ages in heard.items()}


def second_of(ages):
    """The second of hearings in order, each a moment and a TTL."""
    goodbyes = [moment for moment, ttl in (ages[0], ages[-1]) if ttl == 0]
    return Second(ages[0][0], goodbyes[-1] if goodbyes else None)


def counts_of(captures):
    """In how many seconds each capture heard a record, and in how many of these its goodbye. Of many captures these numbers of
    all together, how many captures heard the record, and how many captures there are."""
    counts = [(len(seconds), sum(second.goodbye is not None for second in seconds)) for seconds in captures]
    if len(counts) <= SIGNED:
        return counts
    return [tuple(map(sum, zip(*counts))), sum(count > 0 for count, _ in counts), len(counts)]


def lane_count(is_large, captures):
    """How many lanes each picture has: many captures share one, and a large page has none."""
    if is_large:
        return 0
    return 1 if captures > SIGNED else captures


def height_of(lanes):
    return BARS + LANE * lanes


def top_of(lanes, index):
    """Where the lane of a capture begins."""
    return BARS + LANE * index if index < lanes else BARS


def ticks_of(captures, lanes, window, place):
    """The paths of a row's ticks in a window, by the seconds of each capture: the class of each path, its height, and its places."""
    paths = []
    for index, seconds in enumerate(captures if lanes else []):
        heard = {place(second.first) for second in seconds if second.goodbye is None and window.has(second.first)}
        ended = {place(second.goodbye) for second in seconds if second.goodbye is not None and window.has(second.goodbye)}
        top = top_of(lanes, index)
        paths += [(of_class, top, sorted(places)) for of_class, places in (("t", heard), ("z", ended)) if places]
    return paths


def bases_of(axis, lanes):
    """The lines on which ticks stand, by the span of each capture's packets: the height of each, and from where to where.
    There are none without lanes, and one for each capture that recorded at a moment of the axis."""
    return [(top_of(lanes, index) + BASE, *axis.bar(*span)) for index, span in enumerate(axis.spans) if lanes and span and axis.draws(span)]
