"""Runs of both programs over the examples, and over small captures of the measurements: all that the fuzzer asks about damaged ones."""

from random import Random

from tests import EXAMPLES
from tests.captures.built import write_capture
from tests.captures.floods import ORDERS, addresses, flushes, records
from tests.captures.link import START, Link
from tests.captures.real import NAMES, repeated
from tests.fuzz.oracles import try_case
from tests.running.program import Finding, Program
from tests.running.runs import PATIENCE, fails

# How many listeners share the packets of a link, and how many times slower one is: so that records end between their hearings.
LISTENERS, SLOWER = 3, 30


def links():
    """Captures by what they are of, each as bytes or as packets."""
    west, east = ((EXAMPLES / name).read_bytes() for name in NAMES)
    packets = list(Link(1, 40).packets(1_000))
    slow = [(START + (moment - START) * SLOWER, frame) for moment, frame in packets]
    # One listener after another hears the next packet.
    shared = [[heard[first::LISTENERS] for first in range(LISTENERS)] for heard in (packets, slow)]
    return {
        "west.pcap": [west], "east.pcap": [east], "the examples": [west, east], "the examples, the other way round": [east, west],
        "the examples twice": list(map(list, repeated(2))), "a link": shared[0], "a slow link": shared[1],
        **{f"flushes, {order}": [flushes(1, 400, 40, order)] for order in ORDERS}, "a burst": [flushes(1, 400, 1, "shuffled")],
        "records heard once": [records(50), addresses(1, 1, "shuffled")]}


def try_links(merge, folder):
    """Tries mdnsmerge and the mdnswhy beside it on all these captures; answers how many failed."""
    programs, failed = [Program(path, folder, PATIENCE) for path in (merge, merge.with_name("mdnswhy"))], 0
    for what, link in links().items():
        captures = [one if isinstance(one, bytes) else write_capture(folder / "made.pcap", "little-nano", one) for one in link]
        try:
            try_case(*programs, Random(0), captures)
        except Finding as finding:
            failed += fails("tests/trials/links.py", f"{what}, as a.pcap and so on", [f"  {finding}"])
    print(f"{sum(sum(one.statuses.values()) for one in programs)} runs over links as the judges have them, {failed} failed")
    return failed
