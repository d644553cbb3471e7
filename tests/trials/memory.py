"""How much memory runs take at their peak: it must not grow with the packets of a capture, nor with the files, and with
the records only by so much each.

Each long run is compared with a short one of the same kind, whose peak it may pass by little."""

import os
import resource
from itertools import islice
from typing import NamedTuple

from tests import TOP
from tests.captures.built import frame_of, labels, lay_out_small, write_capture
from tests.captures.floods import flushes, hearings, instances, late_flushes, records
from tests.captures.link import MICROSECOND, START, Link
from tests.captures.unique import unique
from tests.captures.wire import SECOND, TXT
from tests.captures.written import cells_of
from tests.running.commands import TRACES
from tests.running.measure import become_reaper, cost_of
from tests.running.runs import WHOLE, fails, placed
from tests.trials.page_packets import LOCAL, at, full, says, server, service

# How many mebibytes a long run may take beyond a short one, and any run in all.
GROWTH, CEILING = 1.0, 16.0

# Seconds of processor time for a run.
LIMIT = 60

# The packets of a short run.
FEW = 1_000

# How many instances there are, each heard in every so manieth file; and files that a process has open beside the captures.
SCATTERED, OTHER_FILES = 400, 16


@placed
class Pair(NamedTuple):
    """A long run, and a short one of the same kind: what is asked, of which files, and of which program."""
    what: str
    asked: str
    long: list
    short: list
    program: str = "mdnsmerge"
    growth: float = GROWTH
    ceiling: float = CEILING
    seconds: float = LIMIT
    place: str = ""


def pairs():
    """The runs that are compared."""
    for place, (what, words, bounds) in cells_of(TOP / "trials/memory.rows"):
        program, asked, name, *short = words.split()
        most = {bound: float(size) for bound, size in (word.split("=") for word in bounds.split())}
        yield Pair(what, asked, [f"{name}.pcap"], [f"{one}.pcap" for one in short or [f"{name}-begin"]], program, place=place, **most)
    for trace in TRACES:
        yield Pair(f"200000 packets by {trace}", trace, ["few.pcap"], ["few-begin.pcap"], "mdnswhy")
    some = 1_000 if may_open(1_000) else 500
    yield Pair(f"{some} files", "records", ["one.pcap"] * some, ["one.pcap"])
    yield Pair(f"{some} files with one of {SCATTERED} instances each", "page", scattered(some), scattered(SCATTERED),
               growth=4.0, ceiling=32.0)


def captures():
    """The packets of each capture. Each of the messages of records has ten."""
    few = list(Link(1, 4).packets(FEW))
    yield "few", (again(few, number) for number in range(200_000))
    yield "flushes", flushes(1, 400_000, 4_000, "ascending")
    yield "flood", flushes(1, 400_000, 1, "shuffled")
    yield "heard", unique(hearings(1, 400_000, 1, "shuffled"))
    # Each told by a message of its own, in rounds through the seconds.
    yield "late", unique(late_flushes(1, 100_000, 4, 100))
    yield "new", records(10_000)
    # They come again two seconds later with another TTL.
    yield "again", unique(twice(records(10_000), 2 * SECOND))
    yield "repeated", twice(long_messages(40_000, 500), 0)
    yield "instances", instances(1, 300, "ascending")
    # Each time they have run out.
    gone = says(0, service(b"x"), server(b"x"), ttl=1)[1]
    yield "gone", ((START + 3 * SECOND * number, gone) for number in range(100_000))
    for number, name in enumerate(scattered(SCATTERED)):
        yield name.removesuffix(".pcap"), [full(at(number), b"instance-%d" % number, host=(b"host-%d" % number, LOCAL))]


def scattered(files):
    """So many names of files, each with one of the instances."""
    return [f"scattered-{number % SCATTERED}.pcap" for number in range(files)]


def may_open(files):
    """Whether so many files may be open at once, once that was asked for."""
    _, most = resource.getrlimit(resource.RLIMIT_NOFILE)
    wanted = files + OTHER_FILES
    if most != resource.RLIM_INFINITY and most < wanted:
        return False
    resource.setrlimit(resource.RLIMIT_NOFILE, (wanted, most))
    return True


def twice(packets, later):
    """Packets, each followed by itself so many nanoseconds later."""
    for moment, frame in packets:
        yield moment, frame
        yield moment + later, frame


def long_messages(count, size):
    """Packets of one TXT record, each with another TTL, in messages of so many bytes."""
    owner = labels("long.local")
    # The header, the owner's 12 bytes, and type, class, TTL and length take 34.
    data = b"\1x" * ((size - 34) // 2)
    for number in range(count):
        yield START + number * MICROSECOND, frame_of([((owner, TXT, data, False), 120 + number)])


def again(packets, number):
    """A packet of those that come again and again, each time later."""
    rounds, place = divmod(number, len(packets))
    moment, frame = packets[place]
    return moment + rounds * (packets[-1][0] - packets[0][0]), frame


def write_long(folder, name, packets):
    """Writes a capture, and one of the first packets of it."""
    packets = iter(packets)
    first = list(islice(packets, FEW))
    write_capture(folder / f"{name}-begin.pcap", "little-micro", first)
    write_capture(folder / f"{name}.pcap", "little-micro", (packet for part in (first, packets) for packet in part))


def faults_of(pair, program, folder):
    """What is wrong with the peak of a long run."""
    words = [program.with_name(pair.program), *pair.asked.split("+")]
    costs = [cost_of([*words, *(folder / name for name in names)], os.devnull, int(pair.seconds)) for names in (pair.long, pair.short)]
    if any(cost.status != WHOLE for cost in costs):
        return ["  a run failed"]
    long, short = (cost.mebibytes for cost in costs)
    most = min(short + pair.growth, pair.ceiling)
    return [f"  {long:.1f} MiB, {most:.1f} MiB at most, and {short:.1f} MiB where there is little"] if long > most else []


def try_memory(program, folder):
    """Tries all pairs on a program; answers how many failed."""
    become_reaper()
    lay_out_small(folder)
    for name, packets in captures():
        write_long(folder, name, packets)
    tried = list(pairs())
    failed = sum(fails(pair.place, f"{pair.program} {pair.asked} over {pair.what}", faults_of(pair, program, folder)) for pair in tried)
    print(f"{len(tried)} peaks of memory, {failed} failed")
    return failed
