"""Captures for pages, each about one thing that a page can get wrong: hostile texts, damaged and cut files, ends of lives,
spans, in which seconds captures heard a record, why packets told nothing, what is asked."""

from tests import EXAMPLES, TOP
from tests.captures.built import frame_of
from tests.captures.floods import ORDERS, flushes
from tests.captures.hostile import product
from tests.captures.link import META, START, Link, Record
from tests.captures.real import NAMES, repeated
from tests.captures.sources import IPV6_SOURCE
from tests.captures.wire import AAAA, LAST_MOMENT, PTR, SECOND, SRV, ipv6_frame
from tests.captures.written import bytes_of, cells_of, expanded
from tests.judges.judged_page import Asked
from tests.trials.page_listeners import in_parts, listeners
from tests.trials.page_names import names
from tests.trials.page_packets import (HOST, HOSTILE, HTTP, IPP, LOCAL, OVER_UDP, SCTP, TTL, Case, address, alone, at, bye,
                                       full, nothing, says, server, service, text, wire)

DAY = 86_400 * SECOND

# 2023-11-14, 22:13:20; and half a minute before that day's end.
NIGHT = 1_700_006_370 * SECOND


def cases(folder):
    """All cases. Bytes of captures are made in the folder."""
    for make in (examples, few, hostile, damaged, causes, ended, spans, lanes, compared, listeners, many, services, names, servers, asked):
        yield from make(folder)


def examples(_):
    files = [(name, (EXAMPLES / name).read_bytes()) for name in NAMES]
    yield Case("the examples", files)
    yield Case("the examples, the other way round", files[::-1])
    yield Case("one example", files[:1])
    yield Case("an example twice", files[:1] * 2)
    yield Case("five captures", [files[0], files[1], files[0], files[1], files[0]])
    yield Case("an example before a moment", files, Asked(before=1_795_332_420 * SECOND))
    yield Case("an example as of a later moment", files, Asked(at=1_795_332_500 * SECOND))
    for name, packets in zip(NAMES, repeated(3)):
        yield Case(f"{name} again and again", [(name, list(packets))])


def few(_):
    yield alone("a capture without packets")
    yield Case("captures without packets", [("a.pcap", []), ("b.pcap", [])])
    yield Case("no packets, as of a moment", [("a.pcap", [])], Asked(at=100 * SECOND))
    yield alone("one packet", full(START, b"one"))
    yield alone("one packet that tells nothing", nothing(START))
    yield Case("one packet beside no packets", [("a.pcap", []), ("b.pcap", [full(START, b"one")]), ("c.pcap", [])])
    yield alone("one goodbye", bye(START, service(b"one")))
    yield alone("the first moment", full(0, b"one"), full(1, b"two"))
    yield alone("the last moment", full(LAST_MOMENT - 1, b"one", ttl=0xFFFFFFFF), full(LAST_MOMENT, b"two"))
    yield Case("four captures", [(f"{place}.pcap", [full(START + place, b"%d" % place)]) for place in range(4)])
    yield Case("six captures, of which one is empty",
               [(f"{place}.pcap", [full(at(place), b"same")] if place else []) for place in range(6)])


def hostile(_):
    yield alone("hostile instances", *(full(START + place, label) for place, label in enumerate(HOSTILE)))
    yield alone("hostile goodbyes", *(full(START, label) for label in HOSTILE), bye(at(5), *map(service, HOSTILE)), nothing(at(9)))
    types = [(label, b"_tcp", LOCAL) for label in HOSTILE]
    yield alone("hostile types", *(full(START, b"one", of_type) for of_type in types))
    yield alone("hostile hosts", *(full(START, b"one", host=(label, label, LOCAL)) for label in HOSTILE))
    texts = [text(b"one", *HOSTILE), *(text(b"one", label) for label in HOSTILE)]
    yield alone("hostile texts", says(START, service(b"one"), *texts))
    names = ("<b>&\"'.pcap", "a\nb\tc.pcap", "\u202egnp.pcap", "\u00e9 \u6f22.pcap", "\\008.pcap")
    yield Case("hostile file names", [(name, [full(START, b"one")]) for name in names[:4]])
    yield Case("hostile file names of many files", [(name, [full(START, b"one")]) for name in names])
    yield Case("a name of a capture that is cut",
               [(names[0], (TOP / "crates/mdnsmerge/data/v1.pcap").read_bytes() + b"\0"), (names[1], [full(START, b"one")])])


def damaged(folder):
    packets = [full(at(second), b"heard-%d" % second) for second in range(10)]
    whole = wire(folder, packets)
    later = [full(at(20), b"late"), bye(at(30), *(service(b"heard-%d" % second) for second in range(10)))]
    yield Case("a listener cut short", [("short.pcap", whole[:-7]), ("long.pcap", packets + later)])
    yield Case("a listener cut within a packet header", [("long.pcap", packets + later), ("short.pcap", whole[:24 + 9])])
    yield Case("a fraction out of range", [("a.pcap", whole + b"\xff" * 40)])
    yield Case("a length out of range", [("a.pcap", whole + bytes(8) + b"\xff" * 8)])
    yield Case("several captures cut short", [(f"{cut}.pcap", whole[:-cut]) for cut in (1, 50, 100, 300, 900)])
    vlan = packets[0][1][:12] + b"\x81\x00\0\1" + packets[0][1][12:]
    yield alone("one lost packet", packets[0], (START, vlan))
    yield alone("lost packets", packets[0], (START, vlan), *((START + cut, packets[1][1][:cut]) for cut in range(80)))
    broken = [(moment, frame[:-9] + b"\xc0" + frame[-8:]) for moment, frame in packets]
    yield Case("messages that are refused", [("a.pcap", broken + packets[:2]), ("b.pcap", broken)])
    for magic in ("big-nano", "big-micro", "little-micro"):
        yield Case(f"a capture of {magic}", [("a.pcap", wire(folder, packets + later, magic))])
    yield Case("a file that is no capture", [("a.pcap", whole), ("b.pcap", b"no capture, but a text of some length")])


def causes(_):
    """Packets that tell nothing, each for one cause."""
    four = full(START, b"one")[1]
    six = frame_of([(service(b"one"), TTL)], ipv6_frame, IPV6_SOURCE)
    known = {"IPV4": four.hex(), "IPV6": six.hex()}
    wrong = {name: bytes_of(expanded(words, known)) for _, (name, words) in cells_of(TOP / "trials/causes.rows")}
    for name, frame in wrong.items():
        yield alone(f"a packet of {name}", (START, four), (at(1), frame))
    told = [(at(place), frame) for place, frame in enumerate(wrong.values())]
    yield alone("packets of each cause", *told)
    files = [("a.pcap", told + told[::2]), ("b.pcap", told[::3]), ("c.pcap", []), ("d.pcap", [(at(5), four)])]
    yield Case("packets of each cause in several captures", files)
    yield Case("packets of each cause, many of them later", files, Asked(before=at(6)))
    yield Case("packets of each cause, of a page about a word", files, Asked(about=("nothing",)))
    yield alone("thousands of queries and tags", *((START + number, wrong["query"]) for number in range(2345)),
                *((START + number, wrong["VLAN tag"]) for number in range(1000)))
    yield alone("a message without a listed record", (START, frame_of([])))


def ended(_):
    one, two = service(b"one"), service(b"two")
    flush = service(b"two", flush=True)
    end = nothing(at(900))
    for ended_at in (999_999_999, SECOND, 2 * SECOND):
        yield alone(f"a goodbye {ended_at} ns ago", full(START, b"one"), bye(at(50), one), nothing(at(50) + ended_at))
    for after in (SECOND, SECOND + 1, 5 * SECOND):
        yield alone(f"a flush {after} ns after a hearing", says(START, one), says(START + after, flush), nothing(at(100)))
    yield alone("a flush half a second ago", says(START, one), says(at(9), flush), nothing(at(9) + SECOND // 2))
    yield alone("flushed again and again",
                *(says(at(10 * number), service(b"%d" % (number % 3), flush=True)) for number in range(20)))
    yield alone("a goodbye that flushes", says(START, one), bye(at(9), flush), nothing(at(20)))
    yield alone("all ends of one record", says(START, one, ttl=5), says(at(20), one), bye(at(30), one), says(at(40), one),
                says(at(50), flush), says(at(70), one), nothing(at(80)))
    yield Case("a record that expired", [("a.pcap", [says(START, one), says(at(1), two, ttl=899)]), ("b.pcap", [end])])
    yield alone("a record that expires with the captures", says(START, one, two, ttl=900), end)
    again = [says(at(200 * number), one) for number in range(12)]
    byes = [bye(at(200 * number + 30), one) for number in range(0, 12, 2)]
    yield alone("many lives", *again, *byes)
    yield Case("many lives, heard in two files in no order",
               [("a.pcap", (again + byes)[::-3] + byes), ("b.pcap", (again + byes)[::2])])
    yield alone("goodbyes of nothing that is live", *(bye(at(3 * number), one) for number in range(5)))
    yield alone("lives too short for the axis", *byes, nothing(START + 40 * DAY))
    yield alone("hundreds of lives", *(packet for number in range(400) for packet in (
        says(at(20 * number), one, ttl=5), bye(at(20 * number + number % 4), two))))
    short = (says(START + number * 1000, service(b"%d" % number), ttl=number % 3) for number in range(30))
    yield alone("several ends at one place", *short, nothing(START + 30 * DAY))
    yield alone("spelled in other ways", says(START, one), says(at(1), service(b"ONE", (b"_HTTP", b"_Tcp", b"Local"))))
    yield alone("heard once with two TTLs", says(START, one, ttl=9), bye(START, one), nothing(at(5)))


def spans(_):
    """Spans for each step of the axis, and across days."""
    seconds = (1, 6, 7, 8, 13, 14, 34, 35, 70, 104, 105, 209, 210, 419, 420, 839, 2099, 4199, 6300, 12_600, 25_199, 50_400,
               75_599, 151_200, 302_399, 302_400, 604_799, 604_800, 1_209_600, 31_536_000, 500_000_000)
    for span in seconds:
        yield alone(f"a span of {span} s", full(NIGHT, b"one"), full(NIGHT + span * SECOND // 3, b"two"),
                    full(NIGHT + span * SECOND, b"three", ttl=4500))
    for nanos in (1, 999, 1000, 1001, 999_999, 1_000_000, 999_999_999, 1_000_000_001):
        yield alone(f"a span of {nanos} ns", full(START, b"one"), full(START + nanos, b"two"))
    yield alone("a page that begins at midnight", full(NIGHT + 30 * SECOND, b"one"), full(NIGHT + 90 * SECOND, b"two"))
    yield Case("a hearing before the start of another file",
               [("late.pcap", [full(at(60), b"one")]), ("early.pcap", [full(START, b"one"), full(at(9), b"two")])])
    yield from years()
    yield from later()
    yield alone("packets in no order", *(full(at(number * 37 % 101), b"%d" % (number % 7)) for number in range(101)))


def years():
    """Spans over the ends of years: of some seconds, of a year, and of many, since the clock of a host or a listener was wrong."""
    for year, new_year in ((2000, 946_684_800), (2024, 1_704_067_200), (2025, 1_735_689_600), (2027, 1_798_761_600)):
        yield alone(f"the last second of a year and the first of {year}", full(new_year * SECOND - 1, b"one"),
                    full(new_year * SECOND, b"two"))
        yield alone(f"the first and the last nanosecond of the year before {year}", full((new_year - 365 * 86_400) * SECOND, b"one"),
                    full(new_year * SECOND - 1, b"two"))
        yield alone(f"a night to {year}", full((new_year - 7000) * SECOND, b"one"), full((new_year + 9000) * SECOND, b"two"),
                    bye((new_year + 9600) * SECOND, service(b"one")), nothing((new_year + 9700) * SECOND))
    yield alone("one day of two years", says(START - 365 * DAY, service(b"one")), says(START, service(b"one")), bye(at(1), service(b"one")),
                nothing(at(9)))
    yield alone("a packet of 1970", full(3 * SECOND, b"pi"), *(full(at(9 * number), b"%d" % number) for number in range(20)))
    yield Case("a capture of 1970 beside another", [("a.pcap", [full(at(1), b"one")]), ("b.pcap", [full(3 * SECOND, b"two")])])
    yield alone("all years", full(0, b"one"), full(LAST_MOMENT, b"two"))


def later():
    """Captures that recorded past the moment that is asked for, or began after it."""
    packets = [full(START, b"one"), full(at(20), b"two")]
    for what, end in (("a day", START + DAY), ("a year", START + 365 * DAY), ("a minute", at(60))):
        files = [("a.pcap", [*packets, full(end, b"three")]), ("b.pcap", packets)]
        yield Case(f"before a moment, and {what} more", files, Asked(before=at(30)))
        yield Case(f"before a moment, and {what} more in the second capture", files[::-1], Asked(before=at(30)))
        began = [("a.pcap", packets), ("b.pcap", [full(end, b"three"), full(end + SECOND, b"four")]), ("c.pcap", [])]
        yield Case(f"before a moment, and a capture that begins {what} later", began, Asked(before=at(30)))
        yield Case(f"before a moment, and five captures of which some begin {what} later", began + began[:2], Asked(before=at(30)))
    for first in (at(30) - 1, at(30), at(30) + 1):
        yield Case(f"before a moment, and a capture from {first - at(30)} ns after it",
                   [("a.pcap", packets), ("b.pcap", [full(first, b"three")])], Asked(before=at(30)))
    yield Case("before all captures of a later day", [("a.pcap", packets), ("b.pcap", packets[1:])], Asked(before=START - DAY))
    yield Case("captures that end a day later, as of the moment of a hearing",
               [("a.pcap", [*packets, nothing(START + DAY)])], Asked(at=at(20)))


def compared(_):
    """Captures that share a clock and a link or not, and what each heard alone and missed."""
    heard = [full(at(second), b"heard-%d" % second) for second in range(9)]
    other = [full(at(second), b"other-%d" % second) for second in range(9)]

    def ahead(packets, *nanos):
        """Packets by a clock that is ahead, by these nanoseconds in turn."""
        return [(moment + nanos[place % len(nanos)], frame) for place, (moment, frame) in enumerate(packets)]

    for what, nanos in {"4 s behind": [-4 * SECOND], "a tenth of a second ahead": [SECOND // 10], "unsteady": [0, SECOND, 2 * SECOND]}.items():
        yield Case(f"a clock {what}", [("a.pcap", heard), ("b.pcap", ahead(heard, *nanos))])
    yield Case("a clock 4 s ahead, and other messages",
               [("a.pcap", heard + other[:3]), ("b.pcap", ahead(heard[1:] + other[5:], 4 * SECOND))])
    yield Case("two links, and a clock 4 s ahead on each",
               [("a.pcap", heard), ("b.pcap", other), ("c.pcap", ahead(heard, 4 * SECOND)), ("d.pcap", ahead(other, 4 * SECOND))])
    yield Case("three captures, of which the third has nothing in common with the first",
               [("a.pcap", heard[:4]), ("b.pcap", heard), ("c.pcap", heard[4:])])
    yield Case("six captures, each with a clock of its own",
               [(f"{place}.pcap", ahead(heard, place * SECOND)) for place in range(6)])
    yield Case("hostile file names, and a clock 4 s ahead",
               [("<b>&\"'.pcap", heard), ("\u202egnp.pcap", ahead(heard, 4 * SECOND)), ("c.pcap", [])])
    yield Case("before a moment, and a clock 4 s ahead by later messages",
               [("a.pcap", heard), ("b.pcap", ahead(heard, 4 * SECOND))], Asked(before=at(2)))


def lanes(_):
    """Seconds in which captures heard a record. What is heard within one has different places."""
    one, end = service(b"one"), nothing(at(10))

    def heard(what, *tenths, ttls):
        packets = [says(START + tenth * SECOND // 10, one, ttl=ttl) for tenth, ttl in zip(tenths, ttls)]
        yield alone(f"{what} in one second", *packets, end)
        files = in_parts("a.pcap", [*packets, end], *range(1, len(packets) + 1))
        yield Case(f"{what} in one second, each in a file of one listener", files, Asked(listener=("a.pcap",)))

    yield from heard("a hearing and a goodbye", 2, 7, ttls=(9, 0))
    yield from heard("a goodbye and a hearing", 2, 7, ttls=(0, 9))
    yield from heard("a goodbye between hearings", 2, 5, 8, ttls=(9, 0, 9))
    yield from heard("a hearing between goodbyes", 2, 5, 8, ttls=(0, 9, 0))
    yield from heard("two hearings", 1, 9, ttls=(9, 1))
    yield from heard("two goodbyes", 1, 9, ttls=(0, 0))
    yield from heard("hearings and a goodbye in no order", 9, 2, 7, ttls=(9, 0, 9))
    yield from heard("goodbyes and a hearing in no order", 9, 2, 7, ttls=(0, 9, 0))
    yield from heard("a goodbye before a hearing of its moment", 3, 3, ttls=(0, 9))
    yield alone("the last nanoseconds of seconds, and the first", says(at(1) - 1, one), bye(at(1), one),
                says(at(2) - 1, one), says(at(2), one), bye(at(3) - 1, one), bye(at(4), one), end)
    yield alone("goodbyes of an address", full(START, b"one"), bye(at(2), address(1)), full(at(3), b"two"), end)
    yield alone("seconds at one place", *(says(at(2 * number), one, ttl=number % 3) for number in range(60)),
                nothing(START + 30 * DAY))
    yield alone("a thousand goodbyes", *(says(at(2 * number), one, ttl=number % 2) for number in range(2002)))
    yield from captures_of_lanes(one)
    services = [service(b"%d" % number) for number in range(1001)]
    for count, captures in ((1000, 2), (1000, 5), (1001, 2), (1001, 5)):
        told = [services[number:min(count, number + 100)] for number in range(0, count, 100)]
        packets = [*(says(at(number), *some) for number, some in enumerate(told)), *(bye(at(60), *some) for some in told)]
        yield Case(f"{count} instances that {captures} captures heard",
                   [(f"{place}.pcap", packets[place::place + 1]) for place in range(captures)])


def captures_of_lanes(one):
    """Captures of which each heard another part of what was said of a record, one has no packets, and one no hearing."""
    told = [says(START + SECOND // 5, one), bye(START + SECOND // 2, one), says(at(3), one), bye(at(5), one), says(at(6), one)]
    parts = [told, told[::2], told[1::2], [], [nothing(at(4)), nothing(at(10))], told[3:4], told[::-1], [says(at(8), one)]]
    files = [(f"{place}.pcap", part) for place, part in enumerate(parts)]
    for count in (2, 3, 4, 5, 8):
        yield Case(f"{count} captures of one record", files[:count])
        yield Case(f"{count} captures of one record, the last ones", files[-count:])
        yield Case(f"{count} captures of one record, before its first goodbye", files[-count:], Asked(before=START + SECOND // 2))
    yield Case("captures of one record before another begins", files[::-1][:4], Asked(before=at(6)))
    yield Case("captures of one record as of a later moment", files[:3], Asked(at=at(50)))
    yield Case("five captures without packets", [(name, []) for name, _ in files[:5]])


def many(_):
    # All are on one host, whose address has a row.
    for count in (199, 200):
        types = [(HTTP, IPP)[number % 2] for number in range(count)]
        yield alone(f"{count} instances", *(full(START + number, b"%d" % number, types[number]) for number in range(count)))
    for count in (1000, 1001):
        yield alone(f"{count} lives", *(says(at(20 * number), service(b"one"), ttl=5) for number in range(count)))
        yield alone(f"{count} lives of an instance and an address", *(
            says(at(20 * number), address(1) if number % 3 else service(b"one"), ttl=5) for number in range(count)))
        yield alone(f"{count} instances, and addresses", says(at(3), address(1), address(2, (b"other", LOCAL))), *(
            says(at(number // 100), service(b"%d" % number)) for number in range(count)))
    yield alone("1001 lives in two rows", *(
        says(at(20 * number), service(b"one" if number % 3 else b"two"), ttl=5) for number in range(1001)))
    yield alone("a thousand instances and more", *(
        says(at(number), *(service(b"%d-%d" % (number, one)) for one in range(100))) for number in range(11)))
    yield alone("servers on one host with many addresses", *product(1, 20, 3))
    yield alone("a small link", *Link(1, 6).packets(300))
    packets = [(START + (moment - START) * 30, frame) for moment, frame in Link(2, 20).packets(900)]
    yield Case("a slow link of three listeners", [(f"{first}.pcap", packets[first::3]) for first in range(3)])
    for order in ORDERS:
        yield alone(f"flushes, {order}", *flushes(1, 400, 40, order), full(START, b"one"))


def services(_):
    one = service(b"one")
    yield alone("unresolved", says(START, one))
    servers = (server(b"one"), server(b"one", port=81, order=(1, 0)), server(b"one", host=(b"other", LOCAL), order=(0, 7)),
               server(b"one", host=(), port=0))
    texts = [text(b"one", *strings) for strings in ((b"b=2", b"a"), (), (b"",), (b"", b"c"), (b"c", b""))]
    yield alone("several servers and texts",
                says(START, one, *servers, *texts, address(7), address(3), address(9, (b"OTHER", LOCAL))))
    addresses = [Record(HOST, AAAA, bytes.fromhex(digits), False) for digits in (
        "00000000000000000000000000000000", "00000000000000000000000000000001", "20010db8000000010000000000000001",
        "0001000000000002000000000000ffff", "fe800000000000000000000000000000", "00000000000000000000ffffc0000201")]
    told = [(record, TTL) for record in (one, server(b"one"), *addresses, address(0), address(255))]
    yield alone("addresses of all forms", (START, frame_of(told, ipv6_frame, IPV6_SOURCE)))
    pointers = ((META, HTTP), ((b"_sub", *HTTP), (b"one", *HTTP)), (HTTP, (b"one", *IPP)), (HTTP, HTTP),
                (HTTP, (b"a", b"b", *HTTP)), (SCTP, (b"one", *SCTP)), (HTTP[:2], (b"one", *HTTP[:2])), (OVER_UDP, (b"one", *OVER_UDP)),
                ((b"_x", b"_TCP", b"LOCAL"), (b"one", b"_X", b"_tcp", b"Local")))
    yield alone("records of which most give no instance",
                says(START, *(Record(owner, PTR, target, False) for owner, target in pointers)))
    yield alone("parts that ended before the instance", says(START, one, ttl=4500), says(START, server(b"one"), ttl=5),
                says(START, text(b"one", b"x"), ttl=5), nothing(at(60)))
    yield alone("how long is left", *(says(START, service(b"%d" % ttl), ttl=ttl) for ttl in (
        1, 2, 59, 60, 61, 119, 3599, 3600, 3660, 86_399, 86_400, 90_000, 0x7FFFFFFF, 0xFFFFFFFF)))


def servers(_):
    """Servers that live and end apart from their instances."""
    one, first, other = service(b"one"), server(b"one"), server(b"one", port=81)
    later = server(b"one", host=(b"zebra", LOCAL), order=(9, 0))
    yield alone("a server that moves", says(START, one, first), bye(at(9), first), says(at(9), other), says(at(30), later),
                bye(at(31), later), says(at(60), one, later), nothing(at(70)))
    yield alone("a server that comes and goes", says(START, one, ttl=4500), *(
        packet for number in range(9) for packet in (says(at(20 * number), first), bye(at(20 * number + 7), first))))
    yield alone("a server that is flushed", says(START, one, first),
                says(at(9), Record((b"one", *HTTP), SRV, (0, 0, 81, HOST), True)), nothing(at(20)))
    yield alone("servers of names in another case", says(START, service(b"oNe"), server(b"OnE")), says(at(5), server(b"one")),
                says(at(6), server(b"ONE", (b"_HTTP", b"_TCP", b"LOCAL"), port=81)))
    yield alone("servers of other names", says(START, one, service(b"two"), server(b"two"), server(b"one2"), server(b"on")),
                says(at(1), server(b"one", IPP), Record(HTTP, SRV, (0, 0, 80, HOST), False)),
                says(at(2), server(b"three"), text(b"one", b"a"), address(1, (b"one", *HTTP))), nothing(at(9)))
    yield alone("a server heard before its instance, and after", says(START, first, ttl=5), says(at(10), one, ttl=5),
                says(at(20), first, ttl=5), nothing(at(30)))
    yield Case("servers heard in one file, and instances in another",
               [("a.pcap", [says(START, one, ttl=99)]), ("b.pcap", [says(at(9), first, other), bye(at(20), other)])])
    names = [b"%d" % number for number in range(40)]
    yield alone("many servers among many", *(
        says(at(number), service(name), *(server(name, port=port) for port in range(number % 4)))
        for number, name in enumerate(names)))
    for count in (199, 200):
        yield alone(f"{5 * count + 5} lives with those of servers", says(START, one, ttl=4500), says(at(1), service(b"two")),
                    *(says(at(20 * number), server(b"one", port=port), ttl=5) for number in range(count) for port in range(5)),
                    says(at(2), server(b"two"), server(b"two", port=81), server(b"two", port=82)))
    yield alone("servers in one place, without titles", says(START, one, ttl=4500), *(
        says(START + number * 20 * SECOND, first, ttl=number % 3) for number in range(1100)), nothing(START + 40 * DAY))
    yield alone("one label under two types", *(says(at(number), service(b"one", of_type), server(b"one", of_type))
                                               for number, of_type in enumerate((HTTP, IPP))))
    there = says(at(1), service(b"two"), server(b"two", host=(b"elm", LOCAL)))
    left = bye(at(9), server(b"two", host=(b"elm", LOCAL)))
    yield Case("servers of what a page is about", [("a.pcap", [full(START, b"one"), there, left])], Asked(about=("elm",)))


def asked(_):
    packets = [full(START, b"one"), full(at(1), b"two", IPP, (b"printer", LOCAL)), bye(at(9), service(b"one")),
               full(at(20), b"three")]
    files = [("a.pcap", packets), ("b.pcap", packets[2:])]
    for seconds in (0, 1, 9, 10, 11, 20, 21, 500):
        yield Case(f"before {seconds} s", files, Asked(before=at(seconds)))
    for seconds in (20, 21, 100, 200, 100_000):
        yield Case(f"as of {seconds} s", files, Asked(at=at(seconds)))
    yield Case("before a fraction of a second", files, Asked(before=START + SECOND + 1))
    yield Case("before all of 1970", files, Asked(before=0))
    yield Case("as of a moment that is too early", files, Asked(at=START))
    for word in ("one", "_ipp._tcp", "printer", "192.0.2.1", "nothing at all", "ONE._http._tcp.local"):
        yield Case(f"about {word}", files, Asked(about=(word,)))
    yield Case("about two words before a moment", files, Asked(before=at(5), about=("two", "one")))
    yield from windows(files)
    yield from about_hosts()


def windows(files):
    """Pages of windows: before, within and after what was recorded, at the bounds of lives, and of more than what was recorded."""
    for since, until in ((None, 9), (9, None), (9, 10), (10, 20), (11, 19), (-50, -20), (-50, 500), (10, 11), (140, 141), (500, None), (None, -5)):
        window = {flag: at(second) for flag, second in (("since", since), ("until", until)) if second is not None}
        yield Case(f"a window from {since} s to {until} s", files, Asked(**window))
        yield Case(f"a window from {since} s to {until} s before a moment", files, Asked(before=at(15), about=("one", "printer"), **window))
    yield Case("a window as of a later moment", files, Asked(at=at(100), since=at(50)))
    for nanos in (-1, 0, 1):
        yield Case(f"a window from {nanos} ns after a life, to its begin", files, Asked(since=at(10) + nanos, until=at(20) + nanos))
    yield Case("a window of a nanosecond", files, Asked(since=at(20), until=at(20) + 1))
    yield Case("a window across a day", [("a.pcap", [full(NIGHT, b"one"), full(NIGHT + DAY, b"two")])],
               Asked(since=NIGHT + DAY - SECOND, until=NIGHT + DAY + 1))
    many = [("a.pcap", [says(at(20 * number), service(b"one"), ttl=5) for number in range(1200)])]
    for count in (1, 1001):
        yield Case(f"a window with {count} of 1200 lives", many, Asked(until=at(20 * count)))
    yield Case("a window of five captures", (files * 3)[:5], Asked(since=at(9), until=at(20)))


def about_hosts():
    """Pages about hosts and addresses, also of instances that ended, and of servers that are others at the end."""
    elm, oak, ash = ((label, LOCAL) for label in (b"elm", b"oak", b"ash"))
    six = Record(elm, AAAA, bytes.fromhex("20010db8" + "0" * 23 + "1"), False)
    packets = [full(START, b"stays", host=elm), says(START, six), full(at(1), b"ends", IPP, oak),
               bye(at(9), service(b"ends", IPP), server(b"ends", IPP, oak), address(1, oak)),
               # It moves from one host to another, whose address is another one later.
               says(at(2), service(b"moves"), server(b"moves", host=oak), address(2, ash)),
               bye(at(11), server(b"moves", host=oak)), says(at(11), server(b"moves", host=ash, port=81)),
               bye(at(12), address(2, ash)), says(at(12), address(3, ash)),
               # A server whose target has no address, one that no instance has, and an address of no server.
               says(at(13), service(b"alone"), server(b"alone", host=(b"nowhere", LOCAL))),
               says(at(13), server(b"hidden", host=elm), address(9, (b"yew", LOCAL)))]
    files = [("a.pcap", packets), ("b.pcap", packets[1::2])]
    for word in ("elm", "ELM.local", "oak", "ash.local", "nowhere", "yew", "192.0.2.1", "192.0.2.2", "192.0.2.3",
                 "192.0.2.9", "2001:DB8::1", "2001:0db8:0000:0000:0000:0000:0000:0001", "hidden", "stays", "80",
                 "oak.local:80", "<oak>"):
        yield Case(f"about {word}, of hosts", files, Asked(about=(word,)))
    yield Case("about two hosts", files, Asked(about=("elm", "nowhere.local")))
    yield Case("about a host before it was heard", files, Asked(before=at(1), about=("oak",)))
    yield Case("about a host that was left", files, Asked(before=at(12), about=("oak", "192.0.2.2")))
    for word, told in (("elm.", "<bdi>elm.</bdi>, <bdi>elm</bdi>"), ("192.0.2.9.", "<bdi>192.0.2.9.</bdi>, <bdi>192.0.2.9</bdi>"),
                       (".", "<bdi>.</bdi>"), ("elm\\.", "<bdi>elm\\\\.</bdi>"),
                       ("oak.local..", "<bdi>oak.local..</bdi>, <bdi>oak.local.</bdi>")):
        yield Case(f"about {word}, of hosts", files, Asked(about=(word, "yew")), (f"Only what is about {told}, <bdi>yew</bdi>.",))
    yield Case("about words of markup", files, Asked(about=("</bdi><b>", "&amp;", "\u202eelm", "elm")))
