"""Captures for pages by listener, of which each is one capture of the page, whatever the number of its files."""

from tests.captures.link import START
from tests.captures.wire import SECOND
from tests.judges.judged_page import Asked
from tests.trials.page_packets import Case, alone, at, bye, full, nothing, says, service, wire

# Nine different messages of four records each, from 22:13:20 on, a second apart; and these by a clock that is 4 s ahead.
HEARD = [full(at(second), b"heard-%d" % second) for second in range(9)]
AHEAD = [(moment + 4 * SECOND, frame) for moment, frame in HEARD]

# What the page says of a listener that recorded the nine, and of another that did, too.
ROW = "<bdi>east</bdi><small>9 packets, 36 hearings</small>"
LATER_ROW = "<small>clock beside ①&#160;<bdi>east</bdi>: one clock: 0.000000000 s ahead, by 9 messages heard once in both</small>"


def by(*prefixes, **asked):
    return Asked(listener=prefixes, **asked)


def in_parts(name, packets, *cuts):
    """The files of a listener, each with the packets from one place to the next."""
    bounds = [0, *cuts, len(packets)]
    return [(f"{name}-{number}.pcap", packets[first:last]) for number, (first, last) in enumerate(zip(bounds, bounds[1:]))]


def listeners(folder):
    east, west = in_parts("east", HEARD, 3), in_parts("west", HEARD, 5)
    told = ("<bdi>2 captures</bdi>", ROW, "22:13:20 – 22:13:28 whole", "9 heard, 0 skipped, 0 refused", LATER_ROW,
            "<small>0 messages alone, 0 missed</small>", "heard ① 1×, ② 1×", "The lanes of ticks are the captures, ① on top.")
    yield Case("two files of a listener", [*east, ("west", HEARD)], by("east"), told)
    yield Case("two files of each listener, by turns", [east[0], *west, east[1]], by("west", "east"), told)
    yield Case("seven files of two listeners", in_parts("east", HEARD, 2, 4, 6) + in_parts("west", HEARD, 1, 7), by("west", "east"),
               told)
    yield Case("66 files of two listeners", in_parts("east", HEARD, *range(9), *[9] * 24) + in_parts("west", HEARD, *[4] * 31),
               by("west", "east"), told)
    yield Case("files of a listener in two folders", [(f"{name}/{file[0]}", file[1]) for name, file in zip("ab", east)] + [west[0]],
               by("east"), ("<bdi>2 captures</bdi>", ROW))
    yield Case("all files of one listener", [*east, ("east-late.pcap", AHEAD)], by("east"))
    yield Case("each file a listener by its name", [east[0], *west], by("west-1.pcap", "east-0.pcap"))
    yield Case("a prefix after a longer one", [*east, ("east-2.pcap", HEARD[:2])], by("east-1", "east"),
               ("<bdi>2 captures</bdi>",))
    yield Case("a prefix before a longer one", east, by("east", "east-1"), (ROW,))
    yield Case("a file that no prefix fits", [west[0], ("other.pcap", HEARD[2:4]), *east, west[1]], by("east", "west"),
               ("①&#160;<bdi>west</bdi>", "②&#160;<bdi>other.pcap</bdi>", "③&#160;<bdi>east</bdi>",
                "heard ① 1×, ② <b>never</b>, ③ 1×"))
    yield Case("seven files of five listeners", [*((name, HEARD[:1]) for name in ("1", "2", "3")), *in_parts("a", HEARD, 2), *east],
               by("a", "east"), ("<bdi>5 captures</bdi>", "heard 5× in 5 of 5 captures", "heard 2× in 2 of 5 captures"))
    yield from compared(east)
    yield from damaged(folder)
    yield from goodbyes()
    yield from spans()


def compared(east):
    """What listeners have in common, of which no file alone says it."""
    ahead = "<bdi>west</bdi> beside <bdi>east</bdi>: 4.000000000 s ahead, by 9 messages heard once in both: mdnswhy listeners FILE..."
    yield Case("a listener with a clock 4 s ahead", [*east, *in_parts("west", AHEAD, 4)], by("east", "west"), (ahead,))
    yield Case("a listener with a clock 4 s ahead, before a moment", [*in_parts("west", AHEAD, 4), *east],
               by("east", "west", before=at(2)))
    yield Case("a file twice", [east[0], east[0], ("west", HEARD[:3])], by("east"),
               ("<bdi>east</bdi><small>6 packets, 24 hearings</small>", "can't tell: no message came once in both",
                '<p class="warn">1 of 1 pair of captures: too few messages heard once in both to tell whether their clocks agree: '
                "mdnswhy listeners FILE... says more</p>"))
    # Between the files of one listener the other heard a message alone, and one in each file.
    gap = [*HEARD[:3], *HEARD[6:]]
    yield Case("a gap between the files of a listener", [*in_parts("east", gap, 3), ("west", HEARD)], by("east"),
               ("<small>0 messages alone, 0 missed</small>", "<small>3 messages alone, 0 missed</small>"))
    yield Case("no gap in the file of a listener", [("east", gap), ("west", HEARD)], by("east"),
               ("<small>0 messages alone, 3 missed</small>", "<small>3 messages alone, 0 missed</small>"))
    for count in (63, 64):
        yield Case(f"{count} files, and two of another listener", [*((f"{place}.pcap", HEARD[:2]) for place in range(count)), *east],
                   by("east"), ("<bdi>%d captures</bdi>" % (count + 1),))
    names = ("<b>&\"'-1.pcap", "\u202egnp-1", "<b>&\"'-2.pcap", "\u202egnp-2")
    yield Case("hostile prefixes", [(name, part) for name, part in zip(names, (HEARD[:4], AHEAD[:4], HEARD[4:], AHEAD[4:]))],
               by("<b>&\"'", "\u202e"))


def damaged(folder):
    """Files of a listener that are cut short. The second packet of each begins after the first one and two headers."""
    cut, more = wire(folder, HEARD[3:5])[:-7], wire(folder, HEARD[:1]) + b"\xff" * 16
    place = 24 + 16 + len(HEARD[3][1])
    lost = "What came later is missing, goodbyes too.</p>"
    yield Case("a listener whose second file is cut short", [("east-0.pcap", HEARD[:3]), ("west", HEARD), ("east-1.pcap", cut)],
               by("east"), ("<bdi>east</bdi><small>4 packets, 16 hearings</small>", f'22:13:23 <b class="warn">cut at {place}</b>',
                            f"<bdi>east-1.pcap</bdi>: cut at {place}. {lost}"))
    yield Case("a listener of which two files are damaged", [("east-0.pcap", HEARD[:3]), ("east-1.pcap", more), ("east-2.pcap", cut)],
               by("east"), (f'<b class="warn">fraction out of range at {place}</b>', f"<bdi>east-2.pcap</bdi>: cut at {place}. {lost}",
                            f"<bdi>east-1.pcap</bdi>: fraction out of range at {place}. {lost}"))
    yield Case("a listener of which one file is no capture", [("east-0.pcap", HEARD), ("east-1.pcap", b"no capture, but a longer text")],
               by("east"))
    vlan = START, HEARD[0][1][:12] + b"\x81\0\0\1\x08\0" + HEARD[0][1][14:]
    yield Case("a listener whose files lost packets", [("east-0.pcap", [vlan, nothing(at(1))]), ("east-1.pcap", [vlan, HEARD[1]])],
               by("east"), ("<small>4 packets, 4 hearings</small>", "1 heard, 3 skipped, 0 refused", "2 packets could not be used"))


def goodbyes():
    """Seconds in which several files of a listener heard a record: each counts once, with the goodbye that is first or last in it."""
    one, end = service(b"one"), ("west", [nothing(at(10))])
    yield Case("a goodbye in another file of the listener", [("east-0.pcap", [says(at(1), one)]), ("east-1.pcap", [
        bye(at(1) + 1, one), says(at(2), one)]), end], by("east"), ("heard ① 2× (1\xa0goodbye), ② <b>never</b>",))
    many = [service(b"%d" % number) for number in range(1001)]
    packets = [*(says(at(place), *many[place * 91:][:91]) for place in range(11)), bye(at(60), *many[:500])]
    for count in (2, 7):
        yield Case(f"1001 instances that two listeners heard, one with {count} files",
                   [*in_parts("east", packets, *range(1, count)), end], by("east"), ("heard ① 1×, ② <b>never</b>",))


def spans():
    """Files of a listener without packets, or from another time than its others."""
    empty = [("east-0.pcap", []), ("west", HEARD), ("east-1.pcap", HEARD[:4])]
    yield Case("a listener whose first file has no packets", empty, by("east"), ("<small>4 packets, 16 hearings</small>",
                                                                                "22:13:20 – 22:13:23 whole"))
    yield Case("a listener without packets", [*empty[:2], ("east-1.pcap", [])], by("east"), ("no packets whole",))
    later = [("east-0.pcap", HEARD[6:]), ("east-1.pcap", HEARD[:4]), ("west", HEARD[2:3])]
    yield Case("a listener whose second file is earlier", later, by("east"), ("22:13:20 – 22:13:28 whole",))
    yield Case("a listener whose first file begins after the end", later, by("east", before=at(3)), ("22:13:20 – 22:13:28 whole",))
    yield Case("a listener whose files all begin after the end", [later[0], ("east-1.pcap", HEARD[5:6]), later[2]],
               by("east", before=at(4)), ("22:13:25 – 22:13:28 whole",))
    yield Case("listeners about a word as of a later moment", later, by("east", at=at(50), about=("heard-2.",)),
               ("Only what is about <bdi>heard-2.</bdi>, <bdi>heard-2</bdi>.", "heard ① 1×, ② 1×"))
    yield alone("a listener of one file that is its whole name", *HEARD)._replace(asked=by("a.pcap"))
