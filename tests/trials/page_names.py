"""Captures for pages of names under a service type that aren't one label and the type, as an instance's name is."""

from tests.captures.link import META, START, Record
from tests.captures.wire import PTR, SRV
from tests.judges.judged_page import Asked
from tests.trials.page_packets import (HOST, HOSTILE, HTTP, IPP, LOCAL, OVER_UDP, SCTP, Case, address, alone, at, bye, nothing,
                                       says, service)

# Said with a dot that isn't escaped.
DOTTED = (b"Hazel v2", b"0 Web", *HTTP)


def pointer(*name, of_type=HTTP):
    """A record that points from a type to a name."""
    return Record(of_type, PTR, name, False)


def names(_):
    dotted, served = pointer(*DOTTED), Record(DOTTED, SRV, (0, 0, 80, HOST), False)
    several = [dotted, pointer(b"a", b"b", b"c", *HTTP), pointer(*HTTP), pointer(b"one", *IPP), pointer(b"one", LOCAL),
               pointer(), pointer(b"x", b"y", *IPP, of_type=IPP), pointer(b"q", b"r", *OVER_UDP, of_type=OVER_UDP)]
    yield alone("a name of two labels before its type", says(START, dotted))
    yield alone("names of several labels", says(START, service(b"one"), *several), bye(at(9), *several[::2]),
                says(at(20), *several[::3]), nothing(at(99)))
    yield alone("names of several labels, and no instance", says(START, *several, address(1)), says(at(5), dotted))
    yield alone("a name of several labels in another case", says(START, pointer(b"A", b"b", *HTTP)),
                bye(at(3), pointer(b"a", b"B", b"_HTTP", b"_Tcp", b"LOCAL")),
                says(at(9), pointer(b"A", b"B", *HTTP, of_type=(b"_hTTp", b"_TCP", b"Local"))))
    yield alone("a flushed name of several labels", says(START, *several[:2]),
                says(at(5), service(b"one", flush=True)), nothing(at(9)))
    yield alone("a name of several labels with a server", says(START, dotted), says(at(1), served, address(4)), bye(at(8), served))
    yield alone("hostile names of two labels", *(
        says(START + place, pointer(label, label, *HTTP)) for place, label in enumerate(HOSTILE)))
    yield alone("hostile names beside types", *(says(START + place, pointer(label, *IPP)) for place, label in enumerate(HOSTILE)))
    others = (SCTP, HTTP[:2], META, (b"_sub", *HTTP), HOST)
    yield alone("names of several labels under what is no type",
                says(START, *(pointer(b"a", b"b", *owner, of_type=owner) for owner in others)))
    yield from counted(dotted)
    files = [("a.pcap", [says(START, service(b"one"), *several), bye(at(9), dotted)]), ("b.pcap", [says(at(5), dotted)])]
    for word in ("Hazel v2.0 Web", "hazel v2.0 web._HTTP._tcp", "Hazel v2", "0 Web", "_http._tcp", "_ipp._tcp.local", "one", "."):
        yield Case(f"about {word}, of names of several labels", files, Asked(about=(word,)))
    yield Case("names of several labels before a goodbye", files, Asked(before=at(9)))
    yield Case("names of several labels as of a later moment", files, Asked(at=at(500)))


def counted(dotted):
    """As many captures, instances and lives as a page has lanes, open groups, rows and titles for, and more."""
    heard = [says(at(2 * number), dotted, ttl=number % 3) for number in range(40)]
    for count in (2, 3, 5):
        yield Case(f"a name of two labels that {count} captures heard",
                   [(f"{place}.pcap", heard[place::place + 1]) for place in range(count)])
    for count in (198, 199):
        yield alone(f"{count} instances, an address and a name of two labels", says(START, dotted, address(1)), *(
            says(at(number), service(b"%d" % number)) for number in range(count)))
    for count in (1000, 1001):
        yield alone(f"{count} instances, and names of two labels", says(START, dotted, address(1)), *(
            says(at(number // 100), service(b"%d" % number)) for number in range(count)))
        yield alone(f"{count} lives of a name and an address", *(
            says(at(20 * number), address(1) if number % 3 else dotted, ttl=5) for number in range(count)))
