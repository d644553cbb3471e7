"""Packets for captures of pages, and what a case of a page is."""

from typing import NamedTuple

from tests.captures.built import frame_of, write_capture
from tests.captures.link import LOCAL, START, Record
from tests.captures.wire import PTR, SECOND, SRV, TXT, A
from tests.judges.judged_page import Asked
from tests.running.runs import placed

HTTP, IPP = ((label, b"_tcp", LOCAL) for label in (b"_http", b"_ipp"))
OVER_UDP, SCTP = ((b"_x", protocol, LOCAL) for protocol in (b"_udp", b"_sctp"))
HOST = (b"host", LOCAL)
TTL = 120

# Labels that would be markup, leave an attribute or an element, turn the direction of what follows, or hide.
HOSTILE = (
    b"<script>alert(1)</script>", b"</bdi><b>bold</b><bdi>", b"\" onload=\"alert(1)", b"' style='color:red",
    b"&lt;&amp;&#60;&", b"<!-- comment", b"--><svg onload=alert(1)>", b"]]>", b"</style><style>*{display:none}",
    b"<a href=\"//x.example\">", "\u202eleft\u202c \u2066isolate\u2069\u200f".encode(),
    "zero\u200bwidth\ufeff\u00ad\u2060".encode(), b"\0\x01\x1b[31m\x7f\n\r\t", b"\xff\xfe\xc3(\xed\xa0\x80",
    "\u0085\u2028\u2029\ufffe\U000e0041".encode(), b"a.b\\.c\\", b" ", b"<" * 63, b"&" * 63, b"\"" * 63, b"\xff" * 63,
    "\u00e9".encode() * 31 + b"\xc3", "\U0001f5a8 \u2014 \u6f22\u5b57 \u05d0\u05d1 \u0627".encode(), b"${7*7}{{x}}%s%n",
)


@placed
class Case(NamedTuple):
    """A page, and the captures that it is of."""
    what: str
    # Names, each with bytes, or with packets as moments and frames.
    files: list
    asked: Asked = Asked()
    # Lines that it has, worked out by hand.
    has: tuple = ()
    place: str = ""

    def lay_out(self, folder):
        """Writes the captures, and answers them by name."""
        files = [(name, content if isinstance(content, bytes) else write_capture(folder / "made", "little-nano", content))
                 for name, content in self.files]
        for name, capture in files:
            (folder / name).parent.mkdir(exist_ok=True)
            (folder / name).write_bytes(capture)
        return files


def wire(folder, packets, magic="little-nano"):
    return write_capture(folder / "made.pcap", magic, packets)


def service(label, of_type=HTTP, flush=False):
    return Record(of_type, PTR, (label, *of_type), flush)


def server(label, of_type=HTTP, host=HOST, port=80, order=(0, 0)):
    return Record((label, *of_type), SRV, (*order, port, host), False)


def text(label, *strings, of_type=HTTP):
    return Record((label, *of_type), TXT, b"".join(bytes((len(string),)) + string for string in strings), False)


def address(last, host=HOST):
    return Record(host, A, bytes((192, 0, 2, last)), False)


def says(moment, *records, ttl=TTL):
    """A packet that tells records."""
    return moment, frame_of([(record, ttl) for record in records])


def bye(moment, *records):
    return says(moment, *records, ttl=0)


def full(moment, label, of_type=HTTP, host=HOST, ttl=TTL):
    """A packet of an instance with all that is about it."""
    return says(moment, service(label, of_type), server(label, of_type, host), text(label, b"path=/", of_type=of_type),
                address(1, host), ttl=ttl)


def at(seconds):
    return START + seconds * SECOND


def nothing(moment):
    """A packet that tells nothing, as nothing is lost with it."""
    return moment, b"\xff" * 12 + b"\x08\x06" + bytes(28)


def alone(what, *packets):
    """A case of one capture."""
    return Case(what, [("a.pcap", list(packets))])
