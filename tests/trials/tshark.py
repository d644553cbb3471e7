"""Which packets have which records, as `tshark` reads the example captures: an answer of `mdnswhy hearings` from outside.

Both give for each packet, by its moment and its sender, the records of its response: owner, type, data, TTL and cache-flush bit.
Names are compared as their bytes with dots between the labels, since `tshark` escapes no dot. Where `tshark` isn't installed the
trial is skipped, and says so."""

import shutil
import subprocess
import xml.etree.ElementTree as ElementTree

from tests import EXAMPLES
from tests.captures.real import NAMES
from tests.captures.wire import NAMED, PORT, TYPES, Content
from tests.judges.json_forms import MEMBERS
from tests.judges.shown import bytes_of, labels, short_address
from tests.running.runs import difference, fails

# Responses to the group, each in a packet of its own, right behind the fixed header of IP.
FILTER = (f"mdns && udp.srcport == {PORT} && udp.dstport == {PORT} && (ip.dst == 224.0.0.251 || ipv6.dst == ff02::fb)"
          " && dns.flags.response == 1 && dns.flags.opcode == 0 && dns.flags.rcode == 0 && !(ipv6 && ipv6.nxt != 17)")
WHOLE_PACKETS = ("-o", "ip.defragment:FALSE", "-o", "ipv6.defragment:FALSE")

# The sections whose records are heard; those of the authority section aren't.
SECTIONS = ("Answers", "Additional records")

KINDS = {str(number): one.name for number, one in TYPES.items()}

# The last field of a record before those of its data.
LENGTH = "dns.resp.len"


def line_of(moment, source, owner, kind, words, ttl, flush):
    """A line in which both readers say the same."""
    return " ".join([moment, source, repr(owner), kind, *map(repr, words), f"ttl {ttl}", *["flush"] * flush])


def name_of(text):
    """The bytes of a printed name, with dots between its labels."""
    return b".".join(labels(text)) or b"<Root>"


def words_of(kind, words):
    """The words of a record's data, as they are compared."""
    content = NAMED[kind].content
    if content is Content.ADDRESS:
        return list(map(short_address, words))
    if content is Content.STRINGS:
        return [bytes_of(word) for word in words]
    return [*words[:-1], name_of(words[-1])]


def heard(why, name):
    """What `mdnswhy hearings` prints of a capture."""
    text = subprocess.run([why, "hearings", name], cwd=EXAMPLES, capture_output=True, check=True, encoding="ascii").stdout
    for line in text.splitlines():
        moment, _, source, owner, kind, words, ttl, flush = MEMBERS["hearings"].fullmatch(line).groups()
        yield line_of(moment, short_address(source), name_of(owner), kind, words_of(kind, words.split()), ttl, bool(flush))


def dissected(name):
    """What `tshark` says of a capture."""
    asked = ["tshark", *WHOLE_PACKETS, "-r", name, "-Y", FILTER, "-T", "pdml"]
    text = subprocess.run(asked, cwd=EXAMPLES, capture_output=True, check=True).stdout
    for packet in ElementTree.fromstring(text):
        yield from records_of(packet)


def records_of(packet):
    moment = packet.find(".//field[@name='timestamp']").get("value")
    source = next(found.get("show") for name in ("ip.src", "ipv6.src")
                  if (found := packet.find(f".//field[@name='{name}']")) is not None)
    for section in packet.findall("./proto[@name='mdns']/field"):
        if section.get("show") in SECTIONS:
            for record in section:
                fields = {}
                for field in record:
                    fields.setdefault(field.get("name"), []).append(field)
                kind = KINDS.get(fields["dns.resp.type"][0].get("show"))
                if kind and shows(fields, "dns.resp.class") == ["0x0001"]:
                    yield line_of(moment, source, owner_of(fields), kind, data_of(kind, record),
                                  shows(fields, "dns.resp.ttl")[0], shows(fields, "dns.resp.cache_flush") == ["1"])


def shows(fields, name):
    return [field.get("show") for field in fields.get(name, ())]


def owner_of(fields):
    """The owner of a record. That of an SRV record is in three parts, however many dots the first one has."""
    parts = ["dns.resp.name"] if "dns.resp.name" in fields else ["dns.srv.service", "dns.srv.proto", "dns.srv.name"]
    return ".".join(shows(fields, part)[0] for part in parts).encode()


def data_of(kind, record):
    """The words of a record's data, made of the fields after the length; the strings among them have lengths of their own."""
    names = [field.get("name") for field in record]
    fields = [field for field in record[names.index(LENGTH) + 1:] if not field.get("name").endswith("length")]
    content = NAMED[kind].content
    if content is Content.STRINGS:
        return [bytes.fromhex(field.get("value")) for field in fields if field.get("value")]
    words = [field.get("show") for field in fields]
    return words if content is Content.ADDRESS else [*words[:-1], words[-1].encode()]


def try_tshark(merge, _folder):
    """Tries the mdnswhy that lies beside mdnsmerge; answers over how many captures it differs from `tshark`."""
    if not shutil.which("tshark"):
        print("tshark isn't installed, so no other program has read which packets have which records: skipped")
        return 0
    failed = count = 0
    for name in NAMES:
        must, was = (sorted(lines) for lines in (dissected(name), heard(merge.with_name("mdnswhy"), name)))
        count += len(must)
        texts = ["".join(f"{line}\n" for line in lines) for lines in (must, was)]
        failed += fails(f"examples/{name}", "the records of packets by tshark (-) and by mdnswhy hearings (+)",
                        difference("  the lines", *texts) if must else ["  tshark names no records"])
    print(f"{count} records in the packets that tshark reads of {len(NAMES)} captures, {failed} captures differ")
    return failed
