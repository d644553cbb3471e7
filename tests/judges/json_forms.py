"""What `--json` must print, made of the lines of words that the same question gives, and of nothing else where these say all.

Whether an instance said goodbye follows from the records of the same captures, and what `files` counts beyond its line from
`check`."""

import json
import re

from tests.captures.wire import NAMED
from tests.judges.lives import CHOICES
from tests.judges.shown import LABEL, shown_name, shown_of

RECORD = rf"(?P<owner>\S+) (?P<type>{'|'.join(NAMED)})(?P<data>(?: \S+)*)"
END = r"ttl (?P<ttl>\d+) heard (?P<heard>\S+) until (?P<until>\S+)"
MEMBERS = {
    "records": re.compile(rf"{RECORD} {END}"),
    **dict.fromkeys(CHOICES, re.compile(rf"{RECORD} from (?P<from>\S+) {END} (?P<end>\w+)")),
    "types": re.compile(r"(?P<type>\S+)"),
    "hearings": re.compile(rf"(?P<moment>\S+) (?P<file>\S+) (?P<source>\S+) {RECORD} ttl (?P<ttl>\d+)(?P<flush> flush)?"),
    "packets": re.compile(r"(?P<moment>\S+) (?P<file>\S+) (?P<offset>\d+) (?P<status>skipped|refused|heard) (?P<cause>.*?)"
                          r"(?: at (?P<at>\d+))?"),
}

SPAN = re.compile(r"(\S+) packets (\S+) (\S+) hearings (\S+) (\S+) snap (\d+)")
SERVER = re.compile(r"  server (\S+) (\d+) priority (\d+) weight (\d+)")
FILE = re.compile(r"(\S+) pcap (.*) packets (\d+) (\S+) (\S+) hearings (\d+)")
CHECKED = re.compile(r"(\S+): packets \d+ skipped (\d+) refused (\d+) messages (\d+) hearings \d+ .*")
BETWEEN = r"from (?P<from>\S+) until (?P<until>\S+)"
LISTENER = re.compile(rf"(?P<file>\S*) heard (?P<heard>\d+) alone (?P<alone>\d+) missed (?P<missed>\d+) {BETWEEN}")
APART = re.compile(r"(?P<file>\S*) (?P<other>\S*) common (?P<common>\d+) ahead (?P<ahead>\S+) from (?P<low>\S+) to (?P<high>\S+) "
                   r"by (?P<by>\d+)")
SENDER = re.compile(rf"(?P<source>\S+) (?P<file>\S*) heard (?P<heard>\d+) missed (?P<missed>\d+) {BETWEEN}(?P<names>(?: \S+)*)")
NOTE = re.compile(r"\S+ (?:lost (\d+) ([^:]*)|ends early|heard nothing): (.*)")

# Members that are numbers.
NUMBERS = ("ttl", "offset", "at")

# Of listeners some that count are numbers, and names aren't moments, even one that is a dash.
COUNTS, NAMES = ("heard", "alone", "missed", "common", "by"), ("file", "other", "source")


def text_of(members):
    """A line of JSON."""
    return json.dumps(members, ensure_ascii=False, separators=(",", ":")) + "\n"


def object_of(layout, line):
    """The object of a line, of which the members come in the order of its words."""
    members = {}
    for name, word in layout.fullmatch(line).groupdict().items():
        if name == "data":
            members["data"] = word.split()
            members["shown"] = shown_of(members)
        elif name == "flush":
            members["flush"] = word is not None
        elif word is not None:
            members[name] = int(word) if name in NUMBERS else word
    if list(members) == ["type"]:
        members["shown"] = shown_name(members["type"])
    return members


def spans_of(text, _other):
    for line in text.splitlines():
        name, *moments, snap = SPAN.fullmatch(line).groups()
        packets, hearings = (bounds(*moments[at:at + 2]) for at in (0, 2))
        yield {"file": name, "packets": packets, "hearings": hearings, "snap": int(snap)}


def bounds(first, last):
    return None if first == "-" else {"first": first, "last": last}


def instances_of(text, other):
    """The objects of instances, each of a line without an indent and those below it."""
    given = {}
    for line in other("records").splitlines():
        record = MEMBERS["records"].fullmatch(line)
        if record["type"] == "PTR":
            given[record["owner"].lower(), record["data"].strip()] = record["owner"], record["ttl"] == "0"
    for name, *below in (block.splitlines() for block in re.split(r"\n(?=\S)", text.removesuffix("\n")) if block):
        servers, texts = [], []
        for line in below:
            what, *words = line.split()
            if what == "server":
                target, port, priority, weight = SERVER.fullmatch(line).groups()
                servers.append({"target": target, "shown": shown_name(target), "port": int(port), "priority": int(priority),
                                "weight": int(weight), "addresses": []})
            elif what == "address":
                servers[-1]["addresses"] += words
            elif what == "text":
                texts.append(words)
        # The type is spelled as the owner of the PTR record, and not as in the name of the instance.
        kind, goodbye = given[name[len(LABEL.match(name)[0]) + 1:].lower(), name]
        yield {"instance": name, "shown": shown_of({"instance": name}), "type": kind, "goodbye": goodbye, "servers": servers,
               "texts": texts}


def hosts_of(text, other):
    """The objects of hosts, each of a line, with the instances that have a server on it; and its services, which only CSV has."""
    instances = list(instances_of(other("instances"), other))
    for line in text.splitlines():
        host, *addresses = line.split()
        services = [(one["instance"], server["port"]) for one in instances for server in one["servers"]
                    if server["target"].lower() == host.lower()]
        yield {"host": host, "shown": shown_name(host), "addresses": addresses,
               "instances": list(dict.fromkeys(instance for instance, _ in services)), "services": services}


def files_of(text, other):
    """The objects of captures: the line of each, and those below it, which say what it lost and what to do."""
    checked = map(CHECKED.fullmatch, other("check").splitlines())
    counts = {found[1]: [int(number) for number in found.groups()[1:]] for found in checked}
    found = []
    for line in text.splitlines():
        of_file = FILE.fullmatch(line)
        if of_file:
            found.append((of_file, [], []))
            continue
        lost, cause, cure = NOTE.fullmatch(line).groups()
        if lost:
            found[-1][1].append({"cause": cause, "packets": int(lost), "do": cure})
        else:
            found[-1][2].append(cure)
    for of_file, lost, cures in found:
        name, ending, packets, first, last, hearings = of_file.groups()
        yield {"file": name, "is": "capture", **({"do": "; ".join(cures)} if cures else {}),
               **({} if first == "-" else {"first": first, "last": last}), "packets": int(packets),
               **dict(zip(("skipped", "refused", "messages"), counts[name])), "hearings": int(hearings), "ending": ending,
               "lost": lost}


def listeners_of(text, _other):
    """The objects of listeners, of each two, and of what each heard of a sender."""
    for line in text.splitlines():
        found = next(filter(None, (layout.fullmatch(line) for layout in (LISTENER, APART, SENDER))))
        words = found.groupdict()
        names = words.pop("names", None)
        members = {name: word if name in NAMES else int(word) if name in COUNTS else None if word == "-" else word
                   for name, word in words.items()}
        yield members if names is None else {"source": members.pop("source"), "names": names.split(), **members}


BLOCKS = {"spans": spans_of, "instances": instances_of, "hosts": hosts_of, "files": files_of, "listeners": listeners_of}


def objects_of(command, text, other):
    """The objects of a command that prints this text of words; `other` gives the text of another command over the same files."""
    if command in BLOCKS:
        return list(BLOCKS[command](text, other))
    return [object_of(MEMBERS[command], line) for line in text.splitlines()]


def json_text(_, objects):
    return "".join(text_of({name: told for name, told in one.items() if name != "services"}) for one in objects)
