"""The lines of `records`, read back; and what `types` and `instances` must print where these are live."""

from typing import NamedTuple

from tests.captures.link import META
from tests.captures.wire import A, AAAA, NAMED, PTR, SECOND, SRV, TXT
from tests.judges.shown import labels


class Line(NamedTuple):
    text: str
    owner: tuple
    kind: str
    words: tuple
    ttl: int
    heard: int
    until: int

    @property
    def target(self):
        """The labels of the name in the data of a PTR or SRV."""
        return labels(self.words[-1])

    @property
    def set_key(self):
        return wire_of(self.owner), NAMED[self.kind].number


def lines_of(report):
    return list(map(line_of, report.splitlines()))


def line_of(text):
    owner, kind, *words, _, ttl, _, heard, _, until = text.split(" ")
    return Line(text, labels(owner), kind, tuple(words), int(ttl), moment_of(heard), moment_of(until))


def moment_of(text):
    """A moment in seconds, with a fraction or without."""
    seconds, _, fraction = text.partition(".")
    return int(seconds) * SECOND + int(fraction.ljust(9, "0"))


def wire_of(name):
    """The wire form of a name in lower case."""
    return b"".join(bytes((len(label),)) + label.lower() for label in name) + b"\0"


def is_service(name):
    return len(name) == 3 and name[1].lower() in (b"_tcp", b"_udp") and name[2].lower() == b"local"


def types_names(lines):
    """The names of the service types where these records are live."""
    meta = wire_of(META), PTR
    return [line.words[0] for line in lines if line.set_key == meta and is_service(line.target)]


def instances_text(given, sets):
    """What `instances` prints of the instances that these lines give, where the records of these sets are live."""
    return "".join(instance_text(line, sets) for line in given)


def sets_of(lines):
    """The lines of each record set, by its key."""
    sets = {}
    for line in lines:
        sets.setdefault(line.set_key, []).append(line)
    return sets


def gives_instance(line):
    if line.kind != "PTR" or not is_service(line.owner):
        return False
    return len(line.target) == 4 and wire_of(line.target[1:]) == wire_of(line.owner)


def instance_text(line, sets):
    name = wire_of(line.target)
    below = []
    for server in sets.get((name, SRV), ()):
        priority, weight, port, target = server.words
        below.append(f"  server {target} {port} priority {priority} weight {weight}")
        below += [f"    address {address.words[0]}" for address in addresses_of(server, sets)]
    texts = [" ".join(("  text", *text.words)) for text in sets.get((name, TXT), ())]
    return "".join(f"{said}\n" for said in (line.words[0], *(below or ["  unresolved"]), *texts))


def hosts_in(lines):
    """The lines of the addresses of each owner that has some; those of A are first."""
    hosts = {}
    for line in lines:
        if line.kind in ("A", "AAAA"):
            hosts.setdefault(wire_of(line.owner), []).append(line)
    return list(hosts.values())


def host_text(lines):
    """The line of a host."""
    return " ".join([lines[0].text.split(" ")[0], *(line.words[0] for line in lines)])


def servers_on(host, line, sets):
    """The servers of an instance, given by the line of a PTR record, that are on a host, given by the lines of its addresses."""
    return [server for server in sets.get((wire_of(line.target), SRV), ()) if wire_of(server.target) == wire_of(host[0].owner)]


def addresses_of(server, sets):
    host = wire_of(server.target)
    return sets.get((host, A), []) + sets.get((host, AAAA), [])
