"""The lines of words that `mdnswhy listeners` must print of captures, made from their bytes by its definitions, apart from the
programs: which messages each listener heard, alone or not, and missed, and how far the clocks of two are apart.

JSON and columns follow from these lines."""

from collections import defaultdict
from functools import lru_cache
from typing import NamedTuple, Optional

from tests.captures.wire import A, AAAA
from tests.judges.hearings import number_at, payload_of, source_of, told_by
from tests.judges.json_forms import APART
from tests.judges.pretty import is_untold, warned_words
from tests.judges.savefile import frames_in
from tests.judges.words import file_text, moment_text, name_text

COMMAND = "listeners"

# How many bytes an address of IPv4 has.
OF_IPV4 = 4

# The most files that are compared for warnings.
MOST_COMPARED = 64


class Message(NamedTuple):
    """What makes messages the same: the address of the sender, and the payload."""
    source: bytes
    payload: bytes


class Span(NamedTuple):
    """From the earliest to the latest of some moments."""
    first: int
    last: int

    def has(self, moment):
        return self.first <= moment <= self.last

    def meets(self, other):
        return self.has(other.first) or other.has(self.first)


def span_of(moments):
    return Span(min(moments), max(moments)) if moments else None


class Recorded(NamedTuple):
    """What is in a file: the span of its packets, its messages with their moments, and whose name each address is, by the
    owners of address records."""
    span: Optional[Span]
    messages: list
    names: set


@lru_cache(maxsize=64)
def recorded_in(capture):
    packets, messages, names = [], [], set()
    for moment, frame in frames_in(capture):
        packets.append(moment)
        told = told_by(frame)
        if told:
            messages.append((moment, Message(source_of(frame), payload_of(frame))))
        names.update((data, owner) for _, _, owner, kind, data in told if kind in (A, AAAA))
    return Recorded(span_of(packets), messages, names)


class Listener:
    """The files of a listener, together."""

    def __init__(self, name, captures):
        self.name, self.captures, files = name, captures, list(map(recorded_in, captures))
        self.spans = [file.span for file in files if file.span]
        self.span = span_of([moment for span in self.spans for moment in span])
        self.heard = defaultdict(list)
        for file in files:
            for moment, message in file.messages:
                self.heard[message].append(moment)

    def listened(self, moment):
        return any(span.has(moment) for span in self.spans)

    def moments_of(self, messages):
        """The moments at which it heard some messages, each as often as it did."""
        return [moment for message in messages if message in self.heard for moment in self.heard[message]]

    def missed(self, listeners, messages):
        """How many of some messages it never heard, although another one did while it listened."""
        return sum(any(self.listened(moment) for other in listeners for moment in other.heard.get(message, ()))
                   for message in messages if message not in self.heard)

    def alone(self, listeners):
        """How many different messages no other has."""
        return sum(not any(message in other.heard for other in listeners if other is not self) for message in self.heard)


class Apart(NamedTuple):
    """Two listeners: how many different messages both have, and for each that each has once how much later the other has it."""
    one: Listener
    other: Listener
    common: int
    ahead: list

    @property
    def is_shown(self):
        spans = self.one.span, self.other.span
        return self.common > 0 or all(spans) and spans[0].meets(spans[1])

    @property
    def recorded_together(self):
        """Whether the spans of both meet for half of the shorter one."""
        spans = self.one.span, self.other.span
        if not all(spans):
            return False
        together = min(span.last for span in spans) - max(span.first for span in spans)
        return together >= 0 and 2 * together >= min(span.last - span.first for span in spans)

    @property
    def quartiles(self):
        """The median, the lesser of two, and the two quartiles."""
        last = len(self.ahead) - 1
        return [self.ahead[at] for at in (last // 2, last // 4, last - last // 4)] if self.ahead else None


def apart(one, other):
    both = [message for message in one.heard if message in other.heard]
    once = [message for message in both if len(one.heard[message]) == len(other.heard[message]) == 1]
    ahead = sorted(other.heard[message][0] - one.heard[message][0] for message in once)
    return Apart(one, other, len(both), ahead)


def base_name(name):
    """A name without folders."""
    return name.rpartition("/")[2]


def listeners_of(captures, prefixes):
    """The listeners of files, each with its name and its bytes: those that begin with the same of some prefixes are one's."""
    files = {}
    for number, (name, capture) in enumerate(captures):
        prefix = next((prefix for prefix in prefixes if base_name(name).startswith(prefix)), None)
        key = (name, number) if prefix is None else (prefix, None)
        files.setdefault(key, []).append(capture)
    return [Listener(name, some) for (name, _), some in files.items()]


def unfit_text(names, prefixes):
    """Why prefixes are refused: the first one that begins no name, which is repeated if it is printable ASCII; nothing if all do."""
    for prefix in prefixes:
        if not any(base_name(name).startswith(prefix) for name in names):
            quoted = f"'{prefix}' " if prefix.isascii() and prefix.isprintable() else ""
            return f"invalid prefix {quoted}for --listener: no FILE's name, without folders, begins with it"
    return ""


def pairs_of(listeners):
    """Each two in order that have something in common, or whose spans meet."""
    pairs = [apart(one, other) for at, one in enumerate(listeners) for other in listeners[at + 1:]]
    return [pair for pair in pairs if pair.is_shown]


def names_of(names, source):
    """The names of an address: in the order of their lower case, and of several spellings the least."""
    spelled = {}
    for address, owner in names:
        if address == source:
            spelled.setdefault(owner.lower(), set()).add(owner)
    return [min(spelled[folded]) for folded in sorted(spelled)]


def listeners_text(captures, prefixes):
    """Of captures, each with its name, a line for each listener, for each two, and for what each heard of a sender."""
    listeners = listeners_of(captures, prefixes)
    messages = {message for listener in listeners for message in listener.heard}
    names = {name for _, capture in captures for name in recorded_in(capture).names}
    lines = [f"{file_text(one.name)} heard {len(one.moments_of(messages))} alone {one.alone(listeners)} "
             f"missed {one.missed(listeners, messages)} {bounds(one.span)}" for one in listeners]
    lines += map(pair_line, pairs_of(listeners))
    for source in sorted({message.source for message in messages}, key=lambda source: (len(source), source)):
        of_sender = [message for message in messages if message.source == source]
        owners = "".join(f" {name_text(name)}" for name in names_of(names, source))
        for one in listeners:
            moments = one.moments_of(of_sender)
            lines.append(f"{source_text(source)} {file_text(one.name)} heard {len(moments)} "
                         f"missed {one.missed(listeners, of_sender)} {bounds(span_of(moments))}{owners}")
    return "".join(f"{line}\n" for line in lines)


def are_compared(captures):
    """Whether so many captures are compared for warnings."""
    return 1 < len(captures) <= MOST_COMPARED


def compared_of(listeners):
    """Each two that recorded together, of captures that are compared."""
    return [pair for pair in pairs_of(listeners) if pair.recorded_together] if are_compared(listeners) else []


def warnings_of(pairs):
    """The names of each two that have nothing in common or not one clock, the later one first, and what is said of its clock."""
    warned = ((pair, warned_words(row_of(pair))) for pair in pairs)
    return [(pair.other.name, pair.one.name, words) for pair, words in warned if words]


def untold_of(pairs):
    """What is said of all pairs of which too few messages tell whether they have one clock; nothing where there are none."""
    untold = sum(is_untold(row_of(pair)) for pair in pairs)
    return [f"{untold} of {len(pairs)} pair{'' if len(pairs) == 1 else 's'} of captures: too few messages heard once in both to tell "
            "whether their clocks agree: mdnswhy listeners FILE... says more"] if untold else []


def warnings_text(captures):
    """The lines before the columns of lives, of captures, each with its name."""
    pairs = compared_of(listeners_of(captures, ()))
    lines = [f"{file_text(other)} beside {file_text(one)}: {words}" for other, one, words in warnings_of(pairs)]
    return "".join(f"{line}\n" for line in lines + untold_of(pairs))


def row_of(pair):
    """The words of the line of two listeners."""
    return APART.fullmatch(pair_line(pair)).groupdict()


def pair_line(pair):
    ahead, low, high = (("-" if nanos < 0 else "") + moment_text(abs(nanos)) for nanos in pair.quartiles) if pair.quartiles else "---"
    return (f"{file_text(pair.one.name)} {file_text(pair.other.name)} common {pair.common} "
            f"ahead {ahead} from {low} to {high} by {len(pair.ahead)}")


def bounds(span):
    first, last = map(moment_text, span) if span else "--"
    return f"from {first} until {last}"


def source_text(source):
    """An address: numbers with dots, or eight groups of hexadecimal digits, none left out and without leading zeros."""
    if len(source) == OF_IPV4:
        return ".".join(map(str, source))
    return ":".join(f"{number_at(source, at):x}" for at in range(0, len(source), 2))
