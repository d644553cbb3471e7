"""What a page must say of captures, by a definition apart from the program's: a separate reader says what was heard, a
definition of lives when records were live, a third one why packets told nothing, and `lanes.py` in which
seconds listeners heard records. No answer of the program is asked.

`page_text.py` writes the page that says it, of which only the style is taken from the program's.

Moments are nanoseconds since 1970. *Now* is the moment that is asked for, or the latest moment of any packet; the axis may end at
another one."""

from collections import Counter
from typing import NamedTuple

from tests.captures.wire import AAAA, PTR, SRV, A
from tests.judges.answers import Basis, counted_of, counts_of
from tests.judges.axis import Axis
from tests.judges.causes import causes_of
from tests.judges.lanes import SIGNED, lane_count, seconds_of
from tests.judges.lines import gives_instance, line_of, sets_of
from tests.judges.listeners import are_compared, compared_of, listeners_of, row_of
from tests.judges.lives import accounts, end_text, record_text
from tests.judges.pretty import clock_words, is_apart, warned_words
from tests.judges.savefile import reading_of
from tests.judges.shown import shown_name
from tests.judges.subjects import is_about, is_instance_about, is_record_about, subjects_of
from tests.judges.words import moment_text, name_text

# With more rows groups begin closed. With more lives bars have no titles.
OPEN_ROWS, TITLED_LIVES = 200, 1000

# With more instances, other records have no rows, and no row has lanes.
LARGE = 1000


class Asked(NamedTuple):
    """The moment as of which a page is, or before which hearings count, the words that it is about, and the prefixes of listeners."""
    at: int = None
    before: int = None
    about: tuple = ()
    listener: tuple = ()
    since: int = None
    until: int = None

    @property
    def words(self):
        """The options that ask for it."""
        moments = [word for flag in ("at", "before", "since", "until") if getattr(self, flag) is not None
                   for word in (f"--{flag}", moment_text(getattr(self, flag)))]
        return [*moments, *(f"--about={word}" for word in self.about), *(f"--listener={prefix}" for prefix in self.listener)]


class Judge(Axis):
    """What captures say, given by their names and bytes. All files of a listener are one capture."""

    def __init__(self, files, asked):
        self.about, self.listeners, basis = subjects_of(asked.about), listeners_of(files, asked.listener), Basis(asked, files)
        self.spans = [one.span for one in self.listeners]
        super().__init__(basis.end, self.spans, asked.since, asked.until)
        self.asked, self.window = asked, basis.window
        # How each file ends that isn't whole, and why packets told nothing.
        self.cut = [(name, reading_of(capture).ending) for name, capture in files if not reading_of(capture).is_whole]
        self.causes = sum((causes_of(capture) for _, capture in files), Counter())
        self.pairs = compared_of(self.listeners)
        found = accounts(basis.hearings)
        self.accounts, self.lives = ({key: both[which] for key, both in found.items()} for which in (0, 1))
        self.sets = sets_of(map(self.line, self.accounts))
        # The lives of each SRV record, live or not, by its owner.
        self.servers = {}
        for owner, kind, data in self.accounts:
            if kind == SRV:
                self.servers.setdefault(owner, []).append(self.lives[owner, kind, data])
        self.known, hosts, apart = (list(filter(kind, self.accounts)) for kind in (self.is_known, self.is_host, self.is_apart))
        self.is_silent = not self.now and not any((self.known, hosts, apart, self.servers))
        self.drawn = list(filter(self.is_drawn, self.known))
        self.is_large = len(self.drawn) > LARGE
        self.hosts, self.apart = ([] if self.is_large else list(filter(self.is_drawn, keys)) for keys in (hosts, apart))
        rows = [*self.drawn, *self.hosts, *self.apart]
        # Whether all rows together have few lives, also outside a window, those of servers too.
        self.has_titles = sum(len(lives) for key in rows for lives in (self.lives[key], *self.servers_of(key))) <= TITLED_LIVES
        self.is_open = len(rows) <= OPEN_ROWS
        self.lanes = lane_count(self.is_large, len(self.listeners))
        # The seconds in which each listener heard a record.
        self.seconds = [seconds_of(counted_of(asked, one.captures)) for one in self.listeners]

    # Lives

    def is_live(self, key):
        return self.lives[key][-1].until > self.now

    def is_drawn(self, key):
        return any(map(self.window.meets, self.lives[key]))

    def is_known(self, key):
        """Whether a record gives an instance that is about the words. Servers and addresses may have ended."""
        line = self.line(key)
        return (key[1] == PTR and gives_instance(line)
                and is_about(lambda word, one: is_instance_about(word, one, self.sets), self.about, line))

    def is_host(self, key):
        """Whether a record is of an address, and about the words by its own owner or address."""
        return key[1] in (A, AAAA) and is_about(is_record_about, self.about, self.line(key))

    def is_apart(self, key):
        """Whether a record points from a type to a name that isn't one label and the type, and is about the words itself."""
        return is_apart(self.line(key)) and is_about(is_record_about, self.about, self.line(key))

    def servers_of(self, key):
        """The lives of each server of the name that a record points to; none of an address."""
        _, kind, name = key
        return self.servers.get(name, []) if kind == PTR else []

    def owner(self, key):
        return shown_name(name_text(self.accounts[key].hearings[-1].owner))

    def line(self, key):
        """The line of a record by its last hearing, as `records` has it while the record is live."""
        last, life = self.accounts[key].hearings[-1], self.lives[key][-1]
        return line_of(f"{record_text(last)} {end_text(life)}")

    # Listeners

    def sign(self, listener):
        place = self.listeners.index(listener)
        return chr(0x2460 + place) if len(self.listeners) <= SIGNED else str(place + 1)

    def counts(self, listener):
        """What `check` counts of its files together."""
        return sum((Counter(counts_of(capture)) for capture in listener.captures), Counter())

    def ending(self, listener):
        """How its first file ends that isn't whole."""
        readings = map(reading_of, listener.captures)
        return next((reading.ending for reading in readings if not reading.is_whole), "whole")

    def compared(self, listener):
        """How many messages it heard alone, and how many it missed; none of these where nothing is compared."""
        if not are_compared(self.listeners):
            return None
        messages = {message for other in self.listeners for message in other.heard}
        return listener.alone(self.listeners), listener.missed(self.listeners, messages)

    def beside(self, listener):
        """The first listener that shares a message with it, and what is said of its clock beside that one's."""
        pair = next((pair for pair in self.pairs if pair.other is listener and pair.common), None)
        return pair and (pair.one, warned_words(row_of(pair)) or clock_words(row_of(pair)))
