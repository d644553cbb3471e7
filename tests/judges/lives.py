"""The lives of records by their definition: whether a record was live is asked at each moment at which something of it is
heard or may end, and a nanosecond before and after. What was heard later doesn't count."""

from bisect import bisect_right
from functools import lru_cache
from typing import Callable, NamedTuple

from tests.captures.wire import LAST_MOMENT, PTR, SECOND
from tests.judges.hearings import Hearing
from tests.judges.words import data_words, kind_text, moment_text, name_text


class Life(NamedTuple):
    """A stretch in which a record is live: from its first moment until the one at which it has ended. The hearing is the
    last one before that end. The record's latest goodbye may have been taken back in it."""
    start: int
    last: Hearing
    until: int
    taken_back: int | None

    @property
    def reason(self):
        """Why it ends."""
        if self.last.ttl == 0:
            return "goodbye"
        return "expired" if self.until == end_alone(self.last) else "flushed"


class Window(NamedTuple):
    """From one moment on and before another."""
    since: int
    until: int

    def has(self, moment):
        return self.since <= moment < self.until

    def meets(self, life):
        return life.start < self.until and self.since < life.until


def window_of(asked):
    """All moments but those that are left out."""
    return Window(asked.since or 0, LAST_MOMENT + 1 if asked.until is None else asked.until)


class Account:
    """What was heard of one record, and the moments at which its set was flushed."""

    def __init__(self, hearings, flushes):
        self.hearings = sorted(hearings, key=lambda hearing: hearing.age)
        self.moments = [hearing.moment for hearing in self.hearings]
        self.flushes = flushes
        self.goodbye = max((hearing.moment for hearing in hearings if hearing.ttl == 0), default=None)

    def last(self, now):
        """The last hearing that isn't later than a moment, if there is one."""
        count = bisect_right(self.moments, now)
        return self.hearings[count - 1] if count else None

    def is_live(self, now):
        """Whether the record was live at a moment, by what was heard until then."""
        last = self.last(now)
        return last is not None and now < end_alone(last) and not self.is_struck(last.moment, now)

    def is_struck(self, moment, now):
        """Whether what was heard at a moment was flushed: more than a second later, and a second ago or longer (RFC 6762
        section 10.2)."""
        place = bisect_right(self.flushes, moment + SECOND)
        return place < len(self.flushes) and self.flushes[place] + SECOND <= now

    def asked_moments(self):
        """The moments at which to ask."""
        events = {*self.moments, *map(end_alone, self.hearings), *(flush + SECOND for flush in self.flushes)}
        return sorted({event + step for event in events for step in (-1, 0, 1) if event + step >= 0})

    def lives(self):
        """The lives of the record, in order."""
        start, before = None, -1
        for now in self.asked_moments():
            if self.is_live(now) != (start is not None):
                if before != now - 1:
                    raise AssertionError(f"something begins or ends between {before} and {now}")
                if start is None:
                    start = now
                else:
                    last = self.last(before)
                    yield Life(start, last, now, self.taken_back(start, last))
                    start = None
            before = now

    def taken_back(self, start, last):
        """The record's latest goodbye, where it was said in a life of which this is the last hearing, and that is none."""
        return self.goodbye if self.goodbye is not None and start <= self.goodbye <= last.moment and last.ttl > 0 else None


def end_alone(hearing):
    """When a hearing's life is over unless its set is flushed. A goodbye lives for a second (RFC 6762 section 10.1)."""
    return hearing.moment + max(hearing.ttl, 1) * SECOND


@lru_cache(maxsize=8)
def accounts(hearings):
    """The account of each record of a set of hearings, and its lives, by its key, in the order of keys."""
    records, flushes = {}, {}
    for hearing in hearings:
        records.setdefault(hearing.key, set()).add(hearing)
        if hearing.flush:
            flushes.setdefault(hearing.set_key, set()).add(hearing.moment)
    ordered = {key: sorted(moments) for key, moments in flushes.items()}
    found = {key: Account(records[key], ordered.get(key[:2], [])) for key in sorted(records)}
    return {key: (account, list(account.lives())) for key, account in found.items()}


def rows_of(hearings):
    """The last hearing of each record, and the record's lives, where these hearings count."""
    return [(account.hearings[-1], lives) for account, lives in accounts(hearings).values()]


def lives_text(rows, window, end):
    """The lives of rows that meet a window, a line for each, where the captures end at a moment; some go on after it."""
    return "".join(
        f"{record_text(last)} from {moment_text(life.start)} {end_text(life)} {life.reason if life.until <= end else 'live'}\n"
        for last, lives in rows for life in filter(window.meets, lives))


def changes_in(rows, window):
    """The rows with all their lives where a life of their record set is a change in a window, and with none elsewhere."""
    sets = {}
    for last, lives in rows:
        sets.setdefault(last.set_key, []).extend(life.start for life in lives)
    begun = {set_key: sorted(moments) for set_key, moments in sets.items()}
    changed = {last.set_key for last, lives in rows if last.kind != PTR and has_change(lives, begun[last.set_key], window)}
    return [(last, lives if last.set_key in changed else []) for last, lives in rows]


def has_change(lives, begun, window):
    """Whether before one of a record's lives that begins in a window, and after each earlier one, a life of the set began: so it was
    another record's."""
    before = [-1, *(life.start for life in lives)]
    return any(begun[bisect_right(begun, earlier)] < life.start and window.has(life.start) for earlier, life in zip(before, lives))


def records_text(rows, now):
    """The records that are live as of a moment, which is no earlier than any hearing, a line for each."""
    return "".join(f"{record_text(last)} {end_text(life)}\n" for last, lives in rows for life in lives if life.start <= now < life.until)


def record_text(spelled):
    """A record, spelled as in a hearing."""
    return " ".join([name_text(spelled.owner), kind_text(spelled.kind), *data_words(spelled.kind, spelled.data)])


def end_text(life):
    return f"ttl {life.last.ttl} heard {moment_text(life.last.moment)} until {moment_text(life.until)}"


class Choice(NamedTuple):
    """How a command chooses from the rows of all records, by a window, and what the head of its columns says of that."""
    of_rows: Callable
    words: str


# The commands that list lives, and all in which they differ.
CHOICES = {
    "lives": Choice(lambda rows, _: rows, ""),
    "changes": Choice(changes_in, " of record sets that changed,"),
}
