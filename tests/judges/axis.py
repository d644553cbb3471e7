"""The axis of a page: where a moment and a stretch of time are drawn, and in which form moments are written."""

from tests.judges.pretty import date_of

# The axis has so many places, and a bar is at least so long.
UNITS, LEAST = 1000, 3


class Axis:
    """An axis to a moment, by the first and the last moment of each capture's packets; or of a window, whose bounds are moments or
    None."""

    def __init__(self, now, spans, since=None, until=None):
        every = [moment for span in spans if span for moment in span]
        end = now if until is None else until
        self.now, self.start = now, min([end, *every]) if since is None else since
        self.end = max(self.start, end)
        # Captures may have recorded past the moment that is asked for, and their rows tell when.
        self.form = form_of(min([self.start, *every]), max([self.end, now, *every]))
        self.unit = (self.end - self.start) // UNITS + 1

    def place(self, moment):
        return (max(min(moment, self.end), self.start) - self.start) // self.unit

    def draws(self, span):
        """Whether a capture with packets recorded at a moment of the axis."""
        return span.first <= self.end and self.start <= span.last

    def bar(self, start, until):
        return self.place(start), max(self.place(until), self.place(start) + LEAST)

    def short(self, moment):
        return date_of(moment).strftime(self.form)


def form_of(first, last):
    """The form of all moments of a page, of which these are the first and the last: a time of day, before it the month and the
    day if they are of several days, and the year if they are of several years."""
    if day(first) == day(last):
        return "%H:%M:%S"
    return "%m-%d %H:%M:%S" if day(first)[:4] == day(last)[:4] else "%Y-%m-%d %H:%M:%S"


def day(moment):
    return date_of(moment).strftime("%Y-%m-%d")
