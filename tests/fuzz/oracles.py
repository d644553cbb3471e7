"""What both programs must answer over some captures, whatever is in them: each answer is that of the judges, who read the captures by
themselves (`answers.py`, `judged_page.py`), and captures that hold the same have the same answers.

What is asked is drawn from a random source, and from what was heard."""

import csv
import io
import re
import struct
from collections import Counter
from itertools import groupby

from tests.captures.wire import LAST_MOMENT, SECOND
from tests.judges.answers import Basis, answer_to, counts_of, lives_in
from tests.judges.judged_page import Asked, Judge
from tests.judges.lines import lines_of
from tests.judges.listeners import COMMAND, base_name
from tests.judges.lives import CHOICES, window_of
from tests.judges.page_text import differences
from tests.judges.savefile import FILE_HEADER, LAYOUTS, moment_of, reading_of, split_at
from tests.judges.subjects import some_word
from tests.judges.words import moment_text, name_text
from tests.running.commands import ANSWERS, ASKS, FORMS, TRACES, WINDOWED, forms_of, taking
from tests.running.program import expect, expect_same

LAST_SECOND = 4_294_967_295

# The words that ask for each form of listeners.
FORMS_OF_LISTENERS = ((), *zip(forms_of(COMMAND)))

# Of a damaged message the program says more than the judge: what is wrong with it, and where.
DAMAGE = re.compile(r"(?m)(?<= refused) [a-z ]+ at \d+$")

# How far a clock is ahead, in nanoseconds: about the tenth of a second within which clocks are one, and far from it; how much faster it
# runs; and how late a packet comes at most by chance.
TENTH = SECOND // 10
OFFSETS = (0, 0, 0, 1, -28_000, TENTH, TENTH + 1, -TENTH, -TENTH - 1, 4 * SECOND, -3_600 * SECOND)
DRIFTS = (0, 0, 0, 0, 1e-6, -1e-3, 0.5)
DELAYS = (0, 0, 60_000, TENTH, 2 * TENTH)

# How much of its packets a listener doesn't hear, and how often it hears one twice; and how its files are named: some names are escaped
# where they are printed.
LOSSES, REPEATS = (0, 0, 0.1, 0.7, 1), (0, 0, 0, 0.1, 1)
NAMES = ("late-{}", "a-{}", "back\\slash-{}", "two words-{}", "s\u00fcd-{}", "folder/b-{}")

# How much later than the newest hearing a moment is that is asked for, besides each end of a life.
LATER = (0, 1, SECOND, 120 * SECOND)


def options_of(window):
    """The words that ask for a window."""
    return [f"--{flag}={moment_text(moment)}" for flag, moment in window.items()]


def try_case(merge, why, rng, captures):
    """Tries all oracles on some captures; answers what was seen."""
    case = Case({"mdnsmerge": merge, "mdnswhy": why}, rng, captures)
    case.checks()
    for oracle in (case.refusals,) if case.is_refused else (
            case.reports, case.traces, case.variants, case.listeners, case.lives, case.abouts, case.pages):
        oracle()
    return case.seen


class Case:
    """Captures in the folder of the programs, and questions on them, each of which is tried when it is asked. What is counted tells
    whether cases reach what they are for."""

    def __init__(self, programs, rng=None, captures=()):
        self.programs, self.rng, self.seen, self.captures = programs, rng, Counter(), {}
        self.names = [self.add(name, capture) for name, capture in zip(("a.pcap", "b.pcap", "c.pcap"), captures)]
        self.is_refused = any(reading_of(capture).fault for capture in captures)
        basis = Basis(Asked(), list(self.captures.items()))
        self.moments, self.hearings, self.newest, self.end = basis.moments, basis.hearings, basis.newest, basis.end

    def add(self, name, capture):
        path = self.programs["mdnsmerge"].folder / name
        path.parent.mkdir(exist_ok=True)
        path.write_bytes(capture)
        self.captures[name] = capture
        return name

    def packets_of(self, name):
        return reading_of(self.captures[name]).packets

    def ask(self, *words, names=None, program="mdnsmerge"):
        """The text of an answer over files, all by default. It must be the judge's."""
        names = self.names if names is None else names
        must = answer_to(program, words, [(name, self.captures[name]) for name in names])
        answer = self.programs[program].run(*words, *names)
        if must.out is None:
            must = must._replace(out=answer.out or "a page")
        was = answer._replace(out=DAMAGE.sub("", answer.out)) if words[0] == "packets" else answer
        expect_same(was, must, program, *words, *names)
        self.seen[f"lines of {words[0]}"] += answer.out.count("\n")
        return answer.out

    def checks(self):
        """The check of each capture, and of all together."""
        for name in self.names:
            self.ask("check", names=[name])
            reading = reading_of(self.captures[name])
            self.seen[f"captures {reading.fault or reading.ending.partition(' at ')[0]}"] += 1
            self.seen.update({} if reading.fault else counts_of(self.captures[name]))
        self.ask("check")

    def refusals(self):
        """Where a capture is refused, each answer is, whatever else is asked; but mdnswhy has printed the lines of those before it."""
        for words in (*((ask,) for ask in ANSWERS), ("records", "--at", "0"), ("types", "--before", "0"),
                      ("lives", "--at", "0"), ("page", "--at", "0")):
            self.ask(*words)
        self.traces()
        self.ask(COMMAND, *self.rng.choice(FORMS_OF_LISTENERS), program="mdnswhy")

    def reports(self):
        """Reports as of the newest hearing, earlier, which is refused, and later; and one as JSON."""
        lines = lines_of(self.ask("records"))
        for ask in ("types", "instances", "hosts"):
            self.ask(ask)
        if lines and self.newest:
            self.ask(self.rng.choice(ANSWERS), "--at", str((self.newest - 1) // SECOND))
        first = -(-self.newest // SECOND)
        ends = [line.until // SECOND + self.rng.randint(-1, 1) for line in lines]
        for second in (first, self.rng.choice(ends or [first]), self.rng.choice((first + 1, LAST_SECOND))):
            if first <= second <= LAST_SECOND:
                self.ask("records", "--at", str(second))
                for ask in ("types", "instances", "hosts") if self.rng.random() < 0.3 else ():
                    self.ask(ask, "--at", str(second))
        for form in ("--json", "--csv"):
            self.ask(self.rng.choice(ASKS), form)
        rows = list(csv.reader(io.StringIO(self.ask("records", "--csv"), newline=""), strict=True))
        expect([len(row) for row in rows] == [6] * (len(lines) + 1), "records --csv has other rows where it is read back")

    def traces(self):
        """The lines of mdnswhy, of each capture and of all, and what it prints for people."""
        for names in (*([name] for name in self.names), self.names):
            for trace in TRACES:
                for form in ((), ("--pretty",)):
                    self.ask(trace, *form, names=names, program="mdnswhy")
        for trace in taking("--since", TRACES):
            for options in map(options_of, self.windows()):
                self.ask(trace, *options, program="mdnswhy")

    def variants(self):
        """Captures that say the same: without what stands after their whole packets, shuffled and repeated, and cut where a packet header
        begins."""
        wholes = [self.add(f"whole-{name}", reading_of(self.captures[name]).whole_part) for name in self.names]
        again = self.names + self.rng.choices(self.names, k=2)
        again = self.rng.sample(again, len(again))
        self.others = [wholes, again, [part for name in self.names for part in self.parts(name)]]
        self.ask("check", names=[*self.others[-1], *self.names])
        for names in self.others:
            self.ask("records", names=names)

    def parts(self, name):
        packets = self.packets_of(name)
        if not packets:
            return [name]
        cut = split_at(self.captures[name], self.rng.choice(packets).at)
        return [self.add(f"{name}-{which}", part) for which, part in zip(("front", "rest"), cut)]

    def listeners(self):
        """All forms over the captures, and one over others that are made of them."""
        rng = self.rng
        for form in FORMS_OF_LISTENERS:
            self.ask_listeners(form, self.names, [])
        again = [*self.names, *(self.by_another_clock(rng.choice(self.names)) for _ in range(rng.choice((1, 1, 2))))]
        for names in (again, rng.choice(self.others)):
            self.ask_listeners(rng.choice(FORMS_OF_LISTENERS), rng.sample(names, len(names)), self.prefixes(names))
        self.ask("lives", "--pretty", names=again)

    def ask_listeners(self, form, names, prefixes):
        """The text in a form over files by listeners."""
        return self.ask(COMMAND, *form, *(f"--listener={prefix}" for prefix in prefixes), names=names, program="mdnswhy")

    def prefixes(self, names):
        """Beginnings of some names, as often of none; rarely one that no name has."""
        chosen = [base_name(self.rng.choice(names)) for _ in range(self.rng.choice((0, 1, 2)))]
        return [name[:self.rng.randint(1, len(name))] for name in chosen] + ["x"] * (self.rng.random() < 0.05)

    def by_another_clock(self, name):
        """A capture whose packets are those of another one, but some, by a clock that is ahead, drifts, or says when they were written."""
        rng, capture = self.rng, self.captures[name]
        ahead, drift, delay, loss, repeats = map(rng.choice, (OFFSETS, DRIFTS, DELAYS, LOSSES, REPEATS))
        order, unit = LAYOUTS[capture[:4]]
        made, packets = [capture[:FILE_HEADER]], [packet for packet in self.packets_of(name) if rng.random() >= loss]
        for packet in packets:
            moment = moment_of(capture, packet)
            moment += ahead + int((moment - moment_of(capture, packets[0])) * drift) + rng.randint(0, delay)
            seconds, nanos = divmod(min(max(moment, 0), LAST_MOMENT), SECOND)
            made += [struct.pack(order + "II", seconds, nanos // unit) + packet.wire[8:]] * (1 + (rng.random() < repeats))
        return self.add(rng.choice(NAMES).format(name), b"".join(made))

    def lives(self):
        """Lives and records by all that was heard, later, in windows, and before a moment; and of captures that say the same."""
        rng = self.rng
        lives = list(lives_in(self.ask_lives()["lives"]))
        self.seen.update(f"lives {life.how}" for life in lives)
        self.ask("records", "--at", moment_text(self.end))
        moment = rng.choice(self.moments or [0]) + rng.choice((-1, 1, SECOND, SECOND + 1))
        if 0 <= moment <= LAST_MOMENT and all(hearing.moment != moment for hearing in self.hearings):
            self.ask("records", "--before", moment_text(moment))
        ends = [life.until + step for life in lives for step in (-1, 0)]
        moment = rng.choice([self.newest + gap for gap in LATER] + [end for end in ends if end >= self.newest])
        if moment <= LAST_MOMENT:
            self.ask_lives("--at", moment_text(moment))
        for window in self.windows([moment for life in lives for moment in (life.start, life.until)]):
            self.ask_lives(*options_of(window))
        moment = self.about_packet()
        if moment <= LAST_MOMENT:
            self.ask_lives("--before", moment_text(moment))
        for ask in CHOICES:
            self.ask(ask, names=rng.choice(self.others))

    def ask_lives(self, *moment):
        """The text of each command that lists lives, some also in another form."""
        texts = {}
        self.ask("lives", "--services", *moment, *self.rng.choice(((), *zip(FORMS))))
        for ask in CHOICES:
            if self.rng.random() < 0.3:
                self.ask(ask, *moment, self.rng.choice(FORMS))
            texts[ask] = self.ask(ask, *moment)
        return texts

    def windows(self, moments=()):
        """Windows with either bound and with both, about packets or other moments; rarely one in which there is nothing."""
        bounds = [min(self.rng.choice(moments or [self.about_packet()]) + self.rng.choice((-1, 0, 0, 1)), LAST_MOMENT) for _ in range(2)]
        since, until = (max(moment, 0) for moment in (bounds if self.rng.random() < 0.1 else sorted(bounds)))
        return {"since": since}, {"until": until}, {"since": since, "until": until}

    def about_packet(self):
        """The moment of a packet, or one soon after it."""
        return self.rng.choice(self.moments or [0]) + self.rng.choice((0, 0, 1, SECOND))

    def abouts(self):
        """By all that was heard and before a moment: an answer in columns, and of each command one about words, in some form."""
        rng, moment = self.rng, self.about_packet()
        for words in ([], ["--before", moment_text(moment)]) if moment <= LAST_MOMENT else ([],):
            self.ask(rng.choice(ASKS), *words, "--pretty")
            lines = [life.record for life in lives_in(self.ask("lives", *words))]
            for ask in (*ASKS, "hearings"):
                about = [f"--about={some_word(rng, lines)}" for _ in range(rng.choice((1, 1, 1, 2, 3)))]
                form = rng.choice(((), *((form,) for form in FORMS)))
                about += options_of(rng.choice(self.windows())) if ask in (*WINDOWED, "hearings") and rng.random() < 0.3 else []
                program, before = ("mdnswhy", []) if ask == "hearings" else ("mdnsmerge", words)
                for options in dict.fromkeys(((), form, (*about, *form))):
                    self.ask(ask, *before, *options, program=program)

    def pages(self):
        """Pages without options for a moment, and pages as of a later moment or before one."""
        self.ask_pages(Asked())
        flag, moment = self.rng.choice((("at", self.newest + self.rng.choice(LATER)), ("before", self.about_packet())))
        if moment <= LAST_MOMENT:
            self.ask_pages(Asked(**{flag: moment}))

    def ask_pages(self, asked):
        """The page about everything, one about one or two words of what was heard, one of a window, and one by listeners."""
        rng, (judge, _) = self.rng, self.ask_page(self.names, asked)
        lines = list(map(judge.line, judge.accounts))
        about = asked._replace(about=tuple(some_word(rng, lines) for _ in range(rng.choice((1, 2)))))
        self.ask_page(self.names, about)
        ends = [moment for lives in judge.lives.values() for life in lives for moment in (life.start, life.until)]
        asked = asked._replace(**rng.choice(self.windows(ends)))
        self.ask_page(self.names, asked)
        names = rng.choice(self.others)
        self.ask_page(rng.sample(names, len(names)), rng.choice((asked, about))._replace(listener=tuple(self.prefixes(names))))

    def ask_page(self, names, asked):
        """The judge of a page of files, and the page, which must be what the judge takes for right, unless it is refused."""
        text = self.ask("page", *asked.words, names=names)
        judge = Judge([(name, self.captures[name]) for name in names], asked)
        found = differences(text, judge) if text else []
        expect(not found, "page", *asked.words, *names, "\n".join(["", *found]))
        services = self.ask("lives", "--services", *asked._replace(listener=()).words, names=names) if text else ""
        rows = [name_text(judge.accounts[key].hearings[-1].data) for key in judge.drawn if text]
        expect(rows == [name for name, _ in groupby(one.split(" ")[0] for one in services.splitlines())], "lives --services", *asked.words)
        of_what = " of a window" * (judge.window != window_of(Asked())) + " about words" * bool(asked.about)
        self.seen.update({f"pages{of_what}": 1, f"rows{of_what}": len(judge.drawn), "names of several labels": len(judge.apart)})
        return judge, text
