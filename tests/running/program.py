"""Runs of the program, each within bounds of time and memory."""

import re
import resource
from collections import Counter
from typing import NamedTuple

from tests.judges.shown import HIDDEN
from tests.running.commands import FORMS
from tests.running.runs import answer_of, difference, differences

# Characters that people don't see, among them controls.
HIDDEN_CHARACTER = re.compile("[%s]" % "".join(f"{re.escape(chr(some[0]))}-{re.escape(chr(some[-1]))}" for some in HIDDEN))

# How much longer than its processor time a run may take where the machine does other work.
PATIENCE = 15


class Finding(Exception):
    """Something that the program must not do."""

    def __str__(self):
        return " ".join(map(str, self.args))


class Answer(NamedTuple):
    status: int
    out: str
    err: str


def expect(is_so, *what):
    if not is_so:
        raise Finding(*what)


def expect_same(was, must, *what):
    """Expects a text, or an answer, and says which lines differ."""
    if was != must:
        found = differences(must, was) if isinstance(must, Answer) else difference("answered", must, was)
        raise Finding(*what, "\n".join(["", *found]))


class Program:
    """A program that runs in a folder of captures, for so many seconds of processor time at most."""

    def __init__(self, path, folder, seconds):
        self.path = path
        self.folder = folder
        self.seconds = seconds
        self.statuses = Counter()
        self.slowest = 0.0

    def run(self, *words):
        before = processor_seconds()
        status, out, err = answer_of([self.path, *words], self.folder, self.seconds * PATIENCE)
        expect(status is not None, "no end within", self.seconds * PATIENCE, "seconds:", *words)
        spent = processor_seconds() - before
        self.slowest = max(self.slowest, spent)
        self.statuses[status] += 1
        expect(status in (0, 1, 2), "status", status, "of", *words)
        expect(spent <= self.seconds, f"{spent:.3f} seconds of processor time for", *words)
        return Answer(status, people_of(out) if {"page", *FORMS} & {*words} else text_of(out), people_of(err))


def bound_memory(mebibytes):
    """Bounds the address space of all that is run from here on."""
    resource.setrlimit(resource.RLIMIT_AS, (mebibytes << 20, mebibytes << 20))


def processor_seconds():
    usage = resource.getrusage(resource.RUSAGE_CHILDREN)
    return usage.ru_utime + usage.ru_stime


def text_of(output):
    expect(all(byte == 10 or 32 <= byte <= 126 for byte in output), "a byte outside of ASCII in", output)
    return output.decode("ascii")


def people_of(output):
    """A page, objects, CSV or columns for people: UTF-8 in which no character is hidden but the end of a line."""
    text = output.decode("utf-8", "replace")
    expect(text.encode() == output, "no UTF-8 in", output)
    expect(not HIDDEN_CHARACTER.search(text.replace("\r\n", "").replace("\n", "")), "a character that people don't see in", output)
    return text
