"""Refuses each allocation in turn: in whole runs of the programs, and in tests of the libraries' calls.

`refuse_allocation.c` is loaded into each run and refuses one allocation, the first, the second and so on, until a run
meets no refusal; of a command without options it refuses in further sweeps the next one, too, and all later ones.

A run that met a refusal must say so, with status 2, and print nothing else, but:

- mdnswhy prints while it reads, so it may have printed the beginning of its answer; lives are printed record by record.
- A file is read without the buffer that is refused it, so the answer must be whole then.
- The memory of messages that come again is done without. Which allocations are that memory's isn't known here, so a run that
  remembers messages may give its whole answer whichever was refused, but not where all later ones were.

A test that met one must pass: it makes the refused call again, and compares with what the call gives where nothing was refused.
Where all later ones are refused, too, it must fail.

It also counts them: hearings of records that are known, spelled as before, must ask for few."""

import os
import re
import shutil
import signal
import subprocess
import sys
from concurrent.futures import ThreadPoolExecutor
from pathlib import Path
from typing import NamedTuple

from tests import EXAMPLES, TOP
from tests.captures.built import frame_of, labels, lay_out_small, write_capture
from tests.captures.link import Link
from tests.captures.real import NAMES as BOTH
from tests.captures.wire import SECOND, TXT
from tests.judges.lives import CHOICES
from tests.running.commands import ASKS, COMMANDS, FORMS, WHYS, flags_of, forms_of
from tests.running.program import Answer
from tests.running.runs import INCOMPLETE, REFUSED, WHOLE, answer_of, differences, fails, placed
from tests.trials.memory import again

SOURCE = TOP / "trials/refuse_allocation.c"

# The module of a crate that has tests for these sweeps.
MODULE = "allocations"

# Of how many faults of a sweep so many lines are printed at most.
FAULTS, LINES = 5, 12

# How many allocations are refused in a row: one, two, or all from some one on.
ONE, TWO, ALL = 1, 2, 1 << 40

# The status of a test that an assertion stopped.
STOPPED = -signal.SIGABRT

# The bytes of a file's buffer. No other allocation of these runs has as many, except that the text of `lives`, of `hearings` or of a
# page may.
BUFFER = 65_536

# So many packets of few records come twice and twelve times in these files, and how many allocations more the longer run may ask for:
# lists of moments that outgrow their place take some, where its 42,330 more hearings would take as many.
PACKETS, TWICE, OFTEN, OF_KNOWN = 1_000, "twice.pcap", "often.pcap", 2_000

# So many records with a text of so many bytes, each of which is printed as four: together more than is printed at once.
LONG_TEXTS, LONG = 15, 1_275

# What follows the record in a line of a life, in an object or in a row.
AFTER_RECORD = re.compile(r' from \d|,"from":|,\d{4}-')


@placed
class Run(NamedTuple):
    """A run of a program: its words, the last of which are so many files, and its status with ample memory."""
    words: tuple
    files: int
    status: int
    # How many of its allocations may be made good: where `collect` is refused the room that it would like, the standard
    # library asks once more for less. The program collects its arguments.
    made_good: int = 1
    # Whether all files can be opened, so that each is read, and asks for a buffer.
    are_read: bool = True
    program: str = "mdnsmerge"
    place: str = ""


RUNS = (
    *(Run((command, *BOTH), 2, WHOLE) for command in COMMANDS),
    *(Run((ask, form, *BOTH), 2, WHOLE) for ask in ASKS for form in FORMS),
    Run(("records", "--about", "a", "--about", "192.0.2.1", *BOTH), 2, INCOMPLETE),  # nothing heard is about these
    Run(("types", "--about", "_ipp", *BOTH), 2, WHOLE),
    Run(("instances", "--pretty", "--about", "_ipp._tcp", *BOTH), 2, WHOLE),
    *(Run((ask, "--pretty", "--about", "alder", *BOTH), 2, WHOLE) for ask in CHOICES),
    Run(("lives", "--pretty", "long.pcap"), 1, WHOLE),
    Run(("lives", "--before", "1795332450", *BOTH), 2, WHOLE),
    *(Run(("lives", "--services", *form, *BOTH), 2, WHOLE) for form in ((), *zip(FORMS))),
    *(Run((ask, "--since", "1795332440", "--until", "1795332450", *BOTH), 2, WHOLE) for ask in CHOICES),
    Run(("hosts", "--pretty", "--about", "elm shell", *BOTH), 2, WHOLE),
    Run(("lives", "long.pcap"), 1, WHOLE),
    Run(("lives", "--json", "long.pcap"), 1, WHOLE),
    Run(("page", "--before", "1795332450", "--since", "1795332440", "--about", "alder.", "--listener", "w", *BOTH), 2, WHOLE),
    *(Run((command, "one.pcap", "cut.pcap"), 2, INCOMPLETE) for command in COMMANDS),
    Run(("records", "--at", "99", "one.pcap"), 1, REFUSED),
    Run(("lives", "--at", "99", "one.pcap"), 1, REFUSED),
    Run(("page", "--at", "99", "one.pcap"), 1, REFUSED),
    Run(("records", "one.pcap", "text.pcap"), 2, REFUSED),
    Run(("records", "missing.pcap"), 1, REFUSED, are_read=False),
    Run(("records", "--at", "noon", "one.pcap"), 0, REFUSED),
    Run(("--help",), 0, WHOLE),
    Run(("check", "--help"), 0, WHOLE),
    Run((), 0, REFUSED),
)

WHY_RUNS = tuple(run._replace(program="mdnswhy") for run in (
    *(Run((command, *BOTH), 2, WHOLE) for command in WHYS),
    *(Run(("files", form, *BOTH), 2, WHOLE) for form in flags_of("files")),
    *(Run((command, "one.pcap", "cut.pcap"), 2, INCOMPLETE) for command in WHYS),
    Run(("hearings", "one.pcap", "text.pcap"), 2, REFUSED),
    Run(("spans", "one.pcap", "text.pcap"), 2, REFUSED),
    *(Run(("listeners", form, "--listener", "w", *BOTH), 2, WHOLE) for form in forms_of("listeners")),
    Run(("listeners", "one.pcap", "text.pcap"), 2, REFUSED),
    Run(("hearings", "--about", "a", *BOTH), 2, WHOLE),
    *(Run(("hearings", form, *BOTH), 2, WHOLE) for form in FORMS),
    Run(("hearings", "missing.pcap"), 1, REFUSED, are_read=False),
    Run(("--help",), 0, WHOLE),
    Run(("hearings", "--help"), 0, WHOLE),
    Run((), 0, REFUSED),
))

# What is counted of a few hearings and of many.
KNOWN = tuple(Run((asked,), 1, WHOLE) for asked in ("records", "check"))


class Met(NamedTuple):
    """A run: its answer, whose status is negative where a signal ended it, of how many bytes the allocations were that were refused in
    it, and how many it asked for."""
    answer: Answer
    refused: frozenset
    allocations: int


class Sweeps:
    """Sweeps over the allocations of runs in a folder, and what came of them."""

    def __init__(self, folder):
        self.folder, self.library = folder, folder / "refuse_allocation.so"
        self.sweeps = self.met = self.failed = 0
        try:
            subprocess.run(["cc", "-O1", "-Wall", "-Wextra", "-fPIC", "-shared", "-o", self.library, SOURCE], check=True)
        except FileNotFoundError:
            sys.exit("trials: there is no C compiler `cc`, which refusing allocations needs")

    def run(self, words, allocation, in_a_row=ONE):
        """Runs the words with so many allocations refused from that one on, counted from 1, or with none refused at 0."""
        read, write = os.pipe()
        told = {"LD_PRELOAD": self.library, "REFUSED_ALLOCATION": allocation, "REFUSED_IN_A_ROW": in_a_row,
                "ALLOCATION_REPORT": write}
        environment = {**os.environ, **{name: str(value) for name, value in told.items()}}
        try:
            status, *texts = answer_of(words, self.folder, env=environment, pass_fds=[write])
        finally:
            os.close(write)
            with os.fdopen(read) as report:
                said = [line.split() for line in report]
        refused = frozenset(int(size) for what, size in said if what == "refused")
        # A run that was stopped has not said how many allocations there were.
        allocations = sum(int(count) for what, count in said if what == "allocations")
        return Met(Answer(status, *(text.decode("ascii", "backslashreplace") for text in texts)), refused, allocations)

    def sweep(self, place, words, judge, in_a_row=ONE):
        """Refuses the allocations of a row's run in turn. `judge` finds faults in the plain answer and the others by allocation."""
        plain = self.run(words, 0)
        with ThreadPoolExecutor(os.cpu_count()) as pool:
            allocations = range(1, plain.allocations + 1)
            met = dict(zip(allocations, pool.map(lambda it: self.run(words, it, in_a_row), allocations)))
        last = self.run(words, plain.allocations + 1)
        faults = [
            *(f"  allocation {allocation}: nothing was refused" for allocation, it in met.items() if not it.refused),
            *judge(plain.answer, met),
            *([] if plain.allocations else ["  no allocation was met"]),
            *(["  after the last allocation one was refused"] if last.refused else []),
            *apart("where nothing is refused, after the last allocation", plain.answer, last.answer)]
        self.sweeps += 1
        self.met += sum(bool(it.refused) for it in met.values())
        how = {ONE: "one refused", TWO: "two refused in a row", ALL: "all refused from one on"}[in_a_row]
        self.failed += fails(place, f"{Path(words[0]).name} {' '.join(words[1:])}, {how}: {len(faults)} faults", faults[:FAULTS])


class Judge:
    """Knows what a run of a program may answer where so many allocations were refused in a row."""

    def __init__(self, run, in_a_row):
        self.run, self.in_a_row = run, in_a_row
        self.most_made_good = run.made_good if in_a_row == ONE else 0
        # Whether the run remembers messages that come again, and does without where memory for that is refused.
        is_one = run.program == "mdnsmerge" or run.words[:1] == ("listeners",)
        self.does_without = is_one and run.are_read and run.files > 0 and in_a_row != ALL
        self.prints_record_by_record = bool(CHOICES.keys() & {*run.words})
        self.may_have_long_text = self.prints_record_by_record or bool({"hearings", "page"} & {*run.words})
        # How a run ends that was refused an allocation, and what is said of that, each with the index of the file that it names.
        self.out_of_memory = Answer(REFUSED, "", f"{run.program}: out of memory\n")
        self.refusals = {self.out_of_memory.err: None}
        for index, name in enumerate(run.words[len(run.words) - run.files:]):
            self.refusals[f"{run.program}: {name}: out of memory\n"] = index

    def faults(self, plain, met):
        yield from apart("with ample memory", plain._replace(status=self.run.status), plain)
        yield from self.buffer_faults(plain, met)
        answers = {allocation: it.answer for allocation, it in met.items() if it.refused != {BUFFER}}
        allowed = {*short_of_a_line(plain, self.out_of_memory.err)}
        made_good = [allocation for allocation, answer in answers.items() if answer == plain]
        for allocation, answer in answers.items():
            is_allowed = self.is_refusal(answer, plain) or answer in allowed or self.does_without and answer == plain
            if not is_allowed and allocation not in made_good[:self.most_made_good]:
                yield from apart(f"allocation {allocation}", self.out_of_memory, answer)
        indexes = [index for index in (self.refusals.get(answer.err) for answer in answers.values()) if index is not None]
        if indexes != sorted(indexes):
            yield "  a later file wants memory before an earlier one"

    def is_refusal(self, answer, plain):
        """Whether the answer says that memory was wanting, and there is no more of it than may have been printed before."""
        printed = not answer.out or plain.out.startswith(answer.out) and (
            self.run.program == "mdnswhy" or self.prints_record_by_record and ends_with_a_record(answer.out, plain.out))
        return answer.status == REFUSED and answer.err in self.refusals and printed

    def buffer_faults(self, plain, met):
        """Finds faults in the runs to which nothing but buffers was refused: each file asks for one, and does without. What was refused,
        of as many bytes, may be the text of lives, of hearings or of a page."""
        without = {allocation: it.answer for allocation, it in met.items()
                   if it.refused == {BUFFER} and not (self.may_have_long_text and self.is_refusal(it.answer, plain))}
        for allocation, answer in without.items():
            yield from apart(f"allocation {allocation}, a buffer", plain, answer)
        buffers = self.run.files if self.run.are_read else 0
        if self.in_a_row == ONE and len(without) != buffers:
            yield f"  {len(without)} allocations were buffers, and not {buffers}"


def ends_with_a_record(out, whole):
    """Whether the beginning of the lives of records has all those of each record that it has."""
    last, following = (AFTER_RECORD.split(line)[0] for line in (out.splitlines()[-1], whole[len(out):].partition("\n")[0]))
    return out.endswith("\n") and last != following


def short_of_a_line(plain, out_of_memory):
    """The answers that are whole but for lines on standard error, for which there was no memory."""
    lines = plain.err.splitlines(keepends=True)
    if plain.status == INCOMPLETE and lines:
        yield plain._replace(err=out_of_memory * len(lines))
        for at in range(len(lines)):
            yield plain._replace(err="".join([*lines[:at], out_of_memory, *lines[at + 1:]]))


def apart(about, must, was):
    """What an answer has otherwise than it must, if something: the first lines of it, as one fault."""
    found = differences(must, was)
    return ["\n".join([f"  {about}:", *found[:LINES]])] if found else []


def passes(plain, met):
    """Finds faults in a test: it passes, whichever allocation was refused, and says what it says where none was."""
    yield from apart("where nothing is refused", plain._replace(status=WHOLE), plain)
    for allocation, it in met.items():
        yield from apart(f"allocation {allocation}", plain, it.answer)


def stops(plain, met):
    """Finds faults in a test of which all allocations from one on are refused: the call that it makes again is refused,
    too, so it stops, and where it passes a call has answered as if nothing had been refused."""
    yield from passes(plain, {})
    for allocation, it in met.items():
        yield from apart(f"all allocations from {allocation} on", it.answer._replace(status=STOPPED), it.answer)


def lay_out(folder):
    """Puts the files that the runs name into a folder; one has records of long texts."""
    lay_out_small(folder)
    for name in BOTH:
        shutil.copy(EXAMPLES / name, folder)
    text = (bytes([254]) + bytes(254)) * (LONG // 255)
    frame = frame_of([((labels(f"{number}.local"), TXT, text, False), 120) for number in range(LONG_TEXTS)])
    write_capture(folder / "long.pcap", "little-micro", [(seconds * SECOND, frame) for seconds in (100, 400)])
    packets = list(Link(1, 4).packets(PACKETS))
    for name, rounds in ((TWICE, 2), (OFTEN, 12)):
        write_capture(folder / name, "little-micro", (again(packets, number) for number in range(PACKETS * rounds)))


def test_programs():
    """The built tests of each crate that has tests for these sweeps."""
    for source in sorted(TOP.glob(f"crates/*/src/{MODULE}.rt")):
        crate = source.parent.parent
        yield crate / "out" / f"{crate.name}_tests"


def try_tests(sweeps):
    for program in test_programs():
        listed = subprocess.run([program, "--list"], capture_output=True, text=True, check=True).stdout
        tests = re.findall(rf"(?m)^({MODULE}::.*): test$", listed)
        if not tests:
            sweeps.failed += 1
            print(f"{program.name} has no {MODULE}: it is not what was built last")
        source = program.parent.parent / f"src/{MODULE}.rt"
        for test in tests:
            before, _, _ = source.read_text("utf-8").partition(f"fn {test.rpartition('::')[2]}(")
            place = f"{source.relative_to(TOP)}:{before.count(chr(10)) + 1}"
            sweeps.sweep(place, [program, test], passes)
            sweeps.sweep(place, [program, test], stops, ALL)


def try_allocations(programs, folder):
    """Refuses the allocations of the programs, given by name, and of the tests; answers how many sweeps failed."""
    lay_out(folder)
    sweeps = Sweeps(folder)
    for run in (*RUNS, *WHY_RUNS):
        # Several in a row only where no option changes what the command does.
        for in_a_row in (ONE,) if any(word.startswith("--") for word in run.words) else (ONE, TWO, ALL):
            sweeps.sweep(run.place, [programs[run.program], *run.words], Judge(run, in_a_row).faults, in_a_row)
    try_tests(sweeps)
    for run in KNOWN:
        few, many = (sweeps.run([programs["mdnsmerge"], *run.words, name], 0).allocations for name in (TWICE, OFTEN))
        found = [] if 0 < few <= many <= few + OF_KNOWN else [f"  {few} allocations, and {many} where what is known is heard again"]
        sweeps.failed += fails(run.place, f"mdnsmerge {' '.join(run.words)}", found)
    print(f"{sweeps.met} allocations refused in {sweeps.sweeps} sweeps; {sweeps.failed} failed")
    return sweeps.failed
