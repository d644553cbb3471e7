"""What a program must answer over captures, by the readers and the definitions of the other judges: no answer of a program is asked.

The text of a page is left to `page_text.py`."""

import argparse
from functools import cached_property, lru_cache
from itertools import compress, takewhile
from typing import Callable, NamedTuple

from tests.captures.wire import SRV
from tests.judges.causes import DAMAGED, LOST, causes_of
from tests.judges.csv_forms import csv_text
from tests.judges.hearings import hearings_of
from tests.judges.json_forms import MEMBERS, json_text, objects_of
from tests.judges.lines import (Line, gives_instance, host_text, hosts_in, instances_text, line_of, lines_of, moment_of, sets_of,
                                types_names, wire_of)
from tests.judges.listeners import COMMAND, listeners_text, unfit_text, warnings_text
from tests.judges.lives import CHOICES, Window, lives_text, record_text, records_text, rows_of, window_of
from tests.judges.pretty import (hosts_columns, instances_columns, is_apart, lives_columns, pretty_text, records_columns,
                                 services_columns, shown_label, types_columns)
from tests.judges.savefile import frames_in, reading_of
from tests.judges.shown import shown_name
from tests.judges.subjects import is_about, is_host_about, is_instance_about, is_name, is_record_about, subjects_of
from tests.judges.traced import TEXTS, traced_text
from tests.judges.words import moment_text
from tests.running.commands import FLAGS, FORMS, TRACES
from tests.running.program import Answer


WORDS = argparse.ArgumentParser(add_help=False)
WORDS.add_argument("ask")
for flag, (takes, text) in FLAGS.items():
    WORDS.add_argument(flag, **({"dest": "form", "action": "store_const", "const": flag} if flag in FORMS
                                else {"action": "append", "default": []} if text.endswith("; repeatable")
                                else {"type": moment_of} if takes else {"action": "store_true"}))


@lru_cache(maxsize=32)
def counts_of(capture):
    """How many packets `check` counts of a capture, by what they came to, and how many hearings."""
    causes, packets = causes_of(capture), len(reading_of(capture).packets)
    silent, refused = sum(causes.values()), causes[DAMAGED]
    return {"packets": packets, "skipped": silent - refused, "refused": refused, "messages": packets - silent,
            "hearings": len(held_in(capture)[1])}


@lru_cache(maxsize=32)
def held_in(capture):
    """The moments of a capture's packets, and its hearings."""
    return [moment for moment, _ in frames_in(capture)], list(hearings_of(capture))


def counted_of(asked, captures):
    """The hearings of captures that count."""
    return [one for capture in captures for one in held_in(capture)[1] if asked.before is None or one.moment < asked.before]


class Life(NamedTuple):
    text: str
    record: Line
    start: int
    until: int
    how: str


class Basis:
    """What a question is answered from: the files, the hearings that count, the moment as of which records are live, the span of
    lives, and the window."""

    def __init__(self, asked, files):
        self.asked, self.files = asked, files
        captures = [capture for _, capture in files]
        self.moments = [moment for capture in captures for moment in held_in(capture)[0]]
        self.hearings = frozenset(counted_of(asked, captures))
        self.newest = max((one.moment for one in self.hearings), default=0)
        given = asked.before if asked.at is None else asked.at
        self.now = self.newest if given is None else given
        self.end = max(self.moments, default=0) if given is None else given
        # Captures without packets have no bounds.
        begin = min([self.end, *self.moments])
        self.bounds = self.moments and [one if given is None else given for one, given in ((begin, asked.since), (self.end, asked.until))]
        self.window = window_of(asked)
        self.rows = rows_of(self.hearings)

    @cached_property
    def taken_back(self):
        """The goodbye that was taken back in a life, by its record's text and its start."""
        return {(record_text(last), life.start): life.taken_back for last, lives in self.rows for life in lives if life.taken_back is not None}

    @cached_property
    def lines(self):
        return lines_of(records_text(self.rows, self.now))

    @cached_property
    def sets(self):
        return sets_of(self.lines)

    @cached_property
    def instances(self):
        return list(filter(gives_instance, self.lines))

    @cached_property
    def hosts(self):
        return hosts_in(self.lines)

    def text(self, command):
        """The lines of a report of all."""
        return KINDS[command].lines_text(self, KINDS[command].listed(self))


class Kind(NamedTuple):
    """What a report lists of a basis, which of it is about words, and the text of some of it in lines and in columns."""
    listed: Callable
    is_about: Callable
    lines_text: Callable
    columns: Callable


def texts_of(_, some):
    return "".join(f"{line.text}\n" for line in some)


def lives_kind(choice):
    """What a command lists that chooses so from all lives."""
    def columns(basis, _, some):
        return lives_columns(some, basis.bounds, choice.words, basis.taken_back)

    return Kind(lambda basis: list(lives_in(lives_text(choice.of_rows(basis.rows, basis.window), basis.window, basis.end))),
                lambda _, words, life: is_about(is_record_about, words, life.record),
                texts_of,
                columns)


KINDS = {
    "records": Kind(lambda basis: basis.lines,
                    lambda _, words, line: is_about(is_record_about, words, line),
                    texts_of,
                    lambda basis, _, some: records_columns(some, basis.now)),
    "types": Kind(lambda basis: types_names(basis.lines),
                  lambda _, words, name: is_about(is_name, words, name),
                  lambda _, some: "".join(f"{name}\n" for name in some),
                  lambda basis, _, some: types_columns(some, basis.now)),
    "instances": Kind(lambda basis: basis.instances,
                      lambda basis, words, line: is_about(lambda word, one: is_instance_about(word, one, basis.sets), words, line),
                      lambda basis, some: instances_text(some, basis.sets),
                      lambda basis, words, some: instances_columns(
                          some, [line for line in basis.lines if is_apart(line) and is_about(is_record_about, words, line)],
                          basis.sets, basis.now)),
    "hosts": Kind(lambda basis: basis.hosts,
                  lambda basis, words, lines: is_about(lambda word, it: is_host_about(word, it, basis.instances, basis.sets), words, lines),
                  lambda _, some: "".join(f"{host_text(lines)}\n" for lines in some),
                  lambda basis, _, some: hosts_columns(some, basis.instances, basis.sets, basis.now)),
    **{ask: lives_kind(choice) for ask, choice in CHOICES.items()},
}

# The texts of objects, by the options that ask for them.
OF_OBJECTS = {"--json": json_text, "--csv": csv_text}


def lives_in(text):
    """The lives that lines list."""
    for found in map(MEMBERS["lives"].fullmatch, text.splitlines()):
        record = line_of("{owner} {type}{data} ttl {ttl} heard {heard} until {until}".format(**found.groupdict()))
        yield Life(found[0], record, moment_of(found["from"]), record.until, found["end"])


def heard_in(line):
    """The record of a line of a hearing. It has no end of its own."""
    found = MEMBERS["hearings"].match(line)
    return line_of("{owner} {type}{data} ttl {ttl} heard {moment} until {moment}".format(**found.groupdict()))


def report_text(basis):
    """The text of a report: of what a command lists, that which is about the words."""
    if basis.asked.services:
        return services_text(basis, list(services_of(basis)))
    asked, kind = basis.asked, KINDS[basis.asked.ask]
    listed = kind.listed(basis)
    kept = [kind.is_about(basis, asked.about, one) for one in listed]
    some = list(compress(listed, kept))
    if asked.form == "--pretty":
        return head_text(basis) + kind.columns(basis, asked.about, some)
    if asked.form:
        return OF_OBJECTS[asked.form](asked.ask, compress(objects_of(asked.ask, kind.lines_text(basis, listed), basis.text), kept))
    return kind.lines_text(basis, some)


def services_of(basis):
    """The lives in the window of the instances about the words, each with the data of the SRV records that were live in it."""
    lives = list(lives_in(lives_text(basis.rows, Window(0, 1 << 64), basis.end)))
    sets = sets_of(life.record for life in lives)
    for life in filter(lambda life: gives_instance(life.record) and basis.window.meets(life), lives):
        if is_about(lambda word, line: is_instance_about(word, line, sets), basis.asked.about, life.record):
            yield life, list(dict.fromkeys(one.record.words for one in lives if one.record.set_key == (wire_of(life.record.target), SRV)
                                           and life.start < one.until and one.start < life.until))


def service_object(life, servers):
    (told,), name = objects_of("lives", life.text, None), life.record.words[0]
    members = [{"target": target, "shown": shown_name(target), "port": int(port), "priority": int(priority), "weight": int(weight)}
               for priority, weight, port, target in servers]
    return {"instance": name, "shown": shown_label(name), "type": told["owner"], "servers": members,
            **{member: told[member] for member in ("from", "ttl", "heard", "until", "end")}}


def services_text(basis, services):
    form = basis.asked.form
    if form == "--pretty":
        return head_text(basis) + services_columns(services, basis.bounds, basis.taken_back)
    return OF_OBJECTS[form]("services", [service_object(*one) for one in services]) if form else "".join(
        life.text.split(" ", 2)[2] + "".join(f" server {words[3]} {words[2]}" for words in servers) + "\n" for life, servers in services)


def head_text(basis):
    """What stands above columns: before lives which clocks don't agree by all packets, whatever the moment; what was lost, and
    whether anything was heard."""
    captures = [capture for _, capture in basis.files]
    lost = sum(causes_of(capture)[cause] for capture in captures for cause in LOST)
    return "".join((
        warnings_text(basis.files) if basis.asked.ask in CHOICES else "",
        f"{lost} packet{'' if lost == 1 else 's'} could not be used: mdnswhy files FILE... says why\n" if lost else "",
        "" if any(held_in(capture)[1] for capture in captures) else "nothing was heard: mdnswhy files FILE... says what each file is\n"))


def check_text(files):
    counts = [" ".join(f"{what} {count}" for what, count in counts_of(capture).items()) for _, capture in files]
    return "".join(f"{name}: {some} {reading_of(capture).ending}\n" for (name, capture), some in zip(files, counts))


def trace_text(asked, files):
    """The text of mdnswhy, file after file: of hearings and packets, those in the window, and of hearings, those about the words."""
    text = traced_text(asked.ask, files)
    if asked.since is not None or asked.until is not None:
        window = window_of(asked)
        text = "".join(line for line in text.splitlines(keepends=True) if window.has(moment_of(line.split()[0])))
    if asked.about:
        text = "".join(line for line in text.splitlines(keepends=True) if is_about(is_record_about, asked.about, heard_in(line)))
    return formed(asked, text, lambda _: check_text(files))


def formed(asked, text, other):
    """Lines in the form that is asked for; `other` gives the text of another command."""
    if asked.form in OF_OBJECTS:
        return OF_OBJECTS[asked.form](asked.ask, objects_of(asked.ask, text, other))
    return pretty_text(asked.ask, text) if asked.form else text


def missed_text(program, asked, files):
    """The line that nothing heard is about the words; none where there are no words, or a hearing that counts has a record about one."""
    heard = map(heard_in, traced_text("hearings", files).splitlines()) if asked.about else ()
    counted = (line for line in heard if asked.before is None or line.heard < asked.before)
    found = not asked.about or any(is_about(is_record_about, asked.about, line) for line in counted)
    return "" if found else f"{program}: nothing heard is about {', '.join(asked.about)}\n"


def answer_to(program, words, files):
    """The answer of a program to words without the names of files, over files, each a name and its bytes. The text of a page is None.
    What is wrong with a damaged message isn't known here: a line of `packets` ends with `refused`. `files` is known of whole files."""
    asked = WORDS.parse_args(words)
    asked.about = subjects_of(asked.about)
    unfit = unfit_text([name for name, _ in files], asked.listener)
    if unfit:
        return Answer(2, "", f"{program}: {unfit}\n")
    if None not in (asked.since, asked.until) and asked.since >= asked.until:
        return Answer(2, "", f"{program}: --since must be earlier than --until: nothing lies between them\n")
    readings = [(name, reading_of(capture)) for name, capture in files]
    fault = next((f"{program}: {name}: {reading.fault}\n" for name, reading in readings if reading.fault), None)
    if fault:
        before = takewhile(lambda file: not reading_of(file[1]).fault, files)
        return Answer(2, trace_text(asked, before) if asked.ask in TRACES else "", fault)
    endings = "".join(f"{program}: {name}: {reading.ending}\n" for name, reading in readings if not reading.is_whole)
    status = 1 if endings else 0
    if asked.ask == "check":
        return Answer(status, check_text(files), "")
    if asked.ask in TEXTS:
        return Answer(status, trace_text(asked, files), endings)
    if asked.ask == COMMAND:
        return Answer(status, formed(asked, listeners_text(files, asked.listener), None), endings)
    basis = Basis(asked, files)
    if asked.at is not None and asked.at < basis.newest:
        return Answer(2, "", f"{program}: the moment is earlier than the newest hearing, {moment_text(basis.newest)}\n")
    missed = missed_text(program, asked, files)
    return Answer(1 if missed else status, None if asked.ask == "page" else report_text(basis), endings + missed)
