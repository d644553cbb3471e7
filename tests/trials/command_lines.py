"""Runs of command lines: what their words ask for, which words are refused, and the pages of help.

What is refused is said in the words of clap, version 4: they are written here from its templates, with this program's
names in them. What is asked for shows in the answer over captures that are made for it, each cut short, so that each is
named, in the order of the words."""

import re
import shlex
from itertools import cycle
from typing import NamedTuple

from tests import TOP
from tests.captures.built import frame_of, lay_out_small, pointer, write_capture
from tests.captures.wire import SECOND
from tests.captures.written import cells_of, expanded
from tests.judges.answers import WORDS, answer_to
from tests.running.commands import ANSWERS, ASKS, COMMANDS, FLAGS, WINDOWED, flags_of, page, two_forms
from tests.running.runs import WHOLE, Case, agrees, fails, refused, said

TRY_HELP = "For more information, try '--help'.\n"

# A page of help is one screen.
LINES, COLUMNS = 24, 80


def version_of(program):
    """What `--version` prints: the program's name, its version as the head of mdnsmerge's man page has it, and the kit."""
    version = re.match(r'.*"mdnsmerge (\S+)"', (TOP / "man/mdnsmerge.1").read_text())[1]
    return f"{program} {version} (rattle-kit-13)\n"


def outdated_pages():
    """The man pages that aren't of the version and the date of mdnsmerge's, with both."""
    heads = {path.name: path.read_text().splitlines()[0] for path in sorted((TOP / "man").glob("*.1"))}
    pages = {name: head.split(maxsplit=3)[3] for name, head in heads.items()}
    newest = pages["mdnsmerge.1"]
    return [(name, head) for name, head in pages.items() if head != newest]


def misused(words, fault, usage="", tip="", program="mdnsmerge", **how):
    """A refusal of the command line."""
    tip = f"\n  tip: {tip}\n" if tip else ""
    usage = f"\nUsage: {program} {usage}\n" if usage else ""
    return refused(words, f"error: {fault}\n{tip}{usage}\n{TRY_HELP}", **how)


def words_of(text):
    r"""The words of a cell, quoted as in a shell, with the escapes of Python's texts: `\udcff` is the byte 0xff, which is no UTF-8."""
    return [word.encode("latin-1", "backslashreplace").decode("unicode_escape") for word in shlex.split(text)]


def refused_rows(name, program, groups):
    """The rows of command lines that are refused. One that begins with the name of some commands is a row of each."""
    for place, cells in cells_of(TOP / f"trials/{name}.rows"):
        group = cells[0].split(" ")[0]
        for known in [{**FAULTS, group: command} for command in groups.get(group, ())] or [FAULTS]:
            words, fault, *usage = (expanded(cell, known) for cell in cells)
            if fault.startswith(OWN):
                yield said(words_of(words), fault.removeprefix(OWN), program, place=place)
            else:
                yield misused(words_of(words), fault, *usage, program=program, place=place)


def unfit_prefixes(ask, program):
    """Refusals of a command that takes `--listener`: of words, and of prefixes that begin the name of no file, before any is opened."""
    return refused_rows("prefixes", program, {"PREFIXED": [ask]})


def given(flag):
    """The words that give a flag, with a value where it takes one."""
    return (flag, "5") if FLAGS[flag][0] else (flag,)


def unknown_flags(commands, program):
    """Refusals of commands that are given a flag which they don't have."""
    return [misused([command, *given(flag), "one.pcap"], f"unexpected argument '{flag}' found",
                    f"{command} {'[OPTIONS] ' * bool(flags_of(command))}<FILE>...", f"to pass '{flag}' as a value, use '-- {flag}'",
                    program)
            for command in commands for flag in FLAGS if flag not in flags_of(command)]


# The rows of command lines that ask for something, and the texts that name no moment.
LINES_OF_ROWS = [(place, list(map(shlex.split, cells))) for place, cells in cells_of(TOP / "trials/told.rows")]
NO_MOMENTS = [text for _, cells in LINES_OF_ROWS if len(cells) == 1 for text in cells[0]]

REPORT = "records [OPTIONS] <FILE>..."
NO_FILE = "the following required arguments were not provided:\n  <FILE>..."
NO_COMMAND = ("'mdnsmerge' requires a subcommand but one was not provided\n"
              f"  [subcommands: {', '.join(COMMANDS)}]")

# What names of the rows stand for, and what is before a line of the program's own.
FAULTS = {
    "NO_FILE": NO_FILE,
    "NO_MOMENT": "give seconds since 1970 (1795332403.397617) or a date and time with its zone (2026-11-22T07:27:00Z)",
    "NO_NAME": "no FILE's name, without folders, begins with it",
}
OWN = "says "

REFUSALS = (
    misused([], NO_COMMAND, "<COMMAND>"),
    # Since version 5.18 Linux gives an empty name in place of none.
    misused([], NO_COMMAND, "<COMMAND>", is_nameless=True),
    *refused_rows("refused", "mdnsmerge", {"ANSWERS": ANSWERS, "COMMANDS": COMMANDS, "WINDOWED": WINDOWED}),
    *(said([command, f"{flag}={value}", "one.pcap"], f"invalid moment '{value}' for {flag}: {FAULTS['NO_MOMENT']}")
      for value in NO_MOMENTS for command, flag in zip(ANSWERS, cycle(("--at", "--before")))),
    *(misused(["records", *given(flag), *given(flag), "one.pcap"],
              f"the argument '{flag}{takes}' cannot be used multiple times", REPORT)
      for flag, (takes, text) in FLAGS.items() if flag in flags_of("records") and not text.endswith("; repeatable")),
    *(misused(["records", f"{flag}=true", "one.pcap"],
              f"unexpected value 'true' for '{flag}' found; no more were expected", f"records {flag} <FILE>...")
      for flag, (takes, _) in FLAGS.items() if flag in flags_of("records") and not takes),
    *unknown_flags(COMMANDS, "mdnsmerge"),
    *(said([command, *words, "one.pcap"], f"{one} and {other} can't be given together")
      for command, one, other in two_forms(ASKS) for words in ([one, other], [other, "--about=a", one])),
    *unfit_prefixes("page", "mdnsmerge"),
)

VERSION = tuple(Case((word,), WHOLE, version_of("mdnsmerge")) for word in ("--version", "-V"))

HELP = (
    Case(("--help",), WHOLE, page("program")),
    Case(("-h",), WHOLE, page("program")),
    Case(("--help", "records"), WHOLE, page("program")),
    *(Case((name, "--help"), WHOLE, page(name)) for name in COMMANDS),
    Case(("page", "--about", "elm", "missing.pcap", "-h"), WHOLE, page("page")),
    Case(("check", "-h"), WHOLE, page("check")),
    Case(("records", "missing.pcap", "--help"), WHOLE, page("records")),
    Case(("records", "--at", "5", "-h"), WHOLE, page("records")),
)


class Told(NamedTuple):
    """Words after the program's name, and what they ask for: a command, files in order, and options with moments in seconds."""
    place: str
    words: tuple
    what: str
    names: tuple
    options: tuple


TOLD = [Told(place, words, asked[0], asked[1:], options) for place, (words, asked, options) in (
    line for line in LINES_OF_ROWS if len(line[1]) == 3)]


def packet(label, moment, ttl):
    """A packet that tells of the service type `_LABEL._tcp.local` and of its instance `x`."""
    own = f"_{label}._tcp.local"
    records = pointer("_services._dns-sd._udp.local", own), pointer(own, f"x.{own}")
    return moment, frame_of([(record, ttl) for record in records])


def scenes(asked):
    """The packets of captures over which what is asked has another answer as of each other moment, before each other one, and in each other
    window."""
    if (asked.since, asked.until) != (None, None):
        over = [] if asked.since is None else [packet(f"over-{ago}", asked.since - SECOND + ago, 1) for ago in (0, 1)]
        return [over + ([] if asked.until is None else [packet(f"new-{ago}", asked.until - ago, 120) for ago in (0, 1)])]
    if asked.before is not None:
        earlier = [packet("new", asked.before - 1, 120), packet("old", asked.before - SECOND, 1)] if asked.before else []
        return [[packet("at", asked.before, 120), *earlier]]
    if asked.at is None:
        return [[packet("new", SECOND - 1, 120), packet("old", 0, 1)]]
    if asked.at == 0:
        # The moment is earlier than the second hearing.
        return [[packet("new", 0, 120)], [packet("new", 1, 120)]]
    ttl, start = divmod(asked.at, SECOND)
    return [[packet("new", start + 1, ttl), packet("old", start, ttl)]]


def try_told(told, program, folder):
    """Tries words in a folder with files of their names, each cut short, and answers how many runs failed."""
    folder.mkdir()
    failed, asked = 0, [told.what, *told.options]
    for packets in scenes(WORDS.parse_args(asked)):
        capture = write_capture(folder / told.names[0], "little-nano", packets) + b"\0"
        for name in told.names:
            (folder / name).write_bytes(capture)
        must = answer_to("mdnsmerge", asked, [(name, capture) for name in told.names])
        failed += not agrees(Case(tuple(told.words), *must, place=told.place), program, folder)
    return failed


def unfit(text):
    """What is wrong with a page that is no screen."""
    lines = text.splitlines()
    is_fit = 0 < len(lines) <= LINES and max(map(len, lines)) <= COLUMNS
    return [] if is_fit else ["  the page is no screen"]


def try_command_lines(program, folder):
    """Tries all command lines on a program; answers how many failed."""
    lay_out_small(folder)
    cases = (*REFUSALS, *VERSION, *HELP)
    failed = sum(not agrees(case, program, folder) for case in cases)
    failed += sum(try_told(told, program, folder / f"told {number}") for number, told in enumerate(TOLD))
    failed += sum(fails(case.place, f"mdnsmerge {case.words}", unfit(case.out)) for case in HELP)
    failed += sum(fails(f"man/{name}:1", "is of another version or date than mdnsmerge's page", [head])
                  for name, head in outdated_pages())
    print(f"{len(cases)} command lines that are refused or ask for help or the version, {len(TOLD)} that ask for more, "
          f"{failed} failed")
    return failed
