"""Runs of mdnswhy over files of odd names, files that can't be used, and streams; `why.rows` has small captures."""

from functools import partial

from tests.captures.built import IN_FOLDER, ONE, QUOTED, SMALL, TWO_LINES, lay_out_small
from tests.judges.answers import answer_to
from tests.judges.listeners import COMMAND
from tests.running import runs
from tests.running.commands import STRICT, WHYS, forms_of, page, two_forms
from tests.running.runs import INCOMPLETE, REFUSED, WHOLE, Case, agrees, fails
from tests.trials import command_lines
from tests.trials.command_lines import NO_FILE, unfit, unfit_prefixes, unknown_flags, version_of

said = partial(runs.said, program="mdnswhy")
misused = partial(command_lines.misused, program="mdnswhy")


def file_line(name, ending="whole"):
    """What is said of the capture of one packet, in a file whose name is printed so."""
    line = f"{name} pcap {ending} packets 1 100.000000000 100.000000000 hearings 1\n"
    cure = f"{name} ends early: later goodbyes are missing, so trust the answers --before 1970-01-01T00:01:40.000000000Z\n"
    return line if ending == "whole" else line + cure


ONE_FILE = file_line("one.pcap")

# The small files, others by which they are named, and one whose packet is skipped: a query.
CAPTURES = {**SMALL, "./one.pcap": ONE, "/dev/stdin": ONE, "skipped.pcap": ONE[:84] + b"\4" + ONE[85:]}


def judged(*words, **how):
    """A run over some of the captures, which are among the words."""
    files = [(word, CAPTURES[word]) for word in words if word in CAPTURES]
    return Case(words, *answer_to("mdnswhy", [word for word in words if word not in CAPTURES], files), **how)


# Names are escaped in lines, and are those of the words. What was printed before a file was refused stays.
NAMED = (
    *(judged(command, *files) for command in STRICT for files in (
        ["one.pcap"], ["one.pcap", "cut.pcap", "skipped.pcap", "one.pcap"], ["./one.pcap"], [TWO_LINES], [QUOTED], ["--pretty", TWO_LINES],
        ["one.pcap", "text.pcap", "one.pcap"], ["skipped.pcap", "cut.pcap", "empty.pcap", "one.pcap"])),
    *(judged(command, "/dev/stdin", standard_input="one.pcap") for command in STRICT),
    *(judged(command, "cut.pcap")._replace(err="", err_to=to) for command in STRICT for to in ("closed", "full", "gone")),
    # A prefix begins the name behind the folders, and may have any characters.
    judged(COMMAND, "--listener", "one", IN_FOLDER), judged(COMMAND, "--listener", "back\\slash \"\u00e9", QUOTED),
)

FILES = (
    Case(("files", "one.pcap"), WHOLE, ONE_FILE),
    # Files that can't be opened or read have a line as others, and nothing is said of them on standard error.
    Case(("files", "missing.pcap", "one.pcap", "folder", "text.pcap", "cut.pcap", "empty.pcap"), REFUSED,
         "missing.pcap unusable cannot be opened: missing, not readable, or too many open (ulimit -n)\n" + ONE_FILE +
         "folder unusable read failed: not a file, or a fault of its disk\n"
         "text.pcap unusable unknown format: not a capture: tcpdump writes one with -w FILE\n" + file_line("cut.pcap", "cut at 117") +
         "empty.pcap unusable empty file: nothing was recorded\n"),
    Case(("files", "--json", "missing.pcap", "folder"), REFUSED,
         '{"file":"missing.pcap","is":"unopened","do":"missing, not readable, or too many open (ulimit -n)"}\n'
         '{"file":"folder","is":"unread","do":"not a file, or a fault of its disk"}\n'),
    Case(("files", "cut.pcap", "one.pcap"), INCOMPLETE, file_line("cut.pcap", "cut at 117") + ONE_FILE),
    Case(("files", "/dev/stdin"), WHOLE, file_line("/dev/stdin"), standard_input="one.pcap"),
    Case(("files", TWO_LINES), WHOLE, file_line("a\\032file\\010of\\032two\\032lines.pcap")),
    Case(("files", QUOTED), INCOMPLETE, file_line('back\\\\slash\\032"\\195\\169".pcap', "cut at 117")),
)

# All files are opened before any is read.
REFUSALS = (
    *(said([command, *words], line) for command in STRICT for words, line in (
        (["missing.pcap"], "missing.pcap: cannot be opened"),
        (["one.pcap", "skipped.pcap", "missing.pcap", "absent.pcap"], "missing.pcap: cannot be opened"),
        (["empty.pcap"], "empty.pcap: file header is cut short"),
        (["folder"], "folder: read failed"),
        (["--skip-unusable", "one.pcap", "folder", "text.pcap"], "folder: read failed"),
        (["text.pcap", "one.pcap", "skipped.pcap"], "text.pcap: not a classic pcap file"),
        ([b"\xff.pcap"], "an argument is not UTF-8 text"))),
    *(said(words, "write failed", out_to=to) for to in ("closed", "full", "gone")
      for words in (["packets", "skipped.pcap"], ["files", "one.pcap"], ["--help"],
                    *([command, *form, "one.pcap"] for command in ("hearings", "spans", COMMAND) for form in ((), *zip(forms_of(command)))))),
    *unfit_prefixes(COMMAND, "mdnswhy"),
    # Nothing is printed before all files are read.
    said([COMMAND, "cut.pcap", "folder", "text.pcap"], "folder: read failed"),
    said(["files", b"\xff.pcap"], "an argument is not UTF-8 text"),
    *(Case(("packets", "missing.pcap"), REFUSED, err_to=to) for to in ("closed", "full", "gone")),
)

WORDS = (
    misused([], f"'mdnswhy' requires a subcommand but one was not provided\n  [subcommands: {', '.join(WHYS)}]", "<COMMAND>"),
    misused(["records", "one.pcap"], "unrecognized subcommand 'records'", "<COMMAND>"),
    *(misused([trace[:-1], "one.pcap"], f"unrecognized subcommand '{trace[:-1]}'", "<COMMAND>",
              f"a similar subcommand exists: '{trace}'") for trace in WHYS),
    *(misused([trace], NO_FILE, f"{trace} <FILE>...") for trace in WHYS),
    *unknown_flags(WHYS, "mdnswhy"),
    *(said([command, *words, "one.pcap"], f"{one} and {other} can't be given together")
      for command, one, other in two_forms(STRICT) for words in ([one, other], [other, one])),
    *(Case((word,), WHOLE, version_of("mdnswhy")) for word in ("--version", "-V")),
)

HELP = (
    *(Case((word,), WHOLE, page("why")) for word in ("--help", "-h")),
    *(Case((trace, word), WHOLE, page(trace)) for trace in WHYS for word in ("--help", "-h")),
)


def try_why(merge, folder):
    """Tries the mdnswhy that lies beside mdnsmerge; answers how many runs failed."""
    why = merge.with_name("mdnswhy")
    lay_out_small(folder)
    (folder / "skipped.pcap").write_bytes(CAPTURES["skipped.pcap"])
    cases = (*NAMED, *FILES, *REFUSALS, *WORDS, *HELP)
    failed = sum(not agrees(case, why, folder) for case in cases)
    failed += sum(fails(case.place, f"mdnswhy {case.words}", unfit(case.out)) for case in HELP)
    print(f"{len(cases)} runs of mdnswhy, {failed} failed")
    return failed
