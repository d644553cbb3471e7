"""Runs of the program that `main` alone decides: files that it can't have, its statuses, and where it writes.

What must come of each is known from README.md, the man page and docs/DECISIONS.md."""

import shlex
import shutil
from itertools import product

from tests import TOP
from tests.captures.built import lay_out_small
from tests.captures.vectors import lines
from tests.captures.written import ANSWER, rows_of
from tests.running.runs import WHOLE, Case, agrees, answer_of, can_drop, said

# More files than may be open at once: all are opened before any is read.
MANY = said(["records", *["one.pcap"] * 20], "one.pcap: cannot be opened", open_files=10)


def runs_of(row):
    """The runs of a row, whose first cell says how they are made: one for each value of a way that has several."""
    out, err, status = ANSWER.fullmatch(row.answer.replace("\\n", "\n")).groups()
    words = tuple(shlex.split(f"{row.asked} {row.files}"))
    ways = [[(name, value or True) for value in values.split(",")] for name, _, values in (way.partition("=") for way in row.what.split())]
    return [Case(words, int(status or WHOLE), out, err or "", place=row.place, **dict(chosen)) for chosen in product(*ways)]


CASES = (MANY, *(case for row in rows_of(lines(), TOP / "trials/files.rows") for case in runs_of(row)))


def lay_out(folder):
    """Puts the files that the cases name into a folder that anyone may read."""
    folder.chmod(0o755)
    lay_out_small(folder)
    for name in ("locked.pcap", "named like -- this"):
        shutil.copy(folder / "one.pcap", folder / name)
    (folder / "locked.pcap").chmod(0)


def try_refusals(program, folder):
    """Tries all cases on a program; answers how many failed."""
    lay_out(folder)
    is_droppable = can_drop(folder)
    tried = [case for case in CASES if is_droppable or not case.is_nobody]
    failed = sum(not agrees(case, program, folder) for case in tried)
    skipping_some, alone = (answer_of([program, "page", *words], folder)[1] for words in (
        ["--skip-unusable", "--listener=text", "--listener=on", "text.pcap", "one.pcap", "missing.pcap"], ["--listener=on", "one.pcap"]))
    if not alone or skipping_some != alone:
        failed += 1
        print("mdnsmerge page --skip-unusable: the files that are left out change the page")
    skipped = f", {len(CASES) - len(tried)} skipped (no run as nobody)" if len(tried) < len(CASES) else ""
    print(f"{len(tried)} runs over files and streams, {failed} failed{skipped}")
    return failed
