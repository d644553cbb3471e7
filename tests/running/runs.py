"""Runs of a program, each with what must come of it: its status, and all that it writes on its two streams."""

import difflib
import inspect
import os
import resource
import shlex
import shutil
import subprocess
import sys
from contextlib import ExitStack
from pathlib import Path
from typing import NamedTuple

from tests import TOP

# As whom a run that must not read everything is made, where this one is made as root.
NOBODY = 65534

# How long a run may take, in seconds: each reads a few hundred bytes.
PATIENCE = 20

WHOLE, INCOMPLETE, REFUSED = 0, 1, 2


def place_of_row():
    """The file and line of the row that is being made: in its table, in the generator that makes it, or else where it is made."""
    frame, nearest = sys._getframe(2), None
    while frame:
        code = frame.f_code
        if code.co_filename != __file__:
            nearest = nearest or frame
            is_generator = code.co_flags & inspect.CO_GENERATOR and code.co_name != "<genexpr>"
            if is_generator or code.co_name == "<module>" and frame.f_globals["__name__"] != "__main__":
                nearest = frame
                break
        frame = frame.f_back
    path = Path(nearest.f_code.co_filename).resolve()
    return f"{path.relative_to(TOP) if TOP in path.parents else path}:{nearest.f_lineno}"


def placed(row):
    """A tuple of rows, whose last field is the file and line of each."""
    def made(cls, *fields, **named):
        named.setdefault("place", place_of_row())
        return row.__new__(cls, *fields, **named)
    return type(row.__name__, (row,), {"__slots__": (), "__doc__": row.__doc__, "__new__": made})


@placed
class Case(NamedTuple):
    """Words after the program's name, and what must come of them."""
    words: tuple
    status: int
    out: str = ""
    err: str = ""
    # Where a stream leads, if not to who looks on: "closed", "full" or "gone", a pipe whose reader left.
    out_to: str = ""
    err_to: str = ""
    # The file that is read as standard input.
    standard_input: str = ""
    # How many files may be open at once.
    open_files: int = 0
    is_nobody: bool = False
    # Whether the program gets no words at all, not even its name.
    is_nameless: bool = False
    place: str = ""


def refused(words, err, **how):
    return Case(tuple(words), REFUSED, err=err, **how)


def said(words, line, program="mdnsmerge", **how):
    """A refusal with one line of the program's own."""
    return refused(words, f"{program}: {line}\n", **how)


def mdnswhy_of(program):
    """mdnswhy of the same build as a program: beside it, or in a crate's folder beside that of mdnsmerge."""
    folder = program.parent
    if folder.parts[-3:] == ("crates", "mdnsmerge", "out"):
        folder = folder.parent.with_name("mdnswhy") / "out"
    return folder / f"mdnswhy{program.suffix}"


def named_copy(program, folder, name="mdnsmerge"):
    """A copy of a program under its own name, which usage tells, in a folder where anyone may run it."""
    folder.chmod(0o755)
    copied = Path(shutil.copy(program, folder / name))
    copied.chmod(0o755)
    return copied


def run_case(case, program, folder, given=None):
    """The answer of a run. Its standard input is the pipe that is given, or the case's file."""
    def prepare():
        if case.open_files:
            resource.setrlimit(resource.RLIMIT_NOFILE, (case.open_files, case.open_files))
        for number, to in ((1, case.out_to), (2, case.err_to)):
            if to == "closed":
                os.close(number)

    def stream(to):
        if to == "gone":
            read, write = os.pipe()
            os.close(read)
            return opened.enter_context(open(write, "wb"))
        return opened.enter_context(open("/dev/full", "wb")) if to == "full" else subprocess.PIPE

    words = [] if case.is_nameless else [program, *map(os.fsencode, case.words)]
    user = {"user": NOBODY, "group": NOBODY, "extra_groups": []} if case.is_nobody and not os.geteuid() else {}
    with ExitStack() as opened:
        file = opened.enter_context(open(folder / case.standard_input if case.standard_input else os.devnull, "rb"))
        return answer_of(words, folder, executable=program, stdin=given or file, stdout=stream(case.out_to),
                         stderr=stream(case.err_to), preexec_fn=prepare, **user)


def answer_of(words, folder, patience=PATIENCE, **how):
    """The status of a run, or None where it has not ended in time, and what it wrote on its two streams, where these are pipes."""
    how = {"stdin": subprocess.DEVNULL, "stdout": subprocess.PIPE, "stderr": subprocess.PIPE, **how}
    try:
        ended = subprocess.run(words, cwd=folder, timeout=patience, **how)
    except subprocess.TimeoutExpired:
        return None, b"", b""
    return ended.returncode, ended.stdout or b"", ended.stderr or b""


def can_drop(folder):
    """Whether a run may be made as nobody, who may read the folder, or is made as no root."""
    if os.geteuid():
        return True
    read = ["cat", folder / "one.pcap"]
    try:
        subprocess.run(read, user=NOBODY, group=NOBODY, extra_groups=[], stdout=subprocess.DEVNULL, check=True)
    except (OSError, subprocess.SubprocessError):
        return False
    return True


def differences(case, answer):
    """What differs between what must come of a case and what came of it: the status, and each line of its streams."""
    status, *texts = answer
    found = [] if status == case.status else [f"  status {status}, and not {case.status}"]
    for name, must, was in zip(("standard output", "standard error"), (case.out, case.err), texts):
        found += difference(f"  {name}", must, was)
    return found


def difference(about, must, was):
    """The lines in which a text isn't what it must be, with those around them, below what it is about; none if it is. What can't be seen
    is escaped."""
    if bytes_of(must) == bytes_of(was):
        return []
    lines = [[line.decode(errors="backslashreplace") for line in bytes_of(text).splitlines(keepends=True)] for text in (must, was)]
    apart = difflib.unified_diff(*lines, n=1)
    # The two lines before the first piece would have the names of files.
    return [f"{about}, as it must be (-) and as it is (+):",
            *(f"    {line[0]}{shown(line[1:])}" if line[0] in "-+ " else f"    {line.rstrip()}" for line in list(apart)[2:])]


def bytes_of(text):
    return text.encode("utf-8", "surrogateescape") if isinstance(text, str) else text


def shown(line):
    """A line without its end, and a note where it has none."""
    escaped = repr(line.removesuffix("\n"))[1:-1]
    return escaped if line.endswith("\n") else f"{escaped}  (no newline)"


def command(program, words):
    """A command line, of which what is no UTF-8 is escaped."""
    readable = [os.fsdecode(word).encode(errors="backslashreplace").decode() for word in words]
    return shlex.join([program.name, *readable])


def agrees(case, program, folder, what="", given=None):
    """Tries a case in a folder, and says what differs."""
    answer = run_case(case, program, folder, given)
    streams = [f", {name} {to}" for name, to in (("output", case.out_to), ("errors", case.err_to)) if to]
    about = command(program, case.words) + "".join(streams)
    return not fails(case.place, f"{what}: {about}" if what else about, differences(case, answer))


def fails(place, about, found):
    """Says what was found wrong with a row, if something was; answers whether."""
    if found:
        print(f"{place}: {about}", *found, sep="\n")
    return bool(found)
