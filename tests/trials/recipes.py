"""The commands of the documents: each runs on the captures of examples/, and prints the lines below it.

In docs/recipes.md they are blocks fenced as `bash`, and what each prints is fenced as `text`, up to a line `...` if it prints more. A
block that never ends, or needs other files, is fenced as `bash unrun`, and only `bash -n` reads it. In docs/theorem.txt they follow
a `$`, and run from the top of the repository. Those in the table of README.md print any lines, or write them into a file. A command
is skipped if its tool is missing."""

import gzip
import os
import re
import shutil
import subprocess

from tests import TOP
from tests.running.runs import difference, fails

RECIPES, README, THEOREM = TOP / "docs/recipes.md", TOP / "README.md", TOP / "docs/theorem.txt"
MORE = "..."

# How long a command may take, in seconds; then `timeout` ends it with status 124.
PATIENCE = "120"

# What the commands need beside bash and the tools of any Linux.
TOOLS = ("jq", "perl")

# The kind of a block, its commands, and the block `text` right below it, if there is one; and the fences.
BLOCK = re.compile(r"^```(bash|bash unrun)\n(.*?)^```\n(?:\n```text\n(.*?)^```\n)?", re.MULTILINE | re.DOTALL)
FENCE = re.compile(r"^```", re.MULTILINE)

# A row of the table of README.md, its commands, and one of them; and a command of docs/theorem.txt with the lines below it.
ROW = re.compile(r"^[^|`]+\? \| (`.*`)$", re.MULTILINE)
COMMAND = re.compile(r"`([^`]+)`")
EXAMPLE = re.compile(r"^    \$ (.*)\n((?:    (?!\$ ).*\n)*)", re.MULTILINE)


def commands(folder):
    """The file and the line of each command, whether it is only read, the command, the lines that it must print, or None if any, and
    the folder in which it runs."""
    for path, pattern in ((RECIPES, BLOCK), (README, ROW), (THEOREM, EXAMPLE)):
        text = path.read_text("utf-8")
        for found in pattern.finditer(text):
            place = f"{path.relative_to(TOP)}:{text.count(chr(10), 0, found.start()) + 1}"
            if path == RECIPES:
                yield place, found[1] != "bash", found[2], (found[3] or "").splitlines() or None, folder
            elif path == THEOREM:
                # Some are refused, and say so.
                yield place, False, f"{found[1]} || true", [line.removeprefix("    ") for line in found[2].splitlines()], TOP
            else:
                for command in COMMAND.findall(found[1]):
                    yield place, False, re.sub(r" > (\S+)$", r" > \1 && cat \1", command), None, folder


def lost_fences():
    """How many fences of the recipes belong to no block."""
    page = RECIPES.read_text("utf-8")
    return len(FENCE.findall(page)) - sum(len(FENCE.findall(block[0])) for block in BLOCK.finditer(page))


def fault_of(command, printed, folder, environment):
    """What is wrong with a run, in lines, if something is."""
    run = subprocess.run(["timeout", PATIENCE, "bash", "-c", command], cwd=folder, env=environment,
                         stdin=subprocess.DEVNULL, capture_output=True, encoding="utf-8", check=False)
    lines = run.stdout.splitlines()
    if run.returncode or run.stderr:
        return [f"  status {run.returncode} and on standard error {run.stderr}"]
    if printed is None:
        return [] if lines else ["  it prints nothing"]
    if lines == printed or printed[-1:] == [MORE] and lines[:len(printed) - 1] == printed[:-1] and len(lines) >= len(printed):
        return []
    return difference("  standard output", "".join(f"{line}\n" for line in printed), run.stdout)


def try_recipes(program, folder):
    """Runs the commands with the folder of the program first on the PATH; answers how many failed."""
    for name in ("east.pcap", "west.pcap"):
        shutil.copyfile(TOP / "examples" / name, folder / name)
        with gzip.open(folder / f"{name}.gz", "wb") as packed:
            packed.write((folder / name).read_bytes())
    environment = {**os.environ, "PATH": f"{program.parent}:{os.environ['PATH']}", "LC_ALL": "C", "TZ": "UTC"}
    missing = [tool for tool in TOOLS if not shutil.which(tool)]
    failed, counts = lost_fences(), {"run": 0, "only read": 0, "skipped": 0}
    if failed:
        print(f"recipes: {failed} fences are of no block")
    for place, is_only_read, command, printed, within in commands(folder):
        read = subprocess.run(["bash", "-n", "-c", command], capture_output=True, encoding="utf-8", check=False)
        fault = [f"  {line}" for line in read.stderr.splitlines()]
        what = ("only read" if is_only_read else
                "skipped" if any(re.search(rf"\b{tool}\b", command) for tool in missing) else "run")
        if what == "run" and not fault:
            fault = fault_of(command, printed, within, environment)
        counts[what] += 1
        failed += fails(place, command.strip(), fault)
    lacks = f" for want of {' and '.join(missing)}" if missing else ""
    print(f"recipes: {counts['run']} commands run, {counts['only read']} only read, {counts['skipped']} skipped{lacks}, "
          f"{failed} failed")
    return failed
