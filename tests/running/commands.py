"""The commands of the programs and their flags, as the pages of help in `help/` list them."""

import re
from itertools import combinations

from tests import TOP

PAGES = TOP / "trials/help"

# A line of a flag: its name, what it takes, and its help.
FLAG = re.compile(r"(?m)^      (--[a-z-]+)( <[A-Z]+>)?  +(.*)$")

# What each flag takes, and its help.
FLAGS = {flag: (takes, text) for flag, takes, text in FLAG.findall((PAGES / "flags.txt").read_text())}

# The flags that several pages have together.
GROUPS = {group: flags.split() for group, flags in re.findall(r"(?m)^([A-Z_]+) (.*)$", (PAGES / "flags.txt").read_text())}

# The flags that ask for a form.
FORMS = tuple(GROUPS["FORMS"])


def page(name):
    """A page of help, as it is printed. Its line `FLAGS` names the flags that are there, or groups of them."""
    return re.sub(r"(?m)^FLAGS(.*)\n", lambda line: listed_flags(line[1].split()), (PAGES / f"{name}.txt").read_text())


def listed_flags(flags):
    """The lines of the flags and of `--help`, whose texts begin in one column."""
    lines = [("      ", flag + FLAGS[flag][0], FLAGS[flag][1]) for word in flags for flag in GROUPS.get(word, [word])]
    lines.append(("  -h, ", "--help", "Print help"))
    width = max(len(flag) for _, flag, _ in lines)
    return "".join(f"{short}{flag:{width}}  {text}\n" for short, flag, text in lines)


def commands_of(name):
    """The commands that a program's page lists."""
    return tuple(re.findall(r"(?m)^  ([a-z]+)  ", page(name)))


def taking(flag, commands):
    """Those of some commands whose pages have a flag."""
    return tuple(command for command in commands if flag in flags_of(command))


def flags_of(command):
    """The flags that a command's page has."""
    return tuple(flag for flag, *_ in FLAG.findall(page(command)))


def forms_of(command):
    """The flags of a command that ask for a form."""
    return tuple(form for form in FORMS if form in flags_of(command))


def two_forms(commands):
    """Each two of the flags that ask for a form, of each of some commands."""
    return [(command, *two) for command in commands for two in combinations(forms_of(command), 2)]


# The commands of mdnsmerge, those that answer as of a moment, and of these those that have several forms, and those that list
# what is in a window.
COMMANDS = commands_of("program")
ANSWERS = taking("--at", COMMANDS)
ASKS = taking("--pretty", COMMANDS)
WINDOWED = taking("--since", COMMANDS)

# The commands of mdnswhy; those that stop at a file that is no capture, all but `files`; and of these those that answer file
# after file.
WHYS = commands_of("why")
STRICT = taking("--pretty", WHYS)
TRACES = tuple(command for command in STRICT if "--listener" not in flags_of(command))
