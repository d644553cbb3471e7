"""What a check of the prover says of each function, read from its lines."""

import os
import re
from typing import NamedTuple

FUNCTION = re.compile(r"fn (\S+): (.*)")
PLACE = re.compile(r"(?:note: )?(?:\./)?((?:src|proofs)/\S+?):(\d+):\d+: (.*)")
COMPILER = re.compile(r"(?:\./)?(src/\S+?):(\d+):\d+: error\[")

# What says nothing of a contract: that a function below isn't proved, and that a proof names what isn't there any more.
CALLEE = re.compile(r"it calls `|it waits for|cites? .*not (?:proved|admitted)|was not admitted")
SCRIPT = re.compile(r"no goal of that name|is not in scope|has no field|has no `|is no name|no such|is not a goal")
LIMIT = re.compile(r"ran out of|outgrew the memory limit|stopped at the step limit|could not tell")
# What it says of a function that is proved, and of one that is proved where those that it calls are.
PROVED = ("proved", "no holes", "depends on a hole in ")
# How the prover names a goal: in an error, in a note, or in a list.
GOAL = re.compile(r"(?:(?<=error: )|(?<=\()|(?<=^)|(?<=`, ))`(\w[\w-]*)`(?=:|\)|,|$)")
GOALS = re.compile(r"did not prove ((?:`[^`]+`(?:, )?)+)")

REFUSED, SURVIVES, BY_CALLEE, BY_SCRIPT, UNSETTLED, UNREAD = "refused", "survives", "by a callee", "by a script", "unsettled", "unread"


class Verdict(NamedTuple):
    """What a check says of a function, and the clause or the goal that refuses it."""
    kind: str
    said: str


def name_of(item, names):
    """The name of these by which the prover speaks of a function; none where that isn't one.

    It calls an impl by its type and its trait: `WantFromAllocError`, `RefInOrderIntoIterator`, `AnyToValue`."""
    trait = re.sub(r"<.*", "", item.trait).rpartition("::")[2]
    owner = re.sub(r"\[(\w+)\]", lambda slice: f"Slice{slice.group(1).capitalize()}", item.owner.replace("&", "Ref"))
    owner = re.sub(r"'\w+|\W", "", owner)
    words = "".join(re.findall(r"\w+", owner + item.trait))
    found = []
    for name in names:
        *module, last = name.split("::")
        if last != item.name or (len(module) == 1) != (not item.owner):
            continue
        kind = module[-1]
        if not item.owner:
            rank = (module == [item.module]) * 9
        elif kind.startswith((owner + trait, "Any" + trait)) if trait else kind == owner:
            rank = 1 + len(os.path.commonprefix([kind, words])) + (module[0] == item.module)
        else:
            rank = 0
        found.append((rank, name))
    best = max((rank for rank, _ in found), default=0)
    named = [name for rank, name in found if rank == best]
    return named[0] if best and len(named) == 1 else None


class Told:
    """The lines of a check, how many seconds of a processor it took, and the functions of the crate as the prover calls them."""

    def __init__(self, text, seconds=0.0, names=()):
        self.text, self.seconds = text, seconds
        self.lines = text.split("\n")
        found = [FUNCTION.fullmatch(line) for line in self.lines]
        self.functions = {match.group(1).partition("::")[2]: match.group(2) for match in found if match}
        self.names = names or list(self.functions)
        places = [PLACE.match(line) for line in self.lines]
        self.places = [(match.group(1), int(match.group(2)), match.group(3)) for match in places if match]

    def is_read(self):
        """Whether the crate compiles, so that the prover came to a verdict on its functions."""
        return bool(self.functions)

    def verdict(self, item):
        """What the check says of a function."""
        name = name_of(item, self.names)
        if name not in self.functions:
            return Verdict(UNSETTLED, "the prover names no function so")
        said = self.functions[name]
        if said.startswith(PROVED):
            return Verdict(SURVIVES, "")
        # That of a function which calls itself begins with a plus sign.
        *module, last = name.split("::")
        folders = tuple("/".join(["proofs", *module, sign + last, ""]) for sign in ("", "+"))
        source = f"src/{item.module}.rt"
        own = [(f"{file}:{line}", what) for file, line, what in self.places
               if file.startswith(folders) or file == source and item.first < line <= item.last + 1]
        # Behind its own goals the line may name callees.
        goals = GOALS.search(said)
        if goals:
            own.insert(0, (f"{source}:{item.first + 1}", goals.group(1)))
        telling = [one for one in own if not any(word.search(one[1]) for word in (CALLEE, SCRIPT, LIMIT))]
        if telling:
            return Verdict(REFUSED, self.clauses(telling))
        if CALLEE.search(said):
            return Verdict(BY_CALLEE, said)
        if any(SCRIPT.search(what) for _, what in own):
            return Verdict(BY_SCRIPT, ": ".join(own[0]))
        return Verdict(UNSETTLED, ": ".join(own[0]) if own else said)

    @staticmethod
    def clauses(telling):
        """The clauses and goals that refuse a function, those of its own contract first, and where the first of them stands."""
        named = [(name, place) for place, what in telling for name in GOAL.findall(what)]
        named = sorted(dict(reversed(named)).items(), key=lambda one: not one[0].startswith("returns")) or [(telling[0][1][:200], telling[0][0])]
        return f"{', '.join(name for name, _ in named[:3])} ({named[0][1]})"

    def faults(self):
        """Where the compiler found errors, in a file and a line."""
        return [(match.group(1), int(match.group(2))) for match in map(COMPILER.match, self.lines) if match]
