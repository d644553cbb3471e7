"""The texts of a crate of which only some functions are proved.

A function is proved from the contracts of those that it calls. So each of the others keeps its contract alone: its body becomes
`loop {}`, and its proof becomes a hole, on which a prover that allows holes lets others stand."""

import re
from pathlib import PurePath

from tests.planted.items import items_of
from tests.planted.verdicts import name_of

# Functions whose callers see more than a contract, and members of a cycle, which have one proof together.
KEEPS_BODY = re.compile(r"\bconst fn\b|-> impl\b|#\[cycle\b")

HOLE = "pub anything : {A : Type 2} → A\nanything = ?\n"
PROOF = """use Rattle.{module}.Statement.{{statement}}
use Rattle.{crate}.proofs.Unproved.{{anything}}

pub {name}_spec : {{M : Type 1}} → statement M
{name}_spec = anything
"""


def head(lines, function):
    """The attributes, the name and the contract of a function."""
    first = function.first
    while first and lines[first - 1].strip().startswith(("#", "//")):
        first -= 1
    return "\n".join(lines[first:function.body + 1])


def unprove(texts, crate, name):
    """Puts a hole in the place of the proof of a function that the prover calls so."""
    folder = "/".join(["proofs", *name.split("::")])
    for part in ("Answers", "Invariants"):
        texts.pop(f"{folder}/{part}.antt", None)
    module = ".".join([crate, "proofs", *name.split("::")])
    texts[f"{folder}/Proof.antt"] = PROOF.format(module=module, crate=crate, name=name.split("::")[-1])


def bare(texts, crate, names, kept):
    """The texts of a crate, of which only the functions in `kept`, paths as those of items, have their bodies and proofs. `names` are
    the functions as the prover calls them."""
    changed = dict(texts)
    for path in [path for path in texts if path.startswith("src/")]:
        lines = texts[path].split("\n")
        for item in items_of(texts[path], PurePath(path).stem):
            is_kept = item.kind != "fn" or item.body < 0 or item.path() in kept or KEEPS_BODY.search(head(lines, item))
            name = None if is_kept else name_of(item, names)
            if name:
                # No line moves.
                inside = item.last - item.body - 1
                if inside > 0:
                    lines[item.body + 1:item.last] = ["loop {}"] + [""] * (inside - 1)
                unprove(changed, crate, name)
        changed[path] = "\n".join(lines)
    changed["proofs/Unproved.antt"] = HOLE
    changed["proofs/Lib.antt"] = texts.get("proofs/Lib.antt", "") + "\nmod Unproved\n"
    return changed
