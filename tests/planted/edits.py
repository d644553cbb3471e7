"""The planted bugs of a crate: the files `planted/*.edit`, and the function whose contract has to refuse each."""

from typing import NamedTuple

from tests import TOP
from tests.planted.items import items_of

# Callers and tests, which are no libraries of the program.
BESIDE = {"uses", "test_values", "test_rows", "test_hearings", "test_reports"}


class Edit(NamedTuple):
    """A planted bug: the texts that it changes, the items that hold these, and the function whose contract must refuse it."""
    crate: str
    name: str
    # The file, the old text and the new text of each change.
    pairs: tuple
    changed: frozenset
    target: str
    faults: tuple


def read_lines(file):
    """The function that an edit names, and its pairs; a pair may leave out the file of the one before."""
    name, old, target, pairs = "", "", "", []
    for line in file.read_text().split("\n"):
        key, _, text = line.partition(": ")
        if key == "in":
            target = text
        elif key == "file":
            name = text
        elif key == "old":
            old = text
        elif key in ("new", "new:"):
            pairs.append((name, old, text))
    return target, tuple(pairs)


def changed_item(text, module, old, new):
    """The item that an edit changes, and why it shows nothing, if it doesn't."""
    line = text[:text.index(old)].count("\n")
    held = [item for item in items_of(text, module) if item.first <= line <= item.last]
    if not held:
        return None, "stands in no function, constant or type"
    # A contract may be kept, and a body put behind it.
    is_kept = new.startswith(old) and new[len(old):].startswith(" {")
    if 0 <= held[-1].clauses <= line < held[-1].body and not is_kept:
        return None, "changes a contract"
    return held[-1], ""


def put(texts, folder, pairs):
    """The files of a crate with the pairs of an edit applied, beside those in `texts`; the texts that don't stand there once."""
    changed, lost = dict(texts), []
    for name, old, new in pairs:
        text = changed[name] if name in changed else (folder / name).read_text()
        if text.count(old) == 1:
            changed[name] = text.replace(old, new)
        else:
            lost.append((name, old, text.count(old)))
    return changed, lost


def read_edit(file, folder=None):
    """A planted bug; its faults say what is wrong with it."""
    folder = folder or file.parent.parent
    target, pairs = read_lines(file)
    items, faults = [], [] if pairs else ["has no pair"]
    for name, old, new in pairs:
        path = folder / name
        if not name.startswith("src/") or not path.is_file():
            faults.append(f"changes {name}, which shows nothing: it has to change src/")
            continue
        text = path.read_text()
        if text.count(old) != 1:
            faults.append(f"`{old}` stands {text.count(old)} times in {name}")
            continue
        item, fault = changed_item(text, path.stem, old, new)
        if fault:
            faults.append(f"`{old}` {fault}")
        else:
            items.append(item)
    functions = {item.path() for item in items if item.kind == "fn"}
    if not target and len(functions) == 1:
        target = functions.pop()
    if not target and not faults:
        faults.append("needs a line `in: FUNCTION`, which says whose contract refuses it")
    changed = frozenset((item.kind, item.path()) for item in items)
    return Edit(folder.name, file.stem, pairs, changed, target, tuple(faults))


def edits_of(folder):
    """The planted bugs of a crate, by name."""
    return [read_edit(file) for file in sorted(folder.glob("planted/*.edit"))]


def exceptions_of(folder):
    """What stands in a crate's file `planted/exceptions`: of each function that has no bug of its own, why."""
    file = folder / "planted/exceptions"
    lines = file.read_text().split("\n") if file.exists() else []
    return [line.partition("  ")[::2] for line in lines if line and not line.startswith("#")]


def libraries():
    """The folders of the libraries that the programs stand on."""
    return [folder for folder in sorted(TOP.glob("crates/*")) if (folder / "src/lib.rt").exists() and folder.name not in BESIDE]
