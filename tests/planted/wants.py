"""Looks whether want of memory is answered only where an allocation was refused, which no contract can say.

`Want`, the faults `Memory` and the errors of allocations may be made of one another alone: in a `From` of such an error, in
the arm of a `match` that names one, or where a call failed that fails in no other way. So none is made of a number. The
places that have another reason are in `wants.txt`."""

import re

from tests import TOP
from tests.captures.written import blocks_of
from tests.planted.edits import BESIDE
from tests.planted.items import items_of

# Errors that say that memory is wanted, and calls of the standard library that fail with no other.
ERROR = r"(?:\w+::)*(?:Want|Memory|AllocError|AllocFailed)\b"
ALLOCATES = {"vec!", "with_capacity", "push", "from_str"}

# Places with another reason: the file, and the line that opens the block.
OTHERS = {tuple(line.split(": ", 1)) for _, line, _ in blocks_of(TOP / "tests/planted/wants.txt")}

SIGNATURE = re.compile(r"\bfn (\w+)\b[^{;]*?-> ([^{;]*)")
WANTS = re.compile(rf"(?:Option<)?Result<.*, {ERROR}>")
NAMED = rf"(?:[\w:]+\()*{ERROR}\)*"
PASSED_ON = re.compile(rf"{NAMED}(?: \| {NAMED})*(?: if .*)? =>|fn from\(\w+: {ERROR}(?:<\w+>)?\) ->")


def wanting(texts):
    """The functions that fail only where memory is wanted, by their names."""
    found = {True: set(ALLOCATES), False: set()}
    for name, result in (signature for text in texts for signature in SIGNATURE.findall(text)):
        if "Result<" in result:
            found[bool(WANTS.match(" ".join(result.split())))].add(name)
    return found[True] - found[False]


def code(line):
    """A line without its comment, its texts and the types of its results; nothing of a line that names a type."""
    bare = re.sub(r'"(?:\\.|[^"\\])*"', '""', line).split("//")[0].rstrip()
    if re.match(r"\s*type \w+ = ", bare):
        return ""
    return re.sub(r"\b(?:Option|Result)<[^;{]*>", "_", bare)


def around(lines, at):
    """A line, and then the statements that open the blocks around it, the innermost first."""
    depth = [len(line) - len(line.lstrip()) if line else 999 for line in lines]
    yield lines[at].strip()
    while depth[at]:
        at = last = max(above for above in range(at) if depth[above] < depth[at])
        while depth[at] > depth[last] or lines[at].strip()[0] in ").{":
            at -= 1
        yield " ".join(line.strip() for line in lines[at:last + 1] if line)


def is_call(value, names):
    """Whether a value is what a call of one of these functions answers."""
    while value != (value := re.sub(r"\([^()]*\)|\[[^][]*\]", "@", value)):
        pass
    called = re.search(r"(\w+!?)@$", value)
    return bool(called) and called.group(1) in names


def is_refusal(file, lines, at, names):
    """Whether what is answered at a line passes on that an allocation was refused."""
    outward = [*around(lines, at), ""]
    for inner, outer in zip(outward, outward[1:]):
        of_any = re.match(r"Err\(_\) => ?.*", inner) and re.search(r"\bmatch (.*) \{$", outer)
        of_any = of_any or re.search(r"\blet Ok\(\w+\) = (.*) else \{", inner)
        if PASSED_ON.match(inner) or (file, inner) in OTHERS or of_any and is_call(of_any.group(1), names):
            return True
    return False


def faults_of(path, names):
    """The lines of a file that answer want of memory out of nothing, or give it another name."""
    lines = [code(line) for line in path.read_text().split("\n")]
    held = {at for item in items_of("\n".join(lines), path.stem) if item.kind in ("fn", "const", "static", "type")
            for at in range(max(item.body, item.first), item.last + 1)}
    for at, line in enumerate(lines):
        # A pattern whose answer is on the next line answers nothing.
        answered = line.split(" => ")[-1] if at in held and not line.rstrip().endswith(" =>") else ""
        if re.search(rf"\b{ERROR} as ", line) or re.search(rf"\b{ERROR}", answered) and not is_refusal(path.name, lines, at, names):
            yield f"{path.relative_to(TOP)}:{at + 1}: `{line.strip()}`"


def try_wants():
    """Says where want of memory is made of nothing; answers how often."""
    paths = [path for path in sorted(TOP.glob("crates/*/src/*.rt")) if path.parent.parent.name not in BESIDE]
    names = wanting([path.read_text() for path in paths])
    faults = [fault for path in paths for fault in faults_of(path, names)]
    for fault in faults:
        print(f"want of memory though no allocation was refused: {fault}")
    return len(faults)
