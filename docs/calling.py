#!/usr/bin/env python3
"""Writes into the pages crates/*/CALLING.md what the sources say, so that it is written once.

    docs/calling.py            writes the pages
    docs/calling.py --check    exits with 1 where a page isn't what the sources give

- Between the lines BEGIN and END of a page: each item that callers of the library reach, module by module, with its signature
  and the first sentence of its comment. Contracts are left out.
- Below a line `From [FILE](PATH): ITEM, ITEM`: these functions of that file, and the `use` lines that they need.

It also checks that the crates have the files and names that the rest of a page gives in backquotes, and those of the other pages
on the sources: docs/*.md, and README.md of a crate."""

import difflib
import re
import sys
import textwrap
from pathlib import Path
from typing import NamedTuple

sys.path.insert(0, str(Path(__file__).resolve().parent.parent))

from tests.planted.items import extent  # noqa: E402

CRATES = Path(__file__).resolve().parent.parent / "crates"
WIDTH = 120

BEGIN = "<!-- Made by docs/calling.py out of src/; don't edit. -->"
END = "<!-- The end of what docs/calling.py makes. -->"
LEAD = "The public items, each with the first sentence of its comment. `src/` has the rest and the contracts."
CALLER = re.compile(r"^(From \[[^\]]*\]\((\S+)\): ((?:`\w+`(?:, )?)+)\n\n)```rust\n.*?^```$", re.M | re.S)

HEAD = re.compile(r" *(?:pub\([a-z]+\) )?(pub )?(?:const )?(fn|struct|enum|trait|type|const|ghost|impl)\b\s*(\w*)")
CLAUSE = re.compile(r"\s*(requires|ensures)\b|\s*//|\s*$|\s*\{$")
USED = re.compile(r"^pub use (?:crate::)?([\w:]+)::(\{[^}]*\}|\w+);", re.M)
# Traits that no caller needs to know of.
UNSAID = {"Model", "Debug", "Error", "Drop"}


class Item(NamedTuple):
    """An item of a file, with its comment and attributes, from its first line to its last."""
    kind: str
    name: str
    is_public: bool
    comment: list
    attributes: list
    first: int
    last: int


def indent_of(line):
    return re.match(r" *", line).group()


def items(lines, first=0, last=None):
    """The items between two lines that are indented as the first of them is."""
    found, comment, attributes, index, indent = [], [], [], first, None
    while index < (len(lines) if last is None else last):
        line = lines[index]
        head = HEAD.match(line)
        if line.strip().startswith("///"):
            comment.append(line.strip())
        elif line.strip().startswith("#["):
            attributes.append(line)
        elif head and indent in (None, indent_of(line)):
            indent = indent_of(line)
            *_, closes = extent(lines, index, indent)
            found.append(Item(head[2], head[3], bool(head[1]), comment, attributes, index, closes))
            index = closes
        if not line.strip().startswith(("//", "#[")):
            comment, attributes = [], []
        index += 1
    return found


def sentence(comment):
    """The first sentence of a comment, without its slashes; empty where there is none."""
    text = " ".join(line.lstrip("/!").strip() or "\n" for line in comment).split("\n")[0].strip()
    return re.split(r"(?<=\.)\s+(?=[A-Z`(])", text)[0]


def wrapped(text, lead=""):
    """A text in lines that fit, each after `lead`."""
    return textwrap.wrap(text, WIDTH, initial_indent=lead, subsequent_indent=lead, break_long_words=False,
                         break_on_hyphens=False)


def doc(comment, indent):
    """The first sentence of a comment, as a comment."""
    return wrapped(sentence(comment), f"{indent}/// ")


def signature(lines, first):
    """A signature without contract and body, in one line or two where it fits."""
    found = []
    for line in lines[first:]:
        if found and CLAUSE.match(line):
            break
        found.append(re.sub(r" \{(?:\})?$|;$", "", line))
        if line.endswith((" {", ";", "{}")):
            break
    found = [re.sub(r"\b_(\w+:)", r"\1", re.sub(r"(?<!&)\bmut (\w+:)", r"\1", line)) for line in found]
    indent = indent_of(found[0])
    text = re.sub(r"(?<=[(<]) | (?=[)>])", "", " ".join(line.strip() for line in found))
    one = indent + re.sub(r",(?=[)>]|$)", "", text) + ";"
    front, arrow, back = one.rpartition(" -> ")
    if len(one) <= WIDTH:
        return [one]
    if arrow and len(front) <= WIDTH:
        return [front, f"{indent}    -> {back}"]
    return [*found[:-1], found[-1].rstrip(",") + ";"]


def fields(lines, item):
    """The variants of an enum, or the public fields of a struct, with `..` for the others."""
    shown, comment, hides = [], [], False
    for line in lines[item.first + 1:item.last]:
        text = line.strip()
        if text.startswith("///"):
            comment.append(text)
        elif text and not text.startswith(("#[", "//")):
            is_shown = item.kind == "enum" or text.startswith("pub ") and not text.startswith("pub ghost")
            shown += doc(comment, indent_of(line)) + [line] if is_shown else []
            hides, comment = hides or not is_shown and "ghost" not in text, []
    return shown + (["    .."] if hides and shown else [])


class Module:
    """A module of a library."""

    def __init__(self, crate, name):
        text = (CRATES / crate / "src" / f"{name}.rt").read_text(encoding="utf-8")
        self.name, self.lines = name, text.split("\n")
        self.says = sentence([line for line in self.lines if line.startswith("//!")])
        self.items = items(self.lines)
        self.used = used_in(text)

    def shown(self, impls, names=None):
        """The public items, or those with one of these names, each with the impls that are shown with it."""
        lines = []
        for item in self.items:
            if item.kind != "impl" and item.is_public and (names is None or item.name in names):
                parts = [self.item(item), *impls.get(item.name, [])]
                for part, after in zip(parts, [*parts[1:], []]):
                    are_rows = all(len(one) == 1 and one[0].startswith("impl") for one in (part, after))
                    lines += part if are_rows else [*part, ""]
        return lines

    def item(self, item):
        """An item that isn't an impl."""
        head, lines = self.lines[item.first], doc(item.comment, "")
        if item.kind in ("fn", "type"):
            return lines + signature(self.lines, item.first)
        if item.kind == "const":
            return lines + [re.sub(r" = (?=[\"&]).*", ";", head)]
        if item.kind == "trait":
            return lines + [head, *self.members(item, True), "}"]
        # The traits that a type derives and that callers use.
        names = [name for line in item.attributes for name in re.findall(r"\w+", line.partition("derive")[2]) if name not in UNSAID]
        lines += [f"#[derive({', '.join(names)})]"] if names else []
        if item.last == item.first:
            return lines + [head]
        shown = fields(self.lines, item)
        return lines + ([head, *shown, "}"] if shown else [head.rstrip(" {") + " { .. }"])

    def members(self, item, is_trait):
        """The methods of an impl or of a trait, and what else it has."""
        shown = []
        for member in items(self.lines, item.first + 1, item.last):
            # A ghost member is shown if it is declared, and not defined.
            is_ghost = member.kind == "ghost" and " = " not in self.lines[member.first].split(":")[0]
            if member.kind == "fn" and (is_trait or member.is_public):
                shown += doc(member.comment, "    ") + signature(self.lines, member.first)
            elif is_trait and (is_ghost or member.kind == "type") or member.kind == "const" and member.is_public:
                shown += doc(member.comment, "    ") + self.lines[member.first:member.last + 1]
        return shown

    def impls(self):
        """Each impl of the module that callers may use: the types and traits that it names, and its lines."""
        for item in self.items:
            if item.kind != "impl":
                continue
            head = " ".join(line.strip() for line in signature(self.lines, item.first))
            trait, _, owner = re.sub(r"^impl(?:<.*?>+)? | where .*|;$", "", head).rpartition(" for ")
            names = re.findall(r"(?<!')\b\w+", f"{owner} {trait}")
            shown = self.members(item, bool(trait)) if trait in ("", "Iterator") else []
            if shown:
                yield names, [self.lines[item.first], *shown, "}"]
            elif trait and not set(names) & UNSAID:
                yield names, [head]


def used_in(text):
    """The names that a module re-exports, by the module that has them."""
    return {module: re.findall(r"\w+", names) for module, names in USED.findall(text)}


def impls_of(modules, reached):
    """The impls of a library, each by the first of the types and traits that callers reach, and none of a hidden type."""
    found, types = {}, {item.name for module in modules for item in module.items if item.kind in ("struct", "enum")}
    for module in modules:
        for named, lines in module.impls():
            shown_with = next((name for name in named if name in reached), None)
            if shown_with and (named[0] in reached or named[0] not in types):
                found.setdefault(shown_with, []).append(lines)
    return found


def calls(crate):
    """The part of a page that lists the library's items."""
    root = (CRATES / crate / "src/lib.rt").read_text(encoding="utf-8")
    declared, used = re.findall(r"^(pub )?mod (\w+);", root, re.M), used_in(root)
    modules = {name: Module(crate, name) for _, name in declared}
    opened = {name for public, name in declared if public}
    reached = {item.name for module in modules.values() for item in module.items
               if item.is_public and (module.name in opened or item.name in used.get(module.name, []))}
    impls = impls_of(modules.values(), reached)
    lines, rest = [LEAD], []
    for _, name in sorted(declared, key=lambda module: module[1] == "laws"):
        module, at_root = modules[name], used.get(name, [])
        if name not in opened:
            rest += module.shown(impls, at_root)
            continue
        shown = module.shown(impls)
        for other in set(module.used) & set(modules):
            shown += modules[other].shown(impls, module.used[other])
        if shown:
            says = [module.says, *([f"At the root, too: {listed(at_root)}."] if at_root else []), *lent(module.used, modules)]
            lines += ["", f"### `{name}`", "", *wrapped(" ".join(says)), "", "```rust", *shown[:-1], "```"]
    if rest:
        lines += ["", "### At the root alone", "", "```rust", *rest[:-1], "```"]
    for said in lent(used, modules):
        lines += ["", *wrapped(said)]
    return "\n".join(lines)


def listed(names):
    return ", ".join(f"`{name}`" for name in names)


def lent(used, modules):
    """Says which names come from other libraries."""
    return [f"Re-exported from `{other}`: {listed(names)}." for other, names in used.items() if other not in modules]


def caller(found, page):
    """The functions of a file that a page names, with the `use` lines that they need."""
    lead, path, names = found.groups()
    lines = (page.parent / path).resolve().read_text(encoding="utf-8").split("\n")
    functions = {item.name: item for item in items(lines) if item.kind == "fn"}
    parts = []
    for name in re.findall(r"\w+", names):
        if name not in functions:
            sys.exit(f"calling.py: {page}: {path} has no {name}")
        first = functions[name].first
        while first and lines[first - 1].startswith(("//", "#[")):
            first -= 1
        parts.append("\n".join(lines[first:functions[name].last + 1]))
    text = "\n\n".join(parts)
    code = re.sub(r"^ *(?:ensures|requires)[^\n]*\n(?: {8}[^\n]*\n)*|//[^\n]*", "", text, flags=re.M)
    uses = []
    for module, used in re.findall(r"^use ([\w:]+)::(\{[^}]*\}|\w+);$", "\n".join(lines), re.M):
        kept = [name for name in re.findall(r"\w+", used) if re.search(rf"\b{name}\b", code)]
        if kept:
            uses.append(f"use {module}::{kept[0] if len(kept) == 1 else '{' + ', '.join(kept) + '}'};")
    return lead + "```rust\n" + "\n".join(uses) + "\n\n" + text + "\n```"


def made(page):
    """A page as the sources give it."""
    text = CALLER.sub(lambda found: caller(found, page), page.read_text(encoding="utf-8"))
    if not 0 <= text.find(BEGIN) < text.find(END):
        sys.exit(f"calling.py: {page} lacks the lines between which the calls are")
    return f"{text[:text.index(BEGIN)]}{BEGIN}\n\n{calls(page.parent.name)}\n\n{text[text.index(END):]}"


def absent(page):
    """The files and names that the hand-written part of a page gives in backquotes, and that the sources lack."""
    text = re.sub(f"{re.escape(BEGIN)}.*{re.escape(END)}", "", page.read_text(encoding="utf-8"), flags=re.S)
    text = re.sub(r"^```.*?^```$", "", text, flags=re.M | re.S)
    said = set(re.findall(r"`([^`\n]+)`", text))
    files = [name for name in said if re.fullmatch(r"(src|specs)/[\w/]+\.\w+", name)]
    known = {crate.name for crate in CRATES.iterdir()}
    for file in CRATES.glob("*/s[rp]*/**/*.[ra][tn]*"):
        known.update(re.findall(r"\w+", file.read_text(encoding="utf-8")))
    words = {word for name in said if re.fullmatch(r"[\w:.]*[a-z]_[\w:.]*|[A-Z][a-z]+[A-Z][\w:.]*", name)
             for word in re.findall(r"\w+", name)}
    return [name for name in files if not (page.parent / name).exists()] + sorted(words - known)


def main():
    if sys.argv[1:] not in ([], ["--check"]):
        sys.exit(__doc__)
    faults = []
    for page in (*CRATES.parent.glob("docs/*.md"), *CRATES.glob("*/*.md")):
        faults += [f"{page.relative_to(CRATES.parent)}: the sources have no {word}" for word in absent(page)]
    for page in sorted(CRATES.glob("*/CALLING.md")):
        name = str(page.relative_to(CRATES.parent))
        old, new = page.read_text(encoding="utf-8"), made(page)
        if old != new and not sys.argv[1:]:
            page.write_text(new, encoding="utf-8")
        elif old != new:
            lines = difflib.unified_diff(old.splitlines(True), new.splitlines(True), name, "the sources", n=1)
            sys.stdout.writelines(list(lines)[:20])
            faults.append(f"{name} isn't what the sources give: run `python3 docs/calling.py`")
    if faults:
        sys.exit("\n".join(f"calling.py: {fault}" for fault in faults))


if __name__ == "__main__":
    main()
