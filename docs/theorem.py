#!/usr/bin/env python3
"""Prints docs/theorem.md, the page of the theorem, out of the sources and the texts of docs/theorem.txt.

From the clauses of `survey` it gathers all definitions that they rest on, through the `use` lines of the sources, and prints
each once, with its comment, in the sections of theorem.txt. It stops with a message where a definition has no section there,
or a word of the library no row in the glossary.

    docs/theorem.py > docs/theorem.md    makes the page
    docs/theorem.py --check              exits with 1 where docs/theorem.md isn't what the sources give
"""

import difflib
import re
import sys
from pathlib import Path
from types import SimpleNamespace

DOCS = Path(__file__).resolve().parent
CRATES = DOCS.parent / "crates"
ROOT = ("mdns_survey", "survey")
USE = re.compile(r"^\s*(?:unfoldable )?(?:pub )?(?:ghost )?use (Rattle[\w.]+?)(?:\.\{(.*)\}| as (\w+));?$", re.M)
MODULE = re.compile(r"([\w.]+)\.\{([^{}]*)\}")
DOC = r"(?:^(?:///|#\[)[^\n]*\n)*^"
# Words that other rows of the glossary explain.
PLAIN = {"*", "Some", "None", "true", "false"}


class Wrong(Exception):
    """What keeps the page from being made."""


class Definition:
    """A definition of specs/ with its comment, or a type of src/."""

    def __init__(self, crate, module, name, lines):
        self.file, self.crate, self.module, self.name = f"{crate}/{module}", crate, module, name
        self.comment, self.lines = [], lines


def imports_of(text):
    """The names that `use` items bring in, with their modules and names there, and modules under another name."""
    names, modules = {}, {}
    for path, items, alias in USE.findall(text):
        if alias:
            modules[alias] = path
        grouped = [(f"{path}.{module}", inside) for module, inside in MODULE.findall(items)]
        for module, inside in grouped or [(path, items)]:
            for item in filter(str.strip, inside.split(",")):
                name, _, other = item.strip().partition(" as ")
                names[other or name] = (module, name)
    return names, modules


def words_of(text, modules):
    """The words of a text that may be names, and the modules whose names it qualifies; fields are left out."""
    text = re.sub(r'"(?:[^"\\]|\\.)*"', "", re.sub(r"--.*", "", text))
    qualified = [modules[word] for word in modules if re.search(rf"(?<![\w.]){word}\.[A-Z]", text)]
    text = re.sub(r"\.[A-Za-z_]\w*", "", text)
    words = re.findall(r"[^\W\d][\w'-]*|[^\s\w(){}\[\],;:.\"]+", text)
    return sorted(set(words) | ({"[]"} if "[]" in text else set())), qualified


class Specs:
    """One file of specs/."""

    def __init__(self, crate, module):
        text = (CRATES / crate / "specs" / f"{module}.antt").read_text(encoding="utf-8")
        self.names, self.modules = imports_of(text)
        self.definitions, comment, current = {}, [], None
        for line in USE.sub("", text).split("\n"):
            head = re.match(r"(?:(?:abbrev|unfoldable|pub) )+(?:(?:record|data) )?([^\s({:]+)", line)
            if line.startswith("--") or not line:
                comment, current = (comment + [line] if line else []), None
                continue
            if head:
                current = Definition(crate, module, head.group(1), [])
                current.comment, comment = comment, []
                self.definitions[current.name] = current
            if current is not None:
                current.lines.append(line)
                case = re.match(r"  ([a-z_]+) : ", line)
                if case:
                    self.definitions.setdefault(case.group(1), current)


class Closure:
    """The definitions, the types of src/ and the words of the library that clauses rest on."""

    def __init__(self):
        self.files, self.definitions, self.types, self.library = {}, {}, {}, set()

    def resolve(self, module, name, user):
        """Adds what a name of a module stands for."""
        crate, *path = module.split(".")[1:]
        if not (CRATES / crate).is_dir():
            self.library.add(name)
        elif path[:2] == ["specs", "declared"]:
            path = [name if part == "TheConstants" else part for part in path[2:] if part != "TheVariants"]
            if "Ghosts" not in path + [name]:
                self.add_type(crate, ".".join(path[:-1]), path[-1], user)
        else:
            self.add(crate, ".".join(path[1:]), name)

    def add(self, crate, module, name):
        specs = self.files[crate, module] = self.files.get((crate, module)) or Specs(crate, module)
        found = specs.definitions.get(name)
        if found is None and name in specs.names:
            self.resolve(*specs.names[name], None)
        elif found is None:
            raise Wrong(f"{crate}/specs/{module}.antt has no {name}")
        elif (found.file, found.name) not in self.definitions:
            self.definitions[found.file, found.name] = found
            self.follow("\n".join(found.lines), specs, found)

    def follow(self, text, specs, user):
        """Adds all that the words of a text stand for, in a file with these names."""
        words, qualified = words_of(text, specs.modules)
        for word in words:
            for spelled in (word, f"◌{word}◌"):
                if spelled in specs.names:
                    self.resolve(*specs.names[spelled], user)
                    break
            else:
                found = specs.definitions.get(word)
                if found not in (None, user):
                    self.add(found.crate, found.module, found.name)
        for module in qualified:
            self.resolve(module, "*", user)

    def add_type(self, crate, module, name, user):
        """Adds a type of src/, and those that its fields name."""
        if (crate, module, name) in self.types:
            return
        found = Definition(crate, module, name, type_lines(crate, module, name))
        self.types[crate, module, name] = (found, user)
        value, local = model_of(rust(crate, module), name)
        if value is not None:
            head = next(line for line in found.lines if line.startswith("pub"))
            shown = re.sub(r"\w+", lambda word: local.get(word.group(), (None, word.group()))[1], value)
            found.lines = [line for line in found.lines if line.startswith("///")]
            found.lines.append(f"{head.rstrip(' {;')}  // in every definition: {shown}")
        text = "\n".join(line for line in found.lines if not line.strip().startswith("//"))
        for word in [] if value else sorted(set(re.findall(r"\b[A-Z]\w+", text)) - {name}):
            place = type_place(crate, module, word)
            if place is not None:
                self.add_type(*place, word, user)
        names = local if value else imports_of(rust(crate, module))[0]
        for word in re.findall(r"\w+", value or " ".join(re.findall(r"ghost \w+: \{(.*)\}", text))):
            if word in names:
                self.resolve(*names[word], user)


def rust(crate, module):
    return CRATES.joinpath(crate, "src", *module.split(".")).with_suffix(".rt").read_text(encoding="utf-8")


def type_lines(crate, module, name):
    """A type or a constant as it stands, with its doc comment and without attributes."""
    head = rf"pub(?:\([a-z]+\))? (?:struct|enum|type|const) {name}\b"
    found = re.search(rf"{DOC}{head}(?:[^\n]*;$|.*?^(?:\}}|\";))", rust(crate, module), re.M | re.S)
    if not found:
        raise Wrong(f"{crate}/src/{module}.rt has no type {name}")
    return [line for line in found.group().split("\n") if not line.strip().startswith("#[")]


def model_of(text, name):
    """What definitions see of a type that has an `impl Model`, and the names that are in scope there."""
    block = re.search(rf"^impl(?:<[^>]*>)? Model for {name}\b.*?^\}}", text, re.M | re.S)
    value = block and re.search(r"^ *ghost Value = \{ (.*) \};", block[0], re.M)
    return (value[1], imports_of(block[0])[0]) if value else (None, {})


def type_place(crate, module, word):
    """Where a type is that a file of src/ names: there, or in a module that it imports; None where that is the library."""
    source = rust(crate, module)
    if re.search(rf"^pub(\([a-z]+\))? (struct|enum|type) {word}\b", source, re.M):
        return crate, module
    used = re.search(rf"^(?:pub )?use ([a-z_:]+)::(?:\{{[^}}]*\b{word}\b[^}}]*\}}|{word});", source, re.M)
    if not used:
        return None
    path = used.group(1).split("::")
    owner = crate if path[0] == "crate" else path[0]
    if not (CRATES / owner).is_dir():
        return None
    return type_place(owner, ".".join(path[1:]) or "lib", word)


def contract():
    """The doc comment, signature and clauses of the root function."""
    return re.search(rf"{DOC}pub fn {ROOT[1]}\b.*?(?=^\{{)", rust(*ROOT), re.M | re.S).group().rstrip("\n")


def closure_of(text):
    """What the clauses of the contract and the types of its signature rest on."""
    closure = Closure()
    names, modules = imports_of(rust(*ROOT))
    for clause in re.findall(r"^    (?:ensures|requires) \w+ \{(.*?)\}$", text, re.M | re.S):
        closure.follow(clause, SimpleNamespace(names=names, modules=modules, definitions={}), None)
    for word in re.findall(r"\b[A-Z]\w+", text[text.index("pub fn"):].split("    ensures")[0]):
        place = type_place(*ROOT, word)
        if place is not None and not re.search(rf"^pub trait {word}\b", rust(*place), re.M):
            closure.add_type(*place, word, None)
    return closure


class Section:
    """A section of theorem.txt: the files that it shows, and its text."""

    def __init__(self, text):
        lines = text.strip("\n").split("\n")
        self.title, self.files = lines.pop(0), []
        while lines[0].startswith(": "):
            self.files += lines.pop(0)[2:].split()
        self.text = lines[1:]
        self.definitions, self.types = [], []

    def sort(self, closure):
        """Puts definitions in the order of the sources, each after those that it uses, or if callers come first, from its end."""
        step = -1 if "callers-first" in self.files else 1
        held = [closure.files.get(tuple(file.split("/"))) for file in self.files]
        order = [definition for specs in held if specs for definition in list(specs.definitions.values())[::step]]
        self.definitions.sort(key=order.index)


def placed(closure):
    """The title and the sections of theorem.txt, each with its definitions and types."""
    head, *texts = re.split(r"^== ", (DOCS / "theorem.txt").read_text(encoding="utf-8"), flags=re.M)
    sections = [Section(text) for text in texts]
    owner = {file: section for section in sections for file in section.files}
    for found in closure.definitions.values():
        if found.file not in owner:
            raise Wrong(f"no section of theorem.txt has {found.file}: {found.name}")
        owner[found.file].definitions.append(found)
    for found, user in closure.types.values():
        if found.file not in owner and user is None:
            raise Wrong(f"no section of theorem.txt has the type {found.name} of {found.file}")
        (owner.get(found.file) or owner[user.file]).types.append(found)
    for section in sections:
        section.sort(closure)
    return head.strip("\n"), sections


def glossary(section, library):
    """The rows of the glossary whose words are used, and `Wrong` where a word has none."""
    rows, explained = [], set()
    for line in section.text:
        words, _, meaning = line.partition(" | ")
        explained.update(words.split())
        shown = ", ".join(f"`{word.replace('◌', ' ').strip()}`" for word in words.split() if word in library)
        if not meaning or line.startswith("|"):
            rows.append(line)
        elif shown or words.startswith("`"):
            rows.append(f"| {words if words.startswith('`') else shown} | {meaning} |".replace("`||`", "`\\|\\|`"))
    missing = sorted(library - explained - PLAIN)
    if missing:
        raise Wrong("the glossary lacks " + " ".join(missing))
    return rows


def blocks(section):
    """The types and the definitions of a section, file by file, without the words that say who may use them and whether the prover
    opens them by itself."""
    out = []
    if section.types:
        out += ["```rust", *"\n\n".join("\n".join(found.lines) for found in section.types).split("\n"), "```", ""]
    file = None
    for found in section.definitions:
        if found.file != file:
            path = f"{found.crate}/specs/{found.module}.antt"
            out += ([] if file is None else ["```", ""]) + [f"From [`{path}`](../crates/{path}):", "", "```agda"]
        else:
            out.append("")
        file = found.file
        out += found.comment + [re.sub(r"^(  |)(?:(?:abbrev|unfoldable|pub) )+", r"\1", line) for line in found.lines]
    return out + (["```", ""] if file else [])


def page():
    closure = closure_of(contract())
    title, sections = placed(closure)
    lines = ["<!-- Made by docs/theorem.py out of the sources and docs/theorem.txt; don't edit. -->", "", title, ""]
    anchors = [section.title.lower().replace(" ", "-") for section in sections]
    for number, section in enumerate(sections, 1):
        size = sum(len(found.comment) + len(found.lines) for found in section.definitions)
        told = f": {len(section.definitions)} definitions, {size} lines" if size else ""
        lines.append(f"{number}. [{section.title}](#{number}-{anchors[number - 1]}){told}")
    index = {}
    for number, section in enumerate(sections, 1):
        text = glossary(section, closure.library) if "glossary" in section.files else section.text
        lines += ["", f"## {number}. {section.title}", "", *text, ""]
        if "contract" in section.files:
            lines += ["```rust", contract(), "```", ""]
        lines += blocks(section)
        index.update({found.name: number for found in section.definitions})
    entries = ", ".join(f"`{name}` {index[name]}" for name in sorted(index, key=str.lower))
    lines += ["", "## Index", "", "Each definition, with the number of its section.", "", entries + "."]
    return re.sub(r"\n{3,}", "\n\n", "\n".join(lines)) + "\n"


def main():
    told = sys.argv[1:]
    if told not in ([], ["--check"]):
        sys.exit(__doc__)
    try:
        made = page()
    except (Wrong, OSError) as wrong:
        sys.exit(f"theorem.py: {wrong}")
    path = DOCS / "theorem.md"
    held = path.read_text(encoding="utf-8") if path.exists() else ""
    if not told:
        sys.stdout.write(made)
    elif held != made:
        lines = difflib.unified_diff(held.splitlines(True), made.splitlines(True), "docs/theorem.md", "the sources", n=1)
        sys.stdout.writelines(list(lines)[:20])
        sys.exit("theorem.py: docs/theorem.md isn't what the sources give: run `python3 docs/theorem.py > docs/theorem.md`")


if __name__ == "__main__":
    main()
