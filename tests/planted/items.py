"""The functions, constants and types of a crate, which of them its callers reach, and which function calls which.

Files are read by the layout that `rt fmt` gives them: an item ends at the line that closes it, as far to the right as it
began."""

import re
from typing import NamedTuple

# What begins a type's functions, after its parameters, among which one may have parameters itself.
OWNER = re.compile(r"(?:pub )?(impl|trait)\b(?:<(?:[^<>]|<(?:[^<>]|<[^<>]*>)*>)*>)?(.*?)[ {]*$")
ITEM = re.compile(r"( *)(pub(?:\(crate\))? )?(?:const )?(fn|const|static|struct|enum|trait|type) (\w+)")
CLAUSE = re.compile(r" *(requires|ensures)\b")

# What stands before the name of the function that is called, and that name.
CALL = re.compile(r"(\bself\.(?:\w+\.)?|\.|\b\w+::)?\b(\w+)(?:::<[^()]*>)?\(")


class Item(NamedTuple):
    """A function, constant or type, from its first line to its last, counted from 0."""
    kind: str
    name: str
    module: str
    # The type that it belongs to, and the trait that this type has by it.
    owner: str
    trait: str
    is_declared_public: bool
    first: int
    # Where its contract begins, and its body; -1 where it has none.
    clauses: int
    body: int
    last: int

    def path(self):
        owner = f"{self.trait} for {self.owner}" if self.trait else self.owner
        return "::".join(part for part in (self.module, owner, self.name) if part)


def base(text):
    """The name of a type or a trait, without its path and its parameters."""
    return re.match(r"(?:\w+::)*([^<:]*)", text.strip()).group(1)


def owner_of(line):
    """The type and the trait, with its parameters, of an `impl`; the trait alone of a `trait`."""
    kind, rest = OWNER.match(line).groups()
    trait, _, owner = rest.rpartition(" for ") if kind == "impl" else ("", "", rest)
    return base(owner), trait.strip()


def extent(lines, first, indent):
    """Where the contract, the body and the end of the item at `first` stand."""
    clauses = body = -1
    depth = 0
    for index in range(first, len(lines)):
        line = lines[index]
        depth += line.count("{") - line.count("}")
        is_outer = line.startswith(indent) and not line.startswith(indent + " ")
        if body < 0 and clauses < 0 and CLAUSE.match(line):
            clauses = index
        # A record in a clause has lines that end so, too.
        if body < 0 and depth == 0 and line.endswith(";"):
            return clauses, body, index
        if body < 0 and is_outer and line.endswith("{}"):
            return clauses, index, index
        if body < 0 and is_outer and line.endswith("{"):
            body = index
        elif body >= 0 and line in (indent + "}", indent + "};"):
            return clauses, body, index
    return clauses, body, len(lines) - 1


def items_of(text, module):
    """The items of a file."""
    lines = text.split("\n")
    items, owner, trait = [], "", ""
    for index, line in enumerate(lines):
        if OWNER.match(line):
            # A long one goes on in the next line.
            owner, trait = owner_of(line if "{" in line else f"{line} {lines[index + 1].strip()}")
        elif line == "}":
            owner, trait = "", ""
        found = ITEM.match(line)
        if found:
            indent, public, kind, name = found.groups()
            clauses, body, last = extent(lines, index, indent)
            items.append(Item(kind, name, module, owner, trait, public == "pub ", index, clauses, body, last))
    return items


class Crate:
    """A library, by its folder."""

    def __init__(self, folder):
        self.name = folder.name
        self.folder = folder
        self.texts = {path.stem: path.read_text() for path in sorted(folder.glob("src/*.rt"))}
        self.items = [item for module, text in self.texts.items() for item in items_of(text, module)]
        self.functions = [item for item in self.items if item.kind == "fn" and item.body >= 0]
        self.modules = set(re.findall(r"^pub mod (\w+);", self.texts["lib"], re.M))
        shown = [self.texts["lib"], *(self.texts[module] for module in self.modules if module in self.texts)]
        exports = [found for text in shown for found in re.findall(r"^pub use (?:crate::)?(\w+)::(\{[^}]*\}|\w+);", text, re.M)]
        self.exports = {(module, name) for module, names in exports for name in re.findall(r"\w+", names)}
        types = [item for item in self.items if item.kind in ("struct", "enum", "trait", "type")]
        self.types = {item.name: self.is_reached(item) for item in types}
        self.traits = {item.name for item in types if item.kind == "trait"}

    def is_reached(self, item):
        is_shown = item.module in self.modules or (item.module, item.name) in self.exports
        return item.is_declared_public and is_shown

    def is_public(self, function):
        """Whether callers reach a function. Types and traits of other crates count as public."""
        if not function.owner:
            return self.is_reached(function)
        is_open = function.is_declared_public or bool(function.trait) or function.owner in self.traits
        return is_open and self.types.get(function.owner, True) and self.types.get(base(function.trait), True)

    def text(self, item, first):
        """The lines of an item from `first` on, without comments."""
        lines = self.texts[item.module].split("\n")[first:item.last + 1]
        return "".join(line.split("//")[0].rstrip() + "\n" for line in lines)

    def field_type(self, owner, field):
        """The type of a field of a struct; none where there is no such field."""
        for item in self.items:
            if (item.kind, item.name) == ("struct", owner):
                found = re.search(rf"\b{field}: (.*),\n", self.text(item, item.first))
                return base(found.group(1)) if found else None
        return None

    def called(self, caller, before, name):
        """The functions that a call may be of: none where it may be one of a public function that the caller's file names."""
        named = [one for one in self.functions if one.name == name]
        if not before:
            return [one for one in named if not one.owner]
        # The type, trait or module that the call names by what stands before the function; none where it's unknown.
        field = before[len("self."):-1]
        receiver = (caller.owner if before in ("self.", "Self::") else before[:-2] if before.endswith("::")
                    else self.field_type(caller.owner, field) if field else None)
        if receiver:
            return [one for one in named if receiver in (one.owner or one.module, base(one.trait))]
        text = self.texts[caller.module]
        methods = [one for one in named if one.owner and re.search(rf"\b{re.escape(one.owner)}\b", text)]
        return [] if any(self.is_public(one) for one in methods) else methods
