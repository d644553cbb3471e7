"""The prover of the toolchain, run over a copy of a crate with some of its files changed.

What the prover is to be told of the libraries below is in the toolchain's own `rtlib.py`."""

import json
import os
import shutil
import subprocess
import sys
from pathlib import Path

from tests import TOP
from tests.planted.bare import bare
from tests.planted.verdicts import Told, name_of

PARTS = ("src", "specs", "proofs")


def toolchain():
    """The module that `rt` is made of."""
    rt = shutil.which("rt")
    if not rt:
        sys.exit("planted: rt is not on the PATH")
    sys.path.append(os.path.dirname(os.path.realpath(rt)))
    import rtlib
    return rtlib


def changed_at(folder):
    """When a file below a folder, or its name, was last changed."""
    files = [Path(at, name) for part in PARTS for at, _, names in os.walk(folder / part) for name in names]
    return max((file.lstat().st_ctime for file in files), default=0)


def link_or_copy(one, other):
    """Gives what the prover proved a second name: it replaces such a file, and never writes into it."""
    if one.endswith(".oantt"):
        try:
            return os.link(one, other)
        except OSError:
            pass
    return shutil.copy2(one, other)


def texts_of(folder):
    """The texts of a crate's sources and proofs, by their paths."""
    files = [file for part in ("src", "proofs") for file in sorted((folder / part).rglob("*")) if file.is_file()]
    return {str(file.relative_to(folder)): file.read_text() for file in files}


def put_texts(room, texts):
    """Gives a folder these sources and proofs, and no others; a file that has its text stays as it is."""
    old = texts_of(room)
    for path in old.keys() - texts.keys():
        (room / path).unlink()
    for path, text in texts.items():
        if old.get(path) != text:
            (room / path).parent.mkdir(parents=True, exist_ok=True)
            (room / path).write_text(text)


def functions_in(rlib):
    """The functions of a library that is built, as the prover calls them; none where its file of them can't be read."""
    try:
        return [name.partition("::")[2] for name, _ in json.loads((rlib / "toolchain/mir.json").read_text())]
    except (OSError, ValueError, TypeError):
        return []


def once(made):
    """Has a crate's stamp made only once; it is made of those of the crates below, each of which would be asked for many times."""
    known = {}

    def stamp(crate):
        if crate.folder not in known:
            known[crate.folder] = made(crate)
        return known[crate.folder]

    return stamp


class Prover:
    """The crates of the repository, as the toolchain knows them."""

    def __init__(self):
        self.rtlib = toolchain()
        self.rtlib.Crate.stamp = once(self.rtlib.Crate.stamp)
        self.crates = {crate.name: crate for crate in self.rtlib.crates_below(str(TOP))}
        for crate in self.crates.values():
            crate.out = open(os.devnull, "w")
        self.functions = {}

    def stamp(self, name):
        """A sum of all that a verdict on a crate rests on."""
        return self.crates[name].stamp()

    def is_built(self, crate):
        """Whether a library is built as its sources are: by `rt lib`, which leaves a stamp, or by `rt ci` after they last changed."""
        rlib = Path(crate.rlib)
        if not rlib.is_dir() or (rlib.parent / "stamp").exists():
            return crate.is_built()
        sources = [crate, *crate.below()]
        return max(changed_at(Path(one.folder)) for one in sources) <= rlib.lstat().st_ctime

    def build_below(self, names):
        """Builds the libraries below the crates where that is still to be done; they stand in the order of building."""
        below = [one for name in names for one in self.crates[name].below()]
        for crate in dict.fromkeys(below):
            if not self.is_built(crate):
                print(f"planted: building {crate.name}", flush=True)
                if subprocess.run(["rt", "lib"], cwd=crate.folder, stdout=subprocess.DEVNULL).returncode:
                    sys.exit(f"planted: {crate.name} isn't proved")

    def begin(self, name, room):
        """Copies what a crate states, and what its last check proved, into a folder."""
        folder = Path(self.crates[name].folder)
        for part in PARTS:
            if (folder / part).is_dir():
                shutil.copytree(folder / part, room / part)
        work = folder / "out/incremental"
        if work.is_dir():
            shutil.copytree(work, room / "incremental", copy_function=link_or_copy)
        else:
            (room / "incremental").mkdir()

    def names(self, name):
        """The functions of a crate, as the prover calls them; none where the crate isn't built, and nothing was checked yet."""
        crate = self.crates[name]
        if name not in self.functions and self.is_built(crate):
            self.functions[name] = functions_in(Path(crate.rlib))
        return self.functions.get(name, [])

    def check(self, name, room, texts, kept, targets):
        """What the prover says of the functions `targets` of a crate of which some files have other texts, and only the functions
        `kept`, by path, have bodies and proofs; a later check goes on with what this one proved.

        Where it isn't known what the prover calls a function, it is asked about the whole crate as it is."""
        folder, names, words = Path(self.crates[name].folder), self.names(name), []
        asked = [name_of(item, names) for item in targets]
        whole = {**texts_of(folder), **texts}
        if all(asked):
            whole = bare(whole, name, names, kept)
            words = ["--allow-holes", *[word for one in dict.fromkeys(asked) for word in ("--only", one)]]
        put_texts(room, whole)
        words += self.crates[name].words(["--jobs", "1"], keeps=False)
        ran = subprocess.Popen([self.rtlib.RATTLE, "check", *words, "--incremental", str(room / "incremental")], cwd=room,
                               stdin=subprocess.DEVNULL, stdout=subprocess.PIPE, stderr=subprocess.STDOUT, text=True, errors="replace")
        said = ran.stdout.read()
        _, _, used = os.wait4(ran.pid, 0)
        told = Told(said.rstrip("\n"), used.ru_utime + used.ru_stime, names)
        self.functions[name] = names or told.names
        return told
