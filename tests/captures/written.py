"""Reads rows: small captures that are written in words, what is asked of them, and what must come of it.

`rows.md` has the grammar. There is one for all files of rows, of the trials and of the fuzzer."""

import ipaddress
import re
from typing import NamedTuple

from tests import TOP
from tests.captures.built import frame_of, labels, write_capture
from tests.captures.wire import NAMED, Content
from tests.judges.lines import moment_of
from tests.running.runs import WHOLE, Case

DEFINITION = re.compile(r"([A-Z][A-Z0-9_]*) =(?: (.*))?")
COMMENT = re.compile(r"(?:^|\s\s)#.*")
INDENT = "    "

# The definition that says what the captures of a file are: bytes, unless it says hearings.
CAPTURES, HEARINGS = "CAPTURES", "hearings"

# A name is a word, or stands for whole lines; these words stand for themselves.
NAME = re.compile(r"(?:(?<!\S)|(?<=\\n))[A-Z][A-Z0-9_]*(?=[\s;]|\\n|$)")
WORDS = (*NAMED, "ALONE", "CLOCK", "COMMON", "END", "FILE", "FROM", "HEARD", "ID", "IP", "LEFT", "LISTENER", "MISSED", "NAMES",
         "NEW", "OPCODE", "OTHER", "RCODE", "RECORD", "SENDER", "SERVICE", "TAGGED", "THE", "TYPE", "UDP", "UNTIL", "VLAN")

ANSWER = re.compile(r"(.*?)(?:beside it (.*?))?(?:status (\d)\n?)?", re.DOTALL)

# What stands for the words of a file that isn't there.
NO_FILE = "missing"


class Row(NamedTuple):
    """The file and line of a row, what it is about, what is asked, of which files, and what must come of it."""
    place: str
    what: str
    asked: str
    files: str
    answer: str
    is_heard: bool

    def lay_out(self, folder):
        """Writes the captures of a row, and answers their names."""
        names = []
        for default, file in zip("abcd", self.files.split("+")):
            name, colon, words = file.rpartition(":") if not self.is_heard else ("", "", file)
            names.append(name.strip() if colon else f"{default}.pcap")
            if words.strip() == NO_FILE:
                (folder / names[-1]).unlink(missing_ok=True)
            elif self.is_heard:
                packets = [packet_of(hearing) for hearing in words.split(";") if hearing.strip()]
                write_capture(folder / names[-1], "little-nano", packets)
            else:
                (folder / names[-1]).write_bytes(bytes_of(words))
        return names

    def case(self, folder):
        """The run over the files of the row, once they are laid out in a folder."""
        names = self.lay_out(folder)
        out, err, status = ANSWER.fullmatch(self.answer.replace("\\r\\n", "\r\n").replace("\\n", "\n")).groups()
        return Case((*self.asked.split(), *names), int(status or WHOLE), out, err or "", place=self.place)


def rows_of(names, *paths):
    """Reads the rows of the last of the paths, with what the names and the paths define in the place of its name."""
    known = {word: word for word in WORDS}
    for name, text in names.items():
        define(name, text, known)
    *_, rows = [list(read_rows(path, known)) for path in paths]
    return rows


def define(name, text, known):
    """Adds a name and what it stands for to what is known."""
    if name in known:
        raise ValueError(f"{name} is defined twice")
    known[name] = text


def read_rows(path, known):
    """Reads the rows of a file, and adds what it defines to what is known."""
    known.pop(CAPTURES, None)
    for number, line, below in blocks_of(path):
        defined = DEFINITION.fullmatch(line)
        if defined:
            words = [defined[2] or "", *(COMMENT.sub("", more) for more in below)]
            define(defined[1], expanded(" ".join(filter(None, map(str.strip, words))), known), known)
        else:
            what, *cells = (cell.strip() for cell in line.split("|"))
            asked, files, answer = (expanded(cell, known) for cell in cells)
            answer += "".join(f"{expanded(more, known)}\\n" for more in below)
            place = f"{path.relative_to(TOP)}:{number}"
            yield Row(place, what, asked, files, answer, known.get(CAPTURES) == HEARINGS)


def blocks_of(path):
    """The lines of a file but comments, each with its number and the indented lines below it, without their indent, and empty
    ones among them."""
    blocks, empty = [], 0
    for number, line in enumerate(path.read_text("utf-8").splitlines(), 1):
        if line.startswith(INDENT):
            blocks[-1][2].extend([*[""] * empty, line.removeprefix(INDENT)])
        elif line and not line.startswith("#"):
            blocks.append((number, line, []))
        empty = 0 if line else empty + 1
    return blocks


def cells_of(path):
    """The file and line of each row of a table, and its cells."""
    return [(f"{path.relative_to(TOP)}:{number}", [cell.strip() for cell in line.split("|")]) for number, line, _ in blocks_of(path)]


def expanded(text, known):
    """Puts what is known in the place of each name."""
    for name in NAME.findall(text):
        if name not in known:
            raise ValueError(f"{name} isn't defined, and isn't one of WORDS")
    return NAME.sub(lambda name: known[name[0]], text)


def bytes_of(words):
    """The bytes that words make in turn."""
    made = bytearray()
    for word in words.split():
        if word.startswith(".."):
            del made[int(word[2:]):]
        elif "=" in word:
            at, digits = word.split("=")
            changed = bytes.fromhex(digits)
            if int(at) + len(changed) > len(made):
                raise ValueError(f"{at}: there are {len(made)} bytes alone")
            made[int(at):int(at) + len(changed)] = changed
        else:
            made += bytes.fromhex(word)
    return bytes(made)


# How data is read from words, by what it says.
READ = {Content.ADDRESS: lambda text: ipaddress.ip_address(text).packed, Content.NAME: labels,
        Content.SERVICE: lambda *words: (*map(int, words[:3]), labels(words[3])),
        Content.STRINGS: lambda *words: bytes.fromhex("".join(words))}


def packet_of(hearing):
    """The moment in nanoseconds, and the frame that tells of a record: MOMENT OWNER TTL[,flush] TYPE DATA. After a moment
    alone the message has no record."""
    moment, *told = hearing.split()
    return moment_of(moment), frame_of([record_of(*told)] if told else [])


def record_of(owner, life, name, *words):
    """A record and its TTL."""
    ttl, _, flush = life.partition(",")
    of_type = NAMED[name]
    return (labels(owner), of_type.number, READ[of_type.content](*words), flush == "flush"), int(ttl)
