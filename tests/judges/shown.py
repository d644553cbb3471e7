"""Texts for people, made of the exact ones beside them in an object of `--json`."""

import re

from tests.captures.wire import NAMED, Content

# An escape of an exact text: a byte by its number, or another character.
ESCAPE = re.compile(rb"\\(\d{3}|.)")
LABEL = re.compile(r"(?:\\.|[^.\\])+")

# Characters that people wouldn't see, or that change how others are seen: controls, bidirectional marks, blanks other than
# U+0020, and characters without a width, a glyph or a meaning that all share.
RANGES = """0000-001F 007F-00A0 00AD 034F 061C 115F-1160 1680 17B4-17B5 180B-180F 2000-200F 2028-202F 205F-206F 2800 3000
3164 E000-F8FF FE00-FE0F FEFF FFA0 FFF0-FFFB 13430-1345F 1BCA0-1BCA3 1D173-1D17A E0000-10FFFF"""

# And noncharacters (the Unicode Standard, section 23.7): 32 in a row, and the last two of each of the 17 planes.
NONCHARACTERS = (range(0xFDD0, 0xFDF0), *(range(0x10000 * plane + 0xFFFE, 0x10000 * plane + 0x10000) for plane in range(17)))

# By `surrogateescape`, a byte that is no part of UTF-8 is one of these characters, which no UTF-8 has.
STRAY = range(0xDC80, 0xDD00)


HIDDEN = (STRAY, *NONCHARACTERS, *(range(int(word.split("-")[0], 16), int(word.split("-")[-1], 16) + 1) for word in RANGES.split()))


def shown_of(one):
    """The text for people of an object: of a record, an instance or a service type."""
    if "owner" in one:
        return "  ".join([shown_name(one["owner"]), *shown_words(one["type"], one["data"])])
    if "instance" in one:
        return shown(bytes_of(LABEL.match(one["instance"])[0]))
    return shown_name(one["type"])


def shown_words(kind, words):
    """The words of a record's data, of its exact ones."""
    content = NAMED[kind].content
    if content is Content.ADDRESS:
        return list(map(short_address, words))
    if content is Content.NAME:
        return [shown_name(words[0])]
    if content is Content.STRINGS:
        return [shown(bytes_of(word)) for word in words]
    priority, weight, port, target = words
    order = [] if priority == weight == "0" else [f"priority {priority} weight {weight}"]
    return [f"{shown_name(target)}:{port}", *order]


def shown_name(text):
    return ".".join(shown(label, "\\.") for label in labels(text)) or "."


def labels(name):
    """The labels of a name as it is printed, with a dot at its end or without."""
    return tuple(map(bytes_of, LABEL.findall(name)))


def bytes_of(text):
    """The bytes of an exact text."""
    return ESCAPE.sub(lambda found: bytes([int(found[1])]) if found[1].isdigit() else found[1], text.encode("ascii"))


def shown(told, marked="\\"):
    """UTF-8 as it is, but for characters that are marked by a backslash, and for bytes that are given by their numbers."""
    return "".join(shown_character(character, marked) for character in told.decode("utf-8", "surrogateescape"))


def shown_character(character, marked):
    if any(ord(character) in hidden for hidden in HIDDEN):
        return "".join(f"\\{byte:03}" for byte in character.encode("utf-8", "surrogateescape"))
    return f"\\{character}" if character in marked else character


def short_address(text):
    """An address; one of eight groups by RFC 5952: without leading zeros, the first of the longest runs of zero groups as `::`."""
    if ":" not in text:
        return text
    groups = [f"{int(group, 16):x}" for group in text.split(":")]
    runs = [(start, end) for start in range(8) for end in range(start + 2, 9) if set(groups[start:end]) == {"0"}]
    if not runs:
        return ":".join(groups)
    start, end = max(runs, key=lambda run: run[1] - run[0])
    return ":".join(groups[:start]) + "::" + ":".join(groups[end:])
