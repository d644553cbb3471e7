"""Which records, types and instances are about a word, as `--about` has it, told of the lines of words; and words to ask
about."""

import ipaddress
import re
from functools import lru_cache
from itertools import takewhile

from tests.captures.wire import NAMED, NAMES, SRV, Content
from tests.judges.lines import addresses_of, servers_on, wire_of
from tests.judges.pretty import shown_label, shown_record, words_of
from tests.judges.shown import LABEL, shown_name

# Words that are mostly about nothing.
STRANGE = (".", "local", "_tcp.local", "::", "0", "a b", "\\", "\u00e9", "127.0.0.1", "1.2.3.4.5", "-", "</bdi>", "&lt;")


# A dot at the end that isn't escaped: before it stands an even number of backslashes.
FINAL_DOT = re.compile(r"(?<!\\)(?:\\\\)*\.\Z")


def subjects_of(words):
    """What words ask about: each as it is, and then without its final dot, where it has one behind something else."""
    return [one for word in words for one in (word, word[:-1]) if one == word or one and FINAL_DOT.search(word)]


def is_about(is_about_one, words, told):
    """Whether something is about one of the words, or there are none."""
    return not words or any(is_about_one(word, told) for word in words)


def same(word, text):
    """Whether the texts are the same but for the case of ASCII letters."""
    return word.encode().lower() == text.encode().lower()


def said(labels):
    """Labels as people write a name, with no dot escaped."""
    return ".".join(map(shown_label, labels)) or "."


def before_type(labels):
    """The first label, and those after it that stand before a type."""
    return [*labels[:1], *takewhile(lambda label: not label.startswith("_"), labels[1:])]


@lru_cache(maxsize=16_384)
def spellings(text):
    """How a name is spelled of which this is the exact text: whole; and by its first label alone, or what stands before its
    type."""
    labels = LABEL.findall(text)
    return (text, shown_name(text), said(labels)), [said(before_type(labels)), *labels[:1], *map(shown_label, labels[:1])]


def is_name(word, text):
    """Whether a word is a name, of which this is the exact text: whole or without `local`, its first label, or what stands
    before its type."""
    wholes, parts = spellings(text)
    return any(same(word, name) or same(f"{word}.local", name) for name in wholes) or any(same(word, part) for part in parts)


@lru_cache(maxsize=4096)
def address_of(text):
    """The address that a text spells in any form, or None."""
    try:
        return ipaddress.ip_address(text)
    except ValueError:
        return None


def is_address(word, line):
    """Whether a word is the address of a line of A or AAAA, in any form."""
    address = address_of(word)
    return address is not None and address == address_of(line.words[0])


def is_in_data(word, line):
    content = NAMED[line.kind].content
    if content is Content.ADDRESS:
        return is_address(word, line)
    if content is Content.NAME:
        return is_name(word, line.words[0])
    if content is Content.SERVICE:
        *numbers, target = line.words
        return is_name(word, target) or any(same(word, text) for text in (*numbers, words_of(line)[0]))
    return any(same(word, text) for text in (*line.words, *words_of(line)))


def is_record_about(word, line):
    return is_name(word, line.text.split(" ")[0]) or is_in_data(word, line)


def is_instance_about(word, line, sets):
    """Whether an instance, given by the line of a PTR record, is about a word: by its name, type, servers or addresses."""
    name = line.words[0]
    servers = sets.get((wire_of(line.target), SRV), ())
    return (is_name(word, name) or is_name(word, name.split(LABEL.match(name)[0] + ".", 1)[1])
            or any(is_name(word, server.words[-1])
                   or any(is_address(word, address) for address in addresses_of(server, sets)) for server in servers))


def is_host_about(word, host, instances, sets):
    """Whether a host, given by the lines of its addresses, is about a word: by one of these, or by an instance on it."""
    return any(is_record_about(word, line) for line in host) or any(
        servers_on(host, line, sets) and is_instance_about(word, line, sets) for line in instances)


def some_word(rng, lines):
    """A word that one of the lines is about, as often of each type; now and then nearly such a word, or a strange one."""
    if not lines or rng.random() < 0.1:
        return rng.choice(STRANGE)
    kind = rng.choice(sorted({line.kind for line in lines}))
    word = rng.choice(words_about(rng.choice([line for line in lines if line.kind == kind])))
    return word if rng.random() < 0.9 else nearly(rng, word)


def nearly(rng, word):
    """A word with something more or less, so that mostly nothing is about it."""
    return rng.choice((word[1:] or word, word[:-1] or word, f"{word}x", f" {word}", f"x.{word}", f"{word}.local", f"{word}\\."))


def words_about(line):
    """Words that a line is about, as somebody may give them, and the domains of its names, which are types of instances."""
    owner = line.text.split(" ")[0]
    names = [name for name in (owner, *(line.words[-1:] if line.kind in NAMES else ())) if name != "."]
    firsts = [LABEL.match(name)[0] for name in names]
    parts = [said(part) for labels in map(LABEL.findall, names) for part in (labels, before_type(labels))]
    names += [name[len(first) + 1:] for name, first in zip(names, firsts)]
    told = [*names, *firsts, *map(shown_name, names), *map(shown_label, firsts), *parts,
            *line.words, *words_of(line), shown_record(line), *forms_of(line)]
    return [word for text in told for word in (text, text.swapcase(), f"{text}.", re.sub(r"\.local$", "", text)) if word]


def forms_of(line):
    """More forms of a line's address: with `::` in place of the first zeros, with all groups, and with IPv4 at the end. So
    written, an address of IPv4 is another one."""
    if line.kind == "A":
        return [f"::ffff:{line.words[0]}"]
    if line.kind != "AAAA":
        return []
    groups = line.words[0].split(":")
    last = ipaddress.IPv4Address(bytes.fromhex("".join(groups[6:])))
    return [re.sub(r"(?:^|:)(?:0000(?::|$))+", "::", line.words[0], count=1),
            ":".join(f"{int(group, 16):x}" for group in groups), f"{':'.join(groups[:6])}:{last}"]
