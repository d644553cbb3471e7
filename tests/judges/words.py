"""Records as reports print them, made from their bytes."""

import ipaddress
import os
import struct

from tests.captures.wire import SECOND, TYPES, Content


def kind_text(kind):
    return TYPES[kind].name


def moment_text(moment):
    return f"{moment // SECOND}.{moment % SECOND:09}"


def file_text(name):
    """The name of a file as its bytes."""
    return bytes_text(os.fsencode(name))


def name_text(name):
    """A name in wire form as its labels with dots between them."""
    return ".".join(bytes_text(label).replace(".", "\\.") for label in strings_in(name[:-1])) or "."


def bytes_text(text):
    """Bytes with a backslash before backslashes, and those that don't print as three decimal digits."""
    return "".join("\\\\" if byte == ord("\\") else chr(byte) if 0x21 <= byte <= 0x7E else f"\\{byte:03}" for byte in text)


def data_words(kind, data):
    """The words of a record's data."""
    content = TYPES[kind].content
    if content is Content.ADDRESS:
        return [ipaddress.ip_address(data).exploded]
    if content is Content.NAME:
        return [name_text(data)]
    if content is Content.SERVICE:
        return [*(str(number) for number in struct.unpack_from("!HHH", data)), name_text(data[6:])]
    return [bytes_text(string) for string in strings_in(data) if string]


def strings_in(data):
    """The strings of data, each after its length; the last one may be cut short."""
    while data:
        yield data[1:1 + data[0]]
        data = data[1 + data[0]:]
