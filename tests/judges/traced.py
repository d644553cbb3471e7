"""The lines of words that `mdnswhy` must print of whole captures, made from their bytes apart from the programs."""

import ipaddress
from functools import lru_cache

from tests.judges.causes import DAMAGED, LOSSES, cause_of, causes_of
from tests.judges.hearings import Hearing, source_of, told_by
from tests.judges.lives import record_text
from tests.judges.savefile import frames_in, reading_of, snapshot_length
from tests.judges.words import file_text, moment_text

# What the lines of `files` say of packets that were lost to a fragment, the only cause of the examples.
CURES = {cause: "what it told is missing, unless another message told it" for cause in ("fragment", "IPv6 fragment")}


def hearings_text(name, capture):
    lines = []
    for moment, frame in frames_in(capture):
        for heard in (Hearing(moment, *told) for told in told_by(frame)):
            sender = ipaddress.ip_address(source_of(frame)).exploded
            lines.append(f"{moment_text(moment)} {name} {sender} {record_text(heard)} ttl {heard.ttl}{' flush' * heard.flush}\n")
    return "".join(lines)


def packets_text(name, capture):
    """A line for each packet that tells nothing. What is wrong with a damaged message, and where, isn't known here."""
    lines = []
    for packet, (moment, frame) in zip(reading_of(capture).packets, frames_in(capture)):
        cause = cause_of(frame)
        said = "heard no listed record" if cause is None else "refused" if cause == DAMAGED else f"skipped {cause}"
        if cause or not told_by(frame):
            lines.append(f"{moment_text(moment)} {name} {packet.at} {said}\n")
    return "".join(lines)


def spans_text(name, capture):
    packets = [moment for moment, _ in frames_in(capture)]
    hearings = [moment for moment, frame in frames_in(capture) if told_by(frame)]
    return f"{name} packets {bounds(packets)} hearings {bounds(hearings)} snap {snapshot_length(capture)}\n"


def bounds(moments):
    return f"{moment_text(min(moments))} {moment_text(max(moments))}" if moments else "- -"


def files_text(name, capture):
    """The line of a file that heard something, and one for each cause by which it lost packets."""
    frames, causes = frames_in(capture), causes_of(capture)
    hearings = sum(len(told_by(frame)) for _, frame in frames)
    lost = [f"{name} lost {causes[cause]} {cause}: {CURES[cause]}\n" for cause in LOSSES if cause in causes]
    line = f"{name} pcap whole packets {len(frames)} {bounds([moment for moment, _ in frames])} hearings {hearings}\n"
    return "".join([line, *lost])


TEXTS = {"hearings": hearings_text, "packets": packets_text, "spans": spans_text, "files": files_text}


@lru_cache(maxsize=32)
def text_of(command, name, capture):
    return TEXTS[command](name, capture)


def traced_text(command, captures):
    """What a command prints of captures, each with its name, file after file."""
    return "".join(text_of(command, file_text(name), capture) for name, capture in captures)
