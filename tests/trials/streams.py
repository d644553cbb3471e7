"""Runs of the program over pipes, FIFOs and standard input, whose bytes come in pieces.

Each run is made over files first."""

import os
import shutil
import threading
import time
from contextlib import suppress
from functools import partial
from itertools import cycle

from tests import EXAMPLES
from tests.captures.built import lay_out_small, write_capture
from tests.captures.wire import SECOND
from tests.captures.written import packet_of
from tests.judges.answers import answer_to
from tests.running.runs import Case, agrees

# How many bytes come at once, again and again, and after how many pieces there is no pause any more.
PIECES = (1, 2, 3, 5, 7, 16, 61, 255, 1009, 4099, 65_537)
SLOW_PIECES = 12
PAUSE = 0.005

# A frame that is longer than what is read ahead, and is no message.
LONG_FRAME = bytes(200_000)

# Several are opened at once, and read one after another.
ASKED = ("records one.pcap", "records cut.pcap", "check cut.pcap", "records long.pcap", "check long.pcap", "records west.pcap",
         "types east.pcap", "lives cut.pcap", "lives east.pcap", "records empty.pcap", "check text.pcap", "records west.pcap east.pcap",
         "instances west.pcap east.pcap", "lives west.pcap east.pcap", "check west.pcap east.pcap", "records long.pcap one.pcap cut.pcap",
         "records west.pcap text.pcap", "check text.pcap west.pcap")


def cases(folder):
    """The runs over files of the folder, as the judges have them."""
    for command, *names in map(str.split, ASKED):
        yield Case((command, *names), *answer_to("mdnsmerge", [command], [(name, (folder / name).read_bytes()) for name in names]))


def feed(begin, capture):
    """Begins to write bytes in pieces to what `begin` opens, until all are written, or nobody reads them any more."""
    def write():
        to, offset = begin(), 0
        with suppress(BrokenPipeError):
            for number, size in enumerate(cycle(PIECES)):
                if offset >= len(capture):
                    break
                os.write(to, capture[offset:offset + size])
                offset += size
                if number < SLOW_PIECES:
                    time.sleep(PAUSE)
        os.close(to)

    feeder = threading.Thread(target=write, daemon=True)
    feeder.start()
    return feeder


def opened_fifo(path, is_over):
    """The end of a FIFO to write to, once a run has opened the other; of no file where no run will."""
    while not is_over.is_set():
        try:
            to = os.open(path, os.O_WRONLY | os.O_NONBLOCK)
        except OSError:
            time.sleep(0.001)
        else:
            os.set_blocking(to, True)
            return to
    return os.open(os.devnull, os.O_WRONLY)


def over_fifos(case, program, files, folder):
    """Tries a case with each file replaced by a FIFO of its name."""
    shutil.rmtree(folder, ignore_errors=True)
    folder.mkdir()
    is_over = threading.Event()
    for name in case.words[1:]:
        os.mkfifo(folder / name)
    for name in case.words[1:]:
        feed(partial(opened_fifo, folder / name, is_over), (files / name).read_bytes())
    is_right = agrees(case, program, folder, "over FIFOs")
    is_over.set()
    return is_right


def over_standard_input(case, program, files):
    """Tries a case of one file with a pipe as standard input in its place."""
    what, name = case.words
    given, to = os.pipe()
    piped = case._replace(words=(what, "/dev/stdin"), out=case.out.replace(name, "/dev/stdin"),
                          err=case.err.replace(name, "/dev/stdin"))
    feeder = feed(lambda: to, (files / name).read_bytes())
    with os.fdopen(given, "rb") as given:
        is_right = agrees(piped, program, files, "over a pipe", given)
    feeder.join()
    return is_right


def lay_out(folder):
    lay_out_small(folder)
    for name in ("west.pcap", "east.pcap"):
        shutil.copy(EXAMPLES / name, folder)
    packets = [packet_of("100 a.local 120 A 192.0.2.1"), (100 * SECOND, LONG_FRAME), packet_of("101 b.local 120 A 192.0.2.2")]
    write_capture(folder / "long.pcap", "big-nano", packets)


def try_streams(program, folder):
    """Tries all cases over files, FIFOs and standard input; answers how many runs failed."""
    lay_out(folder)
    results = []
    for case in cases(folder):
        results += [agrees(case, program, folder, "over files"), over_fifos(case, program, folder, folder / "fifos")]
        if len(case.words) == 2:
            results.append(over_standard_input(case, program, folder))
    failed = results.count(False)
    print(f"{len(results)} runs over files, FIFOs and pipes, {failed} failed")
    return failed
