"""Runs over hundreds of files: copies of one capture, and captures that tell of a record each."""

import shutil

from tests.captures.built import lay_out_small, write_capture
from tests.captures.written import packet_of
from tests.judges.answers import answer_to
from tests.running.runs import Case, agrees, said

# How many files a run reads, and at which place, counted from 0, one of them is another one.
FILES = 500
PLACE = 399

COPIES = [f"copy-{number}.pcap" for number in range(FILES)]
HOSTS = [f"host-{number:03}.pcap" for number in range(FILES)]


def host_packet(number):
    """What one of the hosts tells of itself."""
    return packet_of(f"100.{number:09} host-{number:03}.local 120,flush A 198.18.{number >> 8}.{number & 0xFF}")


def with_another(names, name):
    return [*names[:PLACE], name, *names[PLACE + 1:]]


# Options and files, of which the answer is that of the judges.
ASKED = (
    *(("mdnsmerge", [ask], names) for ask in ("records", "lives") for names in (COPIES, ["hosts.pcap"], HOSTS[::-1])),
    ("mdnsmerge", ["records"], ["one.pcap"] * FILES),
    *(("mdnsmerge", [ask], with_another(COPIES, name)) for ask in ("records", "check") for name in ("cut.pcap", "empty.pcap")),
    *((program, [ask], with_another(HOSTS, "text.pcap")) for program, ask in (
        ("mdnsmerge", "records"), ("mdnsmerge", "check"), ("mdnsmerge", "lives"), ("mdnswhy", "listeners"))),
    # Of as many listeners as much is said as a pipe holds.
    ("mdnswhy", ["listeners"], HOSTS[:300]),
    ("mdnswhy", ["listeners", *(f"--listener=host-{number}" for number in range(FILES // 100))], HOSTS),
    ("mdnswhy", ["listeners", "--listener=copy"], COPIES),
)

FAULTS = tuple(said([ask, *with_another(COPIES, name)], f"{name}: {fault}")
               for ask in ("records", "check") for name, fault in (("folder", "read failed"), ("missing.pcap", "cannot be opened")))


def lay_out(folder):
    lay_out_small(folder)
    for name in COPIES:
        shutil.copy(folder / "one.pcap", folder / name)
    for number, name in enumerate(HOSTS):
        write_capture(folder / name, "little-nano", [host_packet(number)])
    write_capture(folder / "hosts.pcap", "little-nano", [host_packet(number) for number in range(FILES)])


def try_many(program, folder):
    """Tries all cases on a program; answers how many failed."""
    lay_out(folder)
    failed = sum(not agrees(case, program, folder) for case in FAULTS)
    for name, words, files in ASKED:
        must = answer_to(name, words, [(file, (folder / file).read_bytes()) for file in files])
        failed += not agrees(Case((*words, *files), *must), program.with_name(name), folder)
    print(f"{len(FAULTS) + len(ASKED)} runs over {FILES} files and as many packets, {failed} failed")
    return failed
