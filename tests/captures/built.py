"""The small files that the trials run the program on."""

from tests import TOP
from tests.captures.wire import PTR, capture, ipv4_frame, message_of
from tests.judges.shown import labels

# One packet at 100 s, which tells of one record.
ONE_PACKET = TOP / "crates/mdnsmerge/data/v1.pcap"

# The address of who sends.
SOURCE = bytes((192, 0, 2, 1))


# Names of files that are escaped in lines, and as they are on standard error; and one below a folder.
TWO_LINES = "a file\nof two lines.pcap"
QUOTED = "back\\slash \"\u00e9\".pcap"
IN_FOLDER = "folder/one.pcap"


ONE = ONE_PACKET.read_bytes()
# With the header of a second packet, without its last byte.
CUT = ONE + ONE[24:39]
# A capture, one that is cut short, and files that are none.
SMALL = {"one.pcap": ONE, IN_FOLDER: ONE, TWO_LINES: ONE, "cut.pcap": CUT, QUOTED: CUT, "empty.pcap": b"",
         "text.pcap": b"No capture, but a text that is longer than a file header.\n"}


def lay_out_small(folder):
    """Puts the small files into a folder."""
    (folder / "folder").mkdir()
    for name, content in SMALL.items():
        (folder / name).write_bytes(content)


def write_capture(path, magic, packets):
    """Writes a capture of frames and their moments in nanoseconds, and answers its bytes."""
    with capture(path, magic) as add:
        for moment, frame in packets:
            add(moment, frame)
    return path.read_bytes()


def frame_of(records, make=ipv4_frame, source=SOURCE):
    """A frame with a message whose answers are these, each with its TTL."""
    return make(source, message_of(records))


def pointer(owner, target):
    """A record that leads from a name to another."""
    return labels(owner), PTR, labels(target), False
