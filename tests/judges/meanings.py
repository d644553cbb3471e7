"""The table of a page that counts packets which were skipped or refused, by their causes, with what each cause means for the
answer: first the causes that need attention, in this order, then the normal ones."""

from tests.judges.causes import CUT, CUT_HEADER, DAMAGED, LENGTH, MALFORMED

MISSING = "bytes are missing: record with tcpdump -s 0"
UNLESS_TOLD = "what it told is missing, unless another message told it"
BROKEN = "a broken sender, or a damaged capture"

ATTENTION = {
    "VLAN tag": "not read: split the capture into its VLANs",
    "cut within the Ethernet header": MISSING,
    CUT_HEADER: MISSING,
    CUT: MISSING,
    "fragment": UNLESS_TOLD,
    "IPv6 fragment": UNLESS_TOLD,
    MALFORMED: BROKEN,
    "IPv4 total length below its header": BROKEN,
    LENGTH: BROKEN,
    "OPCODE or RCODE": "a broken sender",
    DAMAGED: "damaged: refused whole",
}
NORMAL = ("query", "another port", "not to 224.0.0.251 or ff02::fb", "not UDP", "neither IPv4 nor IPv6", "IPv6 extension header")


def table_of(causes):
    """The table, by how many packets of all captures have each cause; a word where none has one."""
    meanings = {**{cause: f'<b class="warn">{meaning}</b>' for cause, meaning in ATTENTION.items()}, **dict.fromkeys(NORMAL, "normal")}
    rows = "".join(f'<tr><td>{causes[cause]:,}</td><th scope="row">{cause}</th><td>{meaning}</td></tr>\n'
                   for cause, meaning in meanings.items() if causes[cause])
    return f"<table>\n{rows}</table>\n" if rows else '<p class="note">None.</p>\n'
