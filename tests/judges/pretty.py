"""What `--pretty` must print, made of the lines of words that the same question gives: columns of `mdnsmerge`, and lines or
columns of `mdnswhy`."""

import re
from datetime import datetime, timedelta, timezone

from tests.captures.wire import SECOND, SRV, TXT
from tests.judges.json_forms import APART, LISTENER, MEMBERS, SENDER, SPAN
from tests.judges.lines import addresses_of, gives_instance, host_text, is_service, moment_of, servers_on, wire_of
from tests.judges.shown import LABEL, bytes_of, short_address, shown, shown_name, shown_words

EPOCH = datetime(1970, 1, 1, tzinfo=timezone.utc)

# Clocks that are no further apart are one: a tenth of the second in which goodbyes and flushes act.
NEAR = SECOND // 10

# How many messages that came once in both tell that clocks are further apart: of fewer, each may be one that was sent again.
FEWEST = 3

UNITS = (("d", 86_400), ("h", 3_600), ("min", 60), ("s", 1))


def records_columns(lines, now):
    """A table of the live records as of a moment."""
    rows = [(left(line, now), seconds(line.heard), line.kind, shown_record(line)) for line in lines]
    return heading(rows, "record", "records", now) + table(("LEFT", "HEARD", "TYPE", "RECORD"), rows)


def types_columns(names, now):
    """The service types, by their names as lines have them."""
    return heading(names, "service type", "service types", now) + paragraph(map(shown_name, names))


def instances_columns(instances, others, sets, now):
    """The instances that these lines of PTR records give, below their types, and then the other names that such lines give;
    `sets` has the live records of each set."""
    width = max((len(left(line, now)) for line in (*instances, *others)), default=0)
    text, before = heading(instances, "instance", "instances", now), None
    for line in instances:
        if line.set_key != before:
            text += f"\n{shown_name(line.text.split(' ')[0])}\n"
        before = line.set_key
        text += f"  {left(line, now):{width}}  {shown_label(line.words[0])}\n"
        text += "".join(f"{'':{width + 6}}{'  '.join(words)}\n" for words in words_below(line, sets))
    rows = [f"  {left(line, now):{width}}  {shown_name(line.words[0])}" for line in others]
    return text + (paragraph(["names that aren't one label and the type", *rows]) if rows else "")


def hosts_columns(hosts, instances, sets, now):
    """The hosts, each with its addresses, and below it the instances on it, each with its ports there."""
    text = heading(hosts, "host", "hosts", now)
    for host in hosts:
        text += "\n" + "  ".join([shown_name(host_text(host).split(" ")[0]), *(words_of(line)[0] for line in host)]) + "\n"
        text += "".join(f"  {shown_name(line.words[0])}  port {server.words[2]}\n"
                        for line in instances for server in servers_on(host, line, sets))
    return text


def shown_label(name):
    """The first label of a name alone."""
    return shown(bytes_of(LABEL.match(name)[0]))


def words_below(line, sets):
    """The words of each line below an instance: of its servers, or that there are none, and of its texts."""
    name = wire_of(line.target)
    servers = [[*words_of(server), *(word for address in addresses_of(server, sets) for word in words_of(address))]
               for server in sets.get((name, SRV), ())]
    texts = [words_of(text) for text in sets.get((name, TXT), ())]
    return (servers or [["unresolved"]]) + [words for words in texts if words]


def lives_columns(lives, bounds, chosen, taken_back):
    """A table of lives, each a record's line, when it was live from and until, in parentheses where it goes on, and how it ended; and
    which are chosen."""
    rows = [(*ends_of(life, taken_back), life.record.kind, shown_record(life.record)) for life in lives]
    return lives_table(f"{'life' if len(rows) == 1 else 'lives'}{chosen}", bounds, ("TYPE", "RECORD"), rows)


def ends_of(life, taken_back):
    """When a life was live from and until, and how it ended, or what else than its TTL will end it; goodbyes with the time of day."""
    goes_on = life.how == "live"
    reason = left(life.record, life.record.heard) if goes_on else life.how
    words = {"goodbye": f"goodbye at {time_of(life.record.heard)}", "flushed": "flushed"}.get(reason, "" if goes_on else reason)
    goodbye = taken_back.get((life.text.rsplit(" from ", 1)[0], life.start))
    back = goodbye is not None and f"goodbye at {time_of(goodbye)} taken back"
    return millis(life.start), millis(life.until), ", ".join(filter(None, ("live" if goes_on else "", words, back)))


def time_of(moment):
    return millis(moment)[11:]


def lives_table(called, bounds, heads, rows):
    # The end of a life that goes on is a forecast, in parentheses.
    lines = re.sub(r"^(\S+)  (\S+)  (?=live)", r"\1 (\2) ", table(("FROM", "UNTIL", "END", *heads), rows), flags=re.M)
    return f"{len(rows)} {called} between {' and '.join(map(millis, bounds))}\n" + lines if bounds else ""


def services_columns(services, bounds, taken_back):
    """A table of lives of services, each with its servers."""
    rows = [(*ends_of(life, taken_back), "  ".join([shown_name(life.record.words[0]), *([
        word for server in servers for word in shown_words("SRV", server)] or ["unresolved"])])) for life, servers in services]
    return lives_table("life of a service" if len(rows) == 1 else "lives of services", bounds, ("SERVICE",), rows)


def heading(rows, one, many, now):
    return f"{len(rows)} {one if len(rows) == 1 else many} live{f' at {millis(now)}' if now else ''}\n"


def table(heads, rows):
    """Columns as wide as their widest text, but for the last, below an empty line; nothing if there are no rows. Before an empty
    last text a line ends without blanks."""
    widths = [max(len(row[column]) for row in (heads, *rows)) for column in range(len(heads) - 1)]
    lines = ["  ".join([f"{cell:{width}}" for cell, width in zip(row, widths)] + [row[-1]]) for row in (heads, *rows)]
    return paragraph(line if row[-1] else line.rstrip(" ") for line, row in zip(lines, (heads, *rows))) if rows else ""


def paragraph(lines):
    return "".join(f"{'' if number else chr(10)}{line}\n" for number, line in enumerate(lines))


def left(line, now):
    """How much longer a record lives."""
    if line.ttl == 0:
        return "goodbye"
    return "flushed" if line.until < line.heard + line.ttl * SECOND else duration(line.until - now)


def duration(nanos):
    rest = nanos // SECOND
    for (unit, size), (lower, part) in zip(UNITS, (*UNITS[1:], ("", 0))):
        if rest >= size:
            count, below = divmod(rest, size)
            more = below // part if part else 0
            return f"{count} {unit}" + (f" {more} {lower}" if more else "")
    return "under 1 s"


def shown_record(line):
    return "  ".join([shown_name(line.text.split(" ")[0]), *words_of(line)])


def words_of(line):
    """The words of a record's data for people."""
    return shown_words(line.kind, line.words)


def date_of(nanos):
    return EPOCH + timedelta(seconds=nanos // SECOND)


def seconds(nanos):
    return date_of(nanos).strftime("%Y-%m-%dT%H:%M:%SZ")


def millis(nanos):
    return date_of(nanos).strftime("%Y-%m-%dT%H:%M:%S.") + f"{nanos % SECOND // 1_000_000:03}Z"


def is_apart(line):
    """Whether a record points from a service type to a name that isn't one label and the type."""
    return line.kind == "PTR" and is_service(line.owner) and not gives_instance(line)


def pretty_text(trace, text):
    """What `mdnswhy` prints for people, of the text of all its plain lines."""
    if trace == "listeners":
        return listeners_columns(text)
    return "".join(f"{PRETTY[trace](line)}\n" for line in text.splitlines())


def pretty_hearing(line):
    moment, name, source, owner, kind, data, ttl, flush = MEMBERS["hearings"].fullmatch(line).groups()
    said = ("goodbye" if ttl == "0" else f"ttl {ttl}") + (flush or "")
    record = "  ".join([shown_name(owner), *shown_words(kind, data.split())])
    return f"{millis(moment_of(moment))}  {said:14}  {short_address(source):15}  {name}  {kind:4}  {record}"


def pretty_packet(line):
    moment, *words = line.split(" ", 3)
    return "  ".join([millis(moment_of(moment)), *words])


def pretty_span(line):
    name, *moments, snap = SPAN.fullmatch(line).groups()
    packets, hearings = ("none" if first == "-" else f"{millis(moment_of(first))} to {millis(moment_of(last))}"
                         for first, last in (moments[:2], moments[2:]))
    return f"{name}  packets {packets}  hearings {hearings}  snap {snap}"


PRETTY = {"hearings": pretty_hearing, "packets": pretty_packet, "spans": pretty_span}


def listeners_columns(text):
    """What `mdnswhy listeners` prints for people, of all its plain lines: tables of listeners, of each two, and of senders."""
    listeners, pairs, senders = ([found.groupdict() for found in map(layout.fullmatch, text.splitlines()) if found]
                                 for layout in (LISTENER, APART, SENDER))
    return "".join((
        table(("LISTENER", "HEARD", "ALONE", "MISSED", "FROM", "UNTIL"),
              [(row["file"], row["heard"], row["alone"], row["missed"], *begin_and_end(row)) for row in listeners]),
        table(("LISTENER", "OTHER", "COMMON", "THE OTHER'S CLOCK"),
              [(row["file"], row["other"], row["common"], clock_words(row)) for row in pairs]),
        table(("SENDER", "LISTENER", "HEARD", "MISSED", "FROM", "UNTIL", "NAMES"),
              [(short_address(row["source"]), row["file"], row["heard"], row["missed"], *begin_and_end(row),
                ", ".join(map(shown_name, row["names"].split()))) for row in senders]),
    )).removeprefix("\n")


def begin_and_end(row):
    return ["-" if row[name] == "-" else millis(moment_of(row[name])) for name in ("from", "until")]


def clock_words(row):
    """How far the clock of the other of two listeners is ahead, and what to do about it."""
    if row["common"] == "0":
        return "nothing in common: another link, or another filter?"
    if row["by"] == "0":
        return "can't tell: no message came once in both"
    by = f"by {row['by']} message{'' if row['by'] == '1' else 's'} heard once in both"
    between = row["low"] if row["low"] == row["high"] else f"{row['low']} to {row['high']}"
    ahead, low, high = (signed_nanos(row[name]) for name in ("ahead", "low", "high"))
    if max(map(abs, (ahead, low, high))) <= NEAR:
        return f"one clock: {row['ahead']} s ahead, {by}"
    if int(row["by"]) < FEWEST:
        return f"too few to tell: {between} s ahead, {by}"
    if max(ahead - low, high - ahead) <= NEAR:
        back = row["ahead"][1:] if ahead < 0 else f"-{row['ahead']}"
        return f"{row['ahead']} s ahead, {by}: editcap -F nsecpcap -t {back} {row['other']} shifted.pcap"
    return f"unsteady: {between} s ahead, {by}"


def is_untold(row):
    """Whether two listeners have messages in common, of which too few came once in both to tell whether they have one clock."""
    return row["common"] != "0" and int(row["by"]) < FEWEST and not clock_words(row).startswith("one clock: ")


def warned_words(row):
    """What a warning says of the clock of the other of two listeners; None where they have one clock, or too few messages tell."""
    words = clock_words(row)
    if is_untold(row) or words.startswith("one clock: "):
        return None
    more = "" if row["common"] == "0" else ": mdnswhy listeners FILE... says more"
    return words.partition(": editcap")[0] + more


def signed_nanos(text):
    return -moment_of(text[1:]) if text.startswith("-") else moment_of(text)
