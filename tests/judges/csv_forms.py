"""What `--csv` must print, made of the objects of `--json`: a header, and a row for each (RFC 4180). Texts are those for people."""

from tests.captures.wire import SECOND
from tests.judges.lines import moment_of
from tests.judges.lives import CHOICES
from tests.judges.pretty import date_of
from tests.judges.shown import bytes_of, short_address, shown, shown_name, shown_words

RECORD = ("owner", "type", "data")
HEADERS = {
    "records": (*RECORD, "ttl", "heard", "until"),
    **dict.fromkeys(CHOICES, (*RECORD, "from", "ttl", "heard", "until", "end")),
    "services": ("instance", "type", "servers", "from", "ttl", "heard", "until", "end"),
    "types": ("type",),
    "instances": ("instance", "type", "host", "port", "addresses", "texts"),
    "hosts": ("host", "addresses", "instance", "port"),
    "hearings": ("moment", "file", "source", *RECORD, "ttl", "flush"),
}

# A spreadsheet would take a text that begins so for a formula.
FORMULA = ("=", "+", "-", "@")


def csv_text(command, objects):
    """The CSV of objects of a command."""
    header = HEADERS[command]
    rows = [",".join(field_of(row, name) for name in header) for one in objects for row in rows_of(one)]
    return "".join(f"{row}\r\n" for row in (",".join(header), *rows))


def rows_of(one):
    """The object of each row: of an instance one for each server, of a host one for each service, and one where there is none."""
    if "services" in one:
        services = [{"instance": shown_name(instance), "port": port} for instance, port in one["services"]]
        return [{"host": one["host"], "addresses": one["addresses"], **service} for service in services or [{}]]
    if "servers" not in one:
        return [one]
    if "end" in one:
        named = " ".join(f"{server['shown']}:{server['port']}" for server in one["servers"])
        return [{**one, "instance": one["shown"], "servers": named}]
    servers = [{"host": server["target"], "port": server["port"], "addresses": server["addresses"]} for server in one["servers"]]
    return [{"instance": one["shown"], "type": one["type"], "texts": one["texts"], **server} for server in servers or [{}]]


def field_of(row, name):
    """A field: a text in quotes, or a number, a moment, whether something is so, or nothing."""
    if name not in row:
        return ""
    field = FIELDS.get(name, lambda told, _: told)(row[name], row)
    if name in MOMENTS:
        return field
    return quoted(field) if isinstance(field, str) else str(field).lower()


def quoted(text):
    return '"{}{}"'.format("'" * text.startswith(FORMULA), text.replace('"', '""'))


def moment_field(told, _):
    """A moment by RFC 3339, with all digits of its fraction."""
    return date_of(moment_of(told)).strftime("%Y-%m-%dT%H:%M:%S.") + f"{moment_of(told) % SECOND:09}Z"


MOMENTS = ("from", "heard", "until", "moment")
FIELDS = {
    **dict.fromkeys(("owner", "host", "type"), lambda told, _: shown_name(told)),
    **dict.fromkeys(MOMENTS, moment_field),
    "data": lambda told, row: " ".join(shown_words(row["type"], told)),
    "source": lambda told, _: short_address(told),
    "addresses": lambda told, _: " ".join(map(short_address, told)),
    "texts": lambda told, _: " ".join(shown(bytes_of(word)) for words in told for word in words),
}
