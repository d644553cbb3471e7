"""The vectors and the lines that rows name: those of `crates/test_rows/stdin`, where the program of that crate compares each
with the constant of `crates/test_values` that has its name."""

from tests import TOP

ROWS = TOP / "crates/test_rows/stdin"

# What the row behind the last line of a text answers.
NO_MORE = "it can't be read"


def rows_of(kind):
    """The input and the answer of each row of a kind."""
    rows = ([cell.strip() for cell in line.split("|")] for line in ROWS.read_text("utf-8").splitlines())
    return [(cells[2], cells[3]) for cells in rows if cells[0] == kind]


def vectors():
    """The digits of each vector, by its name."""
    return {name: digits.replace(" ", "") for digits, name in rows_of("vector")}


def lines():
    """The lines of each text without the end of the last one, by its name, and each by its name and number."""
    texts, known = {}, {}
    for asked, line in rows_of("line"):
        name, number = asked.split()
        if line != NO_MORE:
            texts.setdefault(name, []).append(line[1:-1])
            known[f"{name}_{number}"] = texts[name][-1]
    return {**{name: "\\n".join(some) for name, some in texts.items()}, **known}
