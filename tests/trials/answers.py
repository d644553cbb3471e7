"""Runs over small captures: the rows of `captures.rows`, of `shapes`, and of `why.rows` for mdnswhy, which have their bytes, of
`hearings.rows` and `lives.rows`, which have what was heard, and of `listeners.rows` for mdnswhy, which have either.

What must come of each row stands in it."""

from itertools import chain
from typing import NamedTuple

from tests import TOP
from tests.captures.vectors import lines, vectors
from tests.captures.written import rows_of
from tests.running.runs import agrees, fails


class Table(NamedTuple):
    """The files of names and rows, of which the last one has the rows, or each of some; how many rows there are, so that one that is lost
    is missed; and whether they name vectors beside the lines of reports."""
    names: tuple
    count: int
    program: str = "mdnsmerge"
    has_vectors: bool = True

    def rows(self):
        known = {**vectors(), **lines()} if self.has_vectors else lines()
        *names, rows = (sorted((TOP / "trials").glob(name)) for name in self.names)
        return [row for path in rows for row in rows_of(known, *chain(*names), path)]


TABLES = (Table(("captures.rows",), 179),
          Table(("hearings.rows",), 155, has_vectors=False),
          Table(("hearings.rows", "lives.rows"), 199, has_vectors=False),
          Table(("captures.rows", "why.rows"), 253, "mdnswhy"),
          Table(("captures.rows", "listeners.rows"), 92, "mdnswhy"),
          Table(("shapes/*.rows",), 50, has_vectors=False))


def try_answers(merge, folder, about=""):
    """Tries the rows that are about such words, all without any, on mdnsmerge and the mdnswhy beside it; answers how many
    failed."""
    failed = count = 0
    for table in TABLES:
        rows = table.rows()
        failed += fails(f"trials/{table.names[-1]}", f"{len(rows)} rows, and not {table.count}",
                        [] if len(rows) == table.count else ["  say so in `TABLES`, if it is meant"])
        program = merge.with_name(table.program)
        for row in rows:
            if about in row.what:
                count += 1
                failed += not agrees(row.case(folder), program, folder, row.what)
    print(f"{count} runs over small captures, {failed} failed")
    return failed + (not count)
