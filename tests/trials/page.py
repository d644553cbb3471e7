"""Runs of `mdnsmerge page`, whose pages must be those that follow from the captures.

`trials/run --pages WORDS` runs only the cases whose subject has these words."""

import tempfile
from pathlib import Path

from tests.fuzz.oracles import Case
from tests.judges.page_text import own, style_of
from tests.running.program import Finding, Program
from tests.running.runs import fails
from tests.trials.page_captures import cases

# A thousand instances are a page of a megabyte.
PATIENCE = 60

# How many lines of what is wrong with a page are printed.
PRINTED = 20


def page_of(program, folder, case):
    """The page of a case, which must be the judge's."""
    asking = Case({"mdnsmerge": Program(program, folder, PATIENCE)})
    asking.captures.update(case.lay_out(folder))
    return asking.ask_page([name for name, _ in case.files], case.asked)[1]


def found_in(program, folder, case, styles):
    """What is wrong with the page of a case, whose style is added to those of others."""
    try:
        text = page_of(program, folder, case)
    except Finding as finding:
        return str(finding).splitlines()[:PRINTED]
    styles.update({style_of(text)} - {""})
    return [*(["  pages look different"] if len(styles) > 1 else []), *(f"  it lacks {line}" for line in case.has if own(line) not in text)]


def try_page(program, folder, words=""):
    """Tries the pages of all cases; answers how many failed."""
    styles, failed = set(), 0
    chosen = [case for case in cases(folder) if words in case.what]
    for case in chosen:
        with tempfile.TemporaryDirectory(dir=folder) as within:
            failed += fails(case.place, case.what, found_in(program, Path(within), case, styles))
    print(f"{len(chosen)} pages, {failed} failed")
    return failed
