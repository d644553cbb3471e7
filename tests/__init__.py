"""The tests of the programs, by what they are for. `trials/run`, `fuzz/run` and `bench/run` call them.

- `captures` makes captures: from rows of words, from a seed, from a link that it plays, and from other captures.
- `judges` says what an answer must be, apart from the programs: readers of captures, the definition of lives, the texts for
  people, JSON and pages.
- `running` runs a program, within bounds of time and memory, and says which lines of its answer differ.
- `trials` are the trials of the gate, `planted` its planted bugs, and `fuzz` what must hold over damaged captures."""

from pathlib import Path

TOP = Path(__file__).resolve().parent.parent
EXAMPLES = TOP / "examples"
