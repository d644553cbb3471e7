"""The rows of `crates/test_rows`, run without its proof, as the sources are now: the libraries' answers to them.

The rows of SLOW are left out: with the checks of `rt try` they take a minute."""

import shutil
import subprocess

from tests import TOP

CRATE = TOP / "crates/test_rows"
SLOW = "prefixes of a capture"

# For how many seconds the program may run.
PATIENCE = "120"


def try_library_rows():
    """Prints the rows with other answers; answers whether there are some."""
    if not shutil.which("rt"):
        print("rt is not on the PATH, so the rows of crates/test_rows are not run: skipped")
        return 0
    # An empty line in the place of each row that is left out, so that the others keep their numbers.
    lines = (CRATE / "stdin").read_text("utf-8").splitlines()
    left_out = sum(line.startswith(SLOW) for line in lines)
    rows = "".join("\n" if line.startswith(SLOW) else f"{line}\n" for line in lines)
    count = int((CRATE / "stdout").read_text("utf-8").split()[0]) - left_out
    run = subprocess.run(["rt", "try", "--seconds", PATIENCE], cwd=CRATE, input=rows, capture_output=True, encoding="utf-8",
                         check=False)
    failed = run.returncode != 0 or run.stdout != f"{count} rows\n"
    if failed:
        print(run.stdout, end="")
    if not run.stdout.endswith(" rows\n"):
        print(run.stderr, end="")
    print(f"{count} rows of crates/test_rows run without proof, {'some' if failed else '0'} failed, {left_out} left out")
    return failed
