"""The expected outputs of the example captures: each text is what the judges make of the bytes of the captures, in whichever form."""

from tests import EXAMPLES
from tests.judges.answers import answer_to
from tests.judges.judged_page import Asked, Judge
from tests.judges.page_text import page_text, style_of
from tests.running.commands import WHYS
from tests.running.runs import difference, fails


def try_examples():
    """Answers how many expected texts aren't those of the judges."""
    paths = sorted((EXAMPLES / "expected").iterdir())
    failed = 0
    for path in paths:
        captures, _, asked = path.stem.partition(".")
        command, *form = asked.split("-")
        files = [(f"{name}.pcap", (EXAMPLES / f"{name}.pcap").read_bytes()) for name in captures.split("-")]
        text = path.read_bytes().decode()
        must = answer_to("mdnswhy" if command in WHYS else "mdnsmerge", [command, *(f"--{one}" for one in form)], files).out
        if command == "page":
            must = page_text(Judge(files, Asked()), style_of(text))
        failed += fails(f"examples/expected/{path.name}", "what the captures give", difference("  the text", must, text))
    print(f"{len(paths)} expected texts beside what the captures give, {failed} failed")
    return failed
