"""Looks whether each public function of the libraries has a planted bug that its own contract has to refuse. Laws have none:
they do nothing, so there is nothing to break.

The bug stands in the function itself, or in a private function whose contract it hands on as it is. A crate's file
`planted/exceptions` says so of the latter, as `hands on FUNCTION`, and has the reason of each function of which no contract says
anything. `planted` tries the bugs."""

from tests.planted.edits import edits_of, exceptions_of, libraries
from tests.planted.items import CALL, Crate

HANDS_ON = "hands on "


def calls(crate, caller, path):
    """Whether a function's body calls another one, by a name that may be that one's."""
    named = [one for before, name in CALL.findall(crate.text(caller, caller.body)) for one in crate.called(caller, before, name)]
    return any(one.path() == path for one in named)


def wrong_exceptions(crate, public, planted, exceptions):
    """What is wrong with the exceptions of a library."""
    functions = {one.path(): one for one in crate.functions}
    for path, reason in exceptions:
        if path not in public:
            yield f"{path} is no public function"
        elif path in planted:
            yield f"{path} has a planted bug, and is no exception"
        elif not reason:
            yield f"{path} has no reason"
        elif reason.startswith(HANDS_ON):
            callee = functions.get(reason[len(HANDS_ON):])
            if not callee or crate.is_public(callee) or callee.path() not in planted:
                yield f"{path} hands on {reason[len(HANDS_ON):]}, which is no private function with a planted bug"
            elif not calls(crate, functions[path], callee.path()):
                yield f"{path} doesn't call {callee.path()}"


def faults_of(folder):
    """What is wrong with the planted bugs of a library."""
    crate, edits, exceptions = Crate(folder), edits_of(folder), exceptions_of(folder)
    public = {one.path() for one in crate.functions if crate.is_public(one)}
    planted = {edit.target for edit in edits}
    faults = [f"{edit.name}: {fault}" for edit in edits for fault in edit.faults]
    known = {one.path() for one in crate.functions}
    faults += [f"{edit.name}: {edit.target} is no function" for edit in edits if edit.target and edit.target not in known]
    faults += wrong_exceptions(crate, public, planted, exceptions)
    excepted = {path for path, _ in exceptions}
    laws = {one.path() for one in crate.functions if one.module == "laws" and "->" not in crate.text(one, one.first)}
    missing = sorted(public - planted - excepted - laws)
    return faults + [f"{path} has no planted bug" for path in missing]


def try_guarded():
    """Says what is wrong with the planted bugs; answers how much that is."""
    faults = [f"{folder.name}: {fault}" for folder in libraries() for fault in faults_of(folder)]
    for fault in faults:
        print(f"planted bugs: {fault}")
    return len(faults)
