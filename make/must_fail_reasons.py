#!/usr/bin/env python3
"""Looks why the prover refused each must-fail edit, and that none was left out.

    must_fail_reasons.py LOG

LOG is what `rt ci` printed, which has a line for each edit with the first thing that the
prover said. `rt ci` itself fails where an edit is proved or was not tried, and passes one
that could not be applied, compiled or read ("BAD EDIT"): this does not. An edit that only
makes its proof file unfit for the code is refused too, and shows nothing: then what is said
is about a name, about the order of the goals or about the shape of what is known there, and
not about a fact. docs/PROOFS.md has examples. The first line of an edit has to say what its
wrong program does, in a sentence. Run from the repository's root; exit status 1 if an edit
has no such line, has none in LOG, is bad, or was refused for one of these reasons. That what
remains is a fact that fails is not shown here: whoever adds an edit reads all that the prover
says of it.
"""

import re
import sys
from pathlib import Path

# What `rt ci` says of an edit, and of all of them where it passed.
TOLD = re.compile(r"rt: must-fail (\w+/\S+\.edit): (.*)")
REFUSED = re.compile(r"refused, as it must be(?: \((?P<remark>[^()]*)\))?(?:: (?P<said>.*))?")
ALL = re.compile(r"rt: ok\b(?:.*; must-fail edits: (\d+) refused)?")
BAD = re.compile(r", \d+ bad\b")

# rt's own remark where nothing but names was missed.
ONLY_A_NAME = "only because a proof file names what the edit took away"

NO_FACT = [
    (re.compile(r"can be named from here|is not in scope|has no `"), "a name is missing"),
    (re.compile(r"expected type `[\w·.-]*\b(?:Need|After|Else)\b|"
                r"`[\w·.-]*\b(?:Need|After|Else)\b[\w-]*` \(expected\)"), "the goals moved"),
    (re.compile(r"has no field|this tuple has \d+ components"), "what is known moved"),
]

# What the lines of an edit begin with that are no comment.
WORDS = ("file:", "old:", "new:")


def says_what_is_wrong(edit):
    """Whether the first line is a sentence, and not yet a part of the edit."""
    lines = edit.read_text(encoding="utf-8").split("\n")
    return not lines[0].startswith(WORDS) and lines[0].endswith(".")


def fault_of(edit, told):
    """What is wrong with an edit or its refusal; None if nothing is found."""
    if not says_what_is_wrong(edit):
        return "its first line is no sentence that says what the wrong program does"
    answer = told.get(f"{edit.parent.parent.name}/{edit.name}")
    if answer is None:
        return "rt ci says nothing of it: it was not tried"
    match = REFUSED.fullmatch(answer)
    if match is None:
        return answer[:300]
    if (match["remark"] or "").startswith(ONLY_A_NAME):
        return f"a name is missing: {match['said']}"
    for pattern, reason in NO_FACT:
        if pattern.search(match["said"] or ""):
            return f"{reason}: {match['said']}"
    return None


def fault_of_all(lines, count):
    """What is wrong with the line that `rt ci` ends with where it passed."""
    found = [line for line in lines if ALL.match(line)]
    if len(found) != 1:
        return f"the log has {len(found)} lines 'rt: ok', and not one"
    if BAD.search(found[0]):
        return f"some edits are bad: {found[0]}"
    if int(ALL.match(found[0])[1] or 0) != count:
        return f"there are {count} edits: {found[0]}"
    return None


def main():
    if len(sys.argv) != 2:
        sys.exit(__doc__)
    lines = Path(sys.argv[1]).read_text(encoding="utf-8", errors="replace").split("\n")
    told = dict(match.groups() for match in map(TOLD.fullmatch, lines) if match)
    edits = sorted(Path("crates").glob("*/must-fail/*.edit"))
    faults = {edit: fault for edit in edits if (fault := fault_of(edit, told)) is not None}
    for edit, fault in faults.items():
        print(f"{edit}: {fault}")
    print(f"must-fail edits: {len(edits)}, {len(faults)} of them without a sentence, not refused, or refused for no fact")
    of_all = fault_of_all(lines, len(edits))
    if of_all is not None:
        print(f"rt ci: {of_all}")
    sys.exit(1 if faults or of_all is not None or not edits else 0)


if __name__ == "__main__":
    main()
