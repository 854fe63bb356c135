#!/usr/bin/env python3
"""Looks whether what the documents name is there.

Every file of text in the repository is read for three kinds of reference:
paths, as `docs/PROOFS.md` or [a link](docs/PROOFS.md); targets, as `make demo`;
and statements in a module, as `answers/proofs/Demands`: `demand-3`. Run from the
repository's root; exit status 1 if one is not there, or if none was found.
"""

import glob
import os
import re
import subprocess
import sys

CODE = re.compile(r"`([^`\n]+)`")
LINK = re.compile(r"\]\(([^)#\s]+)[^)]*\)")
MAKE = re.compile(r"\bmake ((?:[a-z][a-z-]*[ ,`]*)+)")
MODULE = r"(?:crates/)?(\w+/(?:proofs|specs)/\w+)(?:\.antt)?"
STATEMENTS = re.compile(rf"`{MODULE}`:\s+((?:`[^`]+`(?:,\s+|\s+and\s+|\s+\.\.\s+)?)+)")


def documents():
    listed = subprocess.run(["git", "ls-files", "-co", "--exclude-standard", "*.md"],
                            check=True, capture_output=True, text=True).stdout
    return sorted(name for name in listed.split("\n") if os.path.isfile(name))


def folders():
    """The names with which a path from the root begins."""
    return {name for name in os.listdir(".") if os.path.isdir(name)} - {"build", "target"}


def targets():
    text = "".join(open(name, encoding="utf-8").read()
                   for name in ["Makefile", *glob.glob("make/*.mk")])
    return set(re.findall(r"^([a-z][a-z-]*):", text, re.MULTILINE))


def exists(path, document):
    beside = os.path.join(os.path.dirname(document), path)
    return bool(glob.glob(path) or glob.glob(beside))


def paths_named(text, document):
    for word in (word for code in CODE.findall(text) for word in code.split()):
        path = word.rstrip(":,;.").rstrip("/")
        if path.split("/")[0] in folders() and "/" in path and "NAME" not in path:
            yield path, exists(path, document)
    for path in LINK.findall(text):
        if "://" not in path:
            yield path, exists(path, document)


def targets_named(text):
    for code in CODE.findall(text) + re.findall(r"^    (.*)$", text, re.MULTILINE):
        for words in MAKE.findall(code.split("#")[0]):
            yield f"make {words.split()[0]}", words.split()[0] in targets()


def modules_named(text):
    for module in re.findall(rf"`{MODULE}`", text):
        path = f"crates/{module}.antt"
        yield path, os.path.isfile(path)


def statements_named(text):
    for module, names in STATEMENTS.findall(text):
        path = f"crates/{module}.antt"
        source = open(path, encoding="utf-8").read() if os.path.isfile(path) else ""
        for name in CODE.findall(names):
            stands = re.search(rf"(?:^|[\s(]){re.escape(name)}(?=[\s:])", source)
            yield f"{name} in {path}", bool(stands)


def main():
    count, wrong = 0, []
    for document in documents():
        text = open(document, encoding="utf-8").read()
        named = [*paths_named(text, document), *targets_named(text), *modules_named(text),
                 *statements_named(text)]
        count += len(named)
        wrong += [f"{document}: {name} is not there" for name, there in named if not there]
    print(*wrong, sep="\n", end="\n" if wrong else "")
    print(f"documents: {count} references, {len(wrong)} of them to nothing")
    sys.exit(1 if wrong or count == 0 else 0)


if __name__ == "__main__":
    main()
