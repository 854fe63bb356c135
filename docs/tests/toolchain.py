#!/usr/bin/env python3
"""Says where the toolchain here is another than the one that docs/EVIDENCE.md names.

    toolchain.py RT

The page names it in backquotes before "(`rt version`)". A difference is no
failure, since another version may prove everything too: it is a note for whoever
wonders about a proof that fails, or forgot to bring the page up to date. Exit status
1 if the page does not name one version, or if RT does not tell its own.
"""

import re
import subprocess
import sys
from pathlib import Path

PAGE = Path(__file__).resolve().parent.parent / "EVIDENCE.md"
NAMED = re.compile(r"`([^`\n]+)` \(`rt version`\)")


class Fault(Exception):
    """Why the two can't be compared."""


def named_version():
    named = NAMED.findall(PAGE.read_text(encoding="utf-8"))
    if len(named) != 1:
        raise Fault(f"{PAGE.name}: wanted is one '`VERSION` (`rt version`)' on a line, "
                    f"and there are {len(named)}")
    return named[0]


def version_of(rt):
    try:
        said = subprocess.run([rt, "version"], capture_output=True, text=True, check=True).stdout
    except (OSError, subprocess.CalledProcessError) as error:
        raise Fault(f"{rt} does not tell its version: {error}") from error
    return said.strip()


def main(arguments):
    if len(arguments) != 1:
        print("usage: toolchain.py RT", file=sys.stderr)
        return 2
    try:
        named, here = named_version(), version_of(arguments[0])
    except Fault as fault:
        print(fault, file=sys.stderr)
        return 1
    if here == named:
        print(f"toolchain: '{here}', as {PAGE.name} says")
    else:
        print(f"toolchain: note: here it is '{here}'; {PAGE.name} was last checked with '{named}'")
    return 0


if __name__ == "__main__":
    sys.exit(main(sys.argv[1:]))
