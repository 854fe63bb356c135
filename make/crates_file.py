"""What crates.txt says, for the scripts beside this file. Read from the repository's root."""

import re
from pathlib import Path

# A crate, what kind it is where it is no library or program of Rattle's, and what it cites.
ROW = re.compile(r"^(\w+)(?: +\w+)?(?: +\w+=\S+)* *:(.*)$", re.MULTILINE)


def citations():
    """Each crate of the repository, with what it cites; the toolchain's libraries too."""
    text = re.sub(r"#.*", "", Path("crates.txt").read_text(encoding="utf-8"))
    return {name: rest.split() for name, rest in ROW.findall(text)}


def needed_by(name):
    """The crate and all crates of the repository below it."""
    cites = citations()
    needed, waiting = set(), [name]
    while waiting:
        crate = waiting.pop()
        if crate in cites and crate not in needed:
            needed.add(crate)
            waiting += cites[crate]
    return needed
