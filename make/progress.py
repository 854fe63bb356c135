#!/usr/bin/env python3
"""Says how far a proof has come, while it runs.

    (cd crates/NAME && rt lib) 2>&1 | progress.py NAME

Prints a line for each crate that is proved, with how many NAME needs at most: for one that was proved
before there is no line. Of all else only rt's own lines are printed; the prover's are for a log. Run
from the repository's root.
"""

import re
import sys

from crates_file import needed_by

# What the prover says of a crate before its verdict, and the verdict.
CRATE = re.compile(r"crate (\w+): modules ")
PROVED = "logic=proved "
# Of rt's own lines, those that only say how many processes it takes, and where it begins.
QUIET = re.compile(r"rt: chose --jobs |rt: \w+: begins with ")


def main():
    if len(sys.argv) != 2:
        sys.exit(__doc__)
    needed, proved, crate = needed_by(sys.argv[1]), [], None
    for line in sys.stdin:
        match = CRATE.match(line)
        if match:
            crate = match[1]
        elif line.startswith(PROVED) and crate in needed and crate not in proved:
            proved.append(crate)
            print(f"{len(proved)} of at most {len(needed)} crates proved: {crate}", flush=True)
        elif line.startswith("rt: ") and not QUIET.match(line):
            print(line, end="", flush=True)


if __name__ == "__main__":
    main()
