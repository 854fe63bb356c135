#!/usr/bin/env python3
"""Compiles the library for C over the proved libraries that lie in crates/*/out.

    archive.py FILE [--since MARK] [--toolchain FOLDER]

FILE becomes what `rt lib` in crates/leafgraph_c makes: that crate is proved, and compiled with
all that it reaches. `rt lib` takes only libraries that `rt check` or `rt lib` made, and would
prove every crate below once more where `rt ci` has just done so; this takes what is there.
With --since each of them must be newer than the file MARK, which was made before `rt ci` began:
an older one may be of other sources. With --toolchain the compiler and the archiver are those
in FOLDER/bin. Run from the repository's root; exit status 1, and no FILE, if a library is
missing or old, or if the toolchain makes none.
"""

import argparse
import os
import shutil
import subprocess
import sys
from pathlib import Path

from crates_file import citations, needed_by

CRATE = "leafgraph_c"
# Every x86-64 processor runs it; what the toolchain takes unasked does not. The Makefile asks `rt lib` for the same.
CPU = "x86-64"


class Fault(Exception):
    """Why there is no archive."""


def kit():
    """The folder of the toolchain that `rt` belongs to."""
    rt = shutil.which("rt")
    if rt is None:
        raise Fault("no rt on the path")
    folder = Path(rt).resolve().parent.parent
    for part in ("bin/rattle", "logic_built", "rlibs/std.rlib", "toolchain/bin/clang", "rattle/logic/antt-project.json"):
        if not (folder / part).exists():
            raise Fault(f"the toolchain has no {folder / part}, so it is not one that this script knows")
    return folder


def library(crate, mark):
    """Where the crate's proved library lies."""
    folder = Path("crates").absolute() / crate / "out/rlib"
    if not (folder / f"{crate}.rlib").is_dir():
        raise Fault(f"{crate} has no proved library in its out/")
    if mark is not None and folder.stat().st_mtime < mark.stat().st_mtime:
        raise Fault(f"the library in {crate}'s out/ is older than {mark}")
    return folder


def words(tools, toolchain, mark, to):
    """What the toolchain is asked for, as `rt lib` asks it."""
    cited = citations()[CRATE]
    below = {crate: library(crate, mark) for crate in sorted(needed_by(CRATE) - {CRATE})}
    asked = [tools / "bin/rattle", "build", "--crate-name", CRATE, "src/lib.rt",
             "--extern", f"std={tools / 'rlibs/std.rlib'}", "-L", f"dependency={tools / 'rlibs'}"]
    for crate, folder in below.items():
        if crate in cited:
            asked += ["--extern", f"{crate}={folder / crate}.rlib"]
        asked += ["-L", f"dependency={folder}"]
    return [*asked, "--antt-project", tools / "rattle/logic/antt-project.json", "--logic-built", tools / "logic_built",
            "--crate-type", "staticlib", "--cpu", CPU, "--backend", "llvm", "--toolchain", toolchain, "-o", to]


def compile_archive(file, toolchain, mark):
    tools = kit()
    file.parent.mkdir(parents=True, exist_ok=True)
    part = file.absolute().with_suffix(".new")
    asked = words(tools, (toolchain or tools / "toolchain").absolute(), mark, part)
    try:
        done = subprocess.run(asked, cwd=f"crates/{CRATE}", stdin=subprocess.DEVNULL, stdout=subprocess.PIPE,
                              stderr=subprocess.STDOUT, text=True, errors="replace", check=False)
        if done.returncode != 0:
            raise Fault(f"{done.stdout}the toolchain ended with status {done.returncode}")
        os.replace(part, file)
    finally:
        part.unlink(missing_ok=True)


def main():
    parser = argparse.ArgumentParser(usage=__doc__.split("\n\n", maxsplit=1)[1])
    parser.add_argument("file", type=Path)
    parser.add_argument("--since", type=Path)
    parser.add_argument("--toolchain", type=Path)
    given = parser.parse_args()
    try:
        compile_archive(given.file, given.toolchain, given.since)
    except Fault as fault:
        print(f"archive.py: {fault}", file=sys.stderr)
        return 1
    print(f"{given.file}: made over the libraries that lie in crates/*/out")
    return 0


if __name__ == "__main__":
    sys.exit(main())
