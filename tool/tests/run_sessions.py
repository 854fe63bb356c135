#!/usr/bin/env python3
"""Runs the sessions: commands with the output that they must have.

A session is a text file:

    # A comment.
    % needs dot
    $ leafgraph check short.lgt
    leafgraph: short.lgt: refused with reply 20: the length is 311 bytes, 24 + 48 * 6 = 312 wanted
    ? 1

'$' is a command for sh; below it stand its output (standard output and standard
error together) and, where it isn't 0, '?' with its exit status. A blank line
before the next command or comment is no output. '% needs PROGRAM' has the session
skipped where that program isn't installed.

Each session runs in a folder of its own, with the blocks of blocks.py and faults.py
in it and the tool on the PATH. With --update the sessions are rewritten to what came out:
read the difference before you keep it.
"""

import argparse
import dataclasses
import difflib
import os
import pathlib
import shutil
import subprocess
import sys
import tempfile

import blocks
import faults

HERE = pathlib.Path(__file__).resolve().parent
NO_NEWLINE = "(no newline at the end)"
TIMEOUT_SECONDS = 60


@dataclasses.dataclass
class Step:
    """A command, the lines that it prints and its exit status."""

    command: str
    output: list
    status: int

    def lines(self):
        return [f"$ {self.command}"] + self.output + ([f"? {self.status}"] if self.status else [])


def is_special(line):
    return line[:1] in ("#", "$", "?", "%")


def parse(lines):
    """The items of a session: a Step for a command, else the line itself."""
    items = []
    at = 0
    while at < len(lines):
        line = lines[at]
        at += 1
        if not line.startswith("$ "):
            if line and not line.startswith(("#", "% needs ")):
                raise ValueError(f"line {at}: no command, comment or output: {line}")
            items.append(line)
            continue
        start = at
        while at < len(lines) and not is_special(lines[at]):
            at += 1
        output = lines[start:at]
        status = 0
        if at < len(lines) and lines[at].startswith("? "):
            status = int(lines[at][2:])
            at += 1
        elif output[-1:] == [""]:
            # It stands before what comes next, and is an item of its own.
            output.pop()
            at -= 1
        items.append(Step(line[2:], output, status))
    return items


def render(items):
    lines = []
    for item in items:
        lines += item.lines() if isinstance(item, Step) else [item]
    return lines


def run_step(command, folder, environment):
    done = subprocess.run(["sh", "-c", command], cwd=folder, env=environment,
                          stdin=subprocess.DEVNULL, stdout=subprocess.PIPE,
                          stderr=subprocess.STDOUT, timeout=TIMEOUT_SECONDS, check=False)
    text = done.stdout.decode("utf-8", "backslashreplace")
    output = text.split("\n")
    if output[-1] == "":
        output.pop()
    else:
        output.append(NO_NEWLINE)
    return Step(command, output, done.returncode)


def run_items(items, tool):
    """The same items with what their commands do now."""
    with tempfile.TemporaryDirectory(prefix="leafgraph-session-") as name:
        folder = pathlib.Path(name)
        for block_name, block in {**blocks.BLOCKS, **faults.FAULTS}.items():
            (folder / block_name).write_bytes(block)
        environment = dict(os.environ, LC_ALL="C",
                           PATH=f"{tool.parent}{os.pathsep}{os.environ.get('PATH', '')}")
        return [run_step(item.command, folder, environment) if isinstance(item, Step) else item
                for item in items]


def missing_program(items):
    for item in items:
        if isinstance(item, str) and item.startswith("% needs "):
            program = item[len("% needs "):]
            if shutil.which(program) is None:
                return program
    return None


def run_session(path, tool, update):
    """How many commands ran, and whether all did as written."""
    items = parse(path.read_text(encoding="utf-8").rstrip("\n").split("\n"))
    count = sum(isinstance(item, Step) for item in items)
    if count == 0:
        raise ValueError("there is no command in it")
    program = missing_program(items)
    if program is not None:
        print(f"skipped {path.name}: {program} is not installed")
        return 0, True
    ran = run_items(items, tool)
    if update:
        if parse(render(ran)) != ran:
            raise ValueError("an output can't be told from the session's own lines")
        path.write_text("\n".join(render(ran)) + "\n", encoding="utf-8")
    elif ran != items:
        print("\n".join(difflib.unified_diff(render(items), render(ran), f"{path.name} as written",
                                             f"{path.name} as it ran", lineterm="", n=5)))
        return count, False
    return count, True


def run_sessions(sessions, tool, update):
    """Whether all did as written."""
    commands = 0
    ran = 0
    different = []
    for path in sessions:
        try:
            count, same = run_session(path, tool, update)
        except (ValueError, OSError, subprocess.TimeoutExpired) as error:
            print(f"{path.name}: {error}")
            count, same = 0, False
        commands += count
        ran += count > 0
        if not same:
            different.append(path.name)
    verdict = f"not as written: {' '.join(different)}" if different else "all as written"
    print(f"{commands} commands in {ran} sessions, {verdict}")
    return not different and commands > 0


def main():
    parser = argparse.ArgumentParser(description="Runs the sessions of the tool leafgraph.")
    parser.add_argument("--tool", type=pathlib.Path, default=HERE.parents[1] / "build/leafgraph")
    parser.add_argument("--update", action="store_true", help="rewrite the sessions")
    parser.add_argument("sessions", nargs="*", type=pathlib.Path, help="only these")
    options = parser.parse_args()
    tool = options.tool.resolve()
    if tool.name != "leafgraph" or not os.access(tool, os.X_OK):
        sys.exit(f"{options.tool}: no program leafgraph there")
    sessions = options.sessions or sorted((HERE / "sessions").glob("*.session"))
    if not sessions:
        sys.exit("there are no sessions")
    # So that the modes of new files are the same everywhere.
    os.umask(0o022)
    sys.exit(0 if run_sessions(sessions, tool, options.update) else 1)


if __name__ == "__main__":
    main()
