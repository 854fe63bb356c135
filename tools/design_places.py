#!/usr/bin/env python3
"""Counts, in crates/*/src and crates/*/proofs, the places that docs/DESIGN-PASS.md speaks of.

    tools/design_places.py [--list]

It prints a line for each point; with --list also each place. It only finds what can be told by the
text: a place that it prints is one to look at, not a fault.
"""
import argparse
import collections
import pathlib
import re

ROOT = pathlib.Path(__file__).resolve().parents[1]
SOURCES = sorted(ROOT.glob("crates/*/src/**/*.rt"))
FLAGS = r"(ok|stopped|is_sound|fitness|stage|negative): (bool|u8|Fitness)"
CODES = r"\b(KIND|FORM)_[A-Z]+\b"
BY_HAND = r"\b(greater|lesser|widened|wide|less_one|recalled|state_of|magnitude_of|gives|fit_plus|fit_minus|negated|is_zero|is_within)\("
OWN_OPTION = {"Nothing", "Stopped", "Refused", "Unfit"}


def lines():
    for source in SOURCES:
        for number, line in enumerate(source.read_text().split("\n"), 1):
            if not line.lstrip().startswith("//"):
                yield source, number, line


def place(source, number, line):
    return f"{source.relative_to(ROOT)}:{number}: {line.strip()}"


def flags():
    return [place(*x) for x in lines() if re.match(r" +(pub )?" + FLAGS + ",", x[2])]


def own_enums():
    found = []
    for source in SOURCES:
        text = source.read_text()
        for match in re.finditer(r"^(?:pub )?enum (\w+) \{\n(.*?)^\}", text, re.S | re.M):
            variants = set(re.findall(r"^    (\w+)", match.group(2), re.M))
            if variants & OWN_OPTION:
                found.append(place(source, text[: match.start()].count("\n") + 1, match.group(1)))
    return found


def codes():
    names = r"^ *(pub const |use |[A-Z_0-9, a-z]*,?$)"
    return [place(*x) for x in lines() if re.search(CODES, x[2]) and not re.match(names, x[2])]


def refusal_codes():
    return [place(*x) for x in lines() if re.match(r"pub const [A-Z_]+: u8 = \d+;", x[2])]


def loops():
    """Loops that step the variable of their test, and all others."""
    counted, others = [], []
    for source in SOURCES:
        text = source.read_text().split("\n")
        for index, line in enumerate(text):
            head = re.match(r"( *)(?:'\w+: )?(?:while (.*) \{|loop \{)$", line)
            if not head:
                continue
            end = text.index(head.group(1) + "}", index)
            names = re.findall(r"\b[a-z_]+\b", head.group(2) or "")
            steps = any(re.match(rf" *{name} [+-]= ", body) for name in names for body in text[index + 1 : end])
            (counted if steps else others).append(place(source, index + 1, line))
    return counted, others


def by_hand():
    return [place(*x) for x in lines() if re.search(BY_HAND, x[2])]


def facts():
    """Facts that stand in the `requires` of three functions or more, with how often they do."""
    count = collections.Counter()
    for _, _, line in lines():
        match = re.match(r" *requires (?:\w+ )?\{ ([A-Z]\w+) ", line)
        if match:
            count[match.group(1)] += 1
    return [f"{number} {name}" for name, number in count.most_common() if number >= 3]


def together():
    """Runs of three parameters or more that three functions or more take together."""
    count = collections.Counter()
    for source in SOURCES:
        for match in re.finditer(r"^(?:pub )?(?:extern \"C\" )?fn \w+\(([^)]*)\)", source.read_text(), re.M):
            names = re.findall(r"(\w+): ", match.group(1))
            for size in range(3, len(names) + 1):
                for start in range(len(names) - size + 1):
                    count[" ".join(names[start : start + size])] += 1
    return [f"{number} {names}" for names, number in count.most_common() if number >= 3]


def counted_buffers():
    found = []
    for source in SOURCES:
        text = source.read_text()
        for match in re.finditer(r"^(?:pub )?struct (\w+)(?:<[^>]*>)? \{\n(.*?)^\}", text, re.S | re.M):
            if re.search(r"(count|next|n): (usize|u8)", match.group(2)) and "; " in match.group(2):
                found.append(place(source, text[: match.start()].count("\n") + 1, match.group(1)))
    return found


def switches():
    """Functions with three tests or more of one name against constants, each of which returns."""
    found = []
    for source in SOURCES:
        for match in re.finditer(r"^(?:pub )?fn (\w+).*?^\}", source.read_text(), re.S | re.M):
            tests = collections.Counter(re.findall(r"    if (\w+) == (?:[A-Z_]+|b'.'|\d+) \{\n +return", match.group(0)))
            tests += collections.Counter(re.findall(r"    if (has_byte)\(text, at, ", match.group(0)))
            if any(number >= 3 for number in tests.values()):
                found.append(f"{source.relative_to(ROOT)}: {match.group(1)}")
    return found


def proof_lines():
    text = []
    for name in ("Answers", "Invariants"):
        files = sorted(ROOT.glob(f"crates/*/proofs/**/{name}.antt"))
        text.append(f"{len(files)} files {name} with {sum(len(f.read_text().splitlines()) for f in files)} lines")
    return text


def main():
    parser = argparse.ArgumentParser(description=__doc__.split("\n")[0])
    parser.add_argument("--list", action="store_true", help="print each place")
    wanted = parser.parse_args()
    counted, others = loops()
    points = [
        ("1 enums of the shape of Option or Result", own_enums()),
        ("1 flags in a struct", flags()),
        ("1 uses of numbers for kinds and forms", codes()),
        ("1 numbers for refusals", refusal_codes()),
        ("3 loops that count by hand", counted),
        ("3 other loops by while and loop", others),
        ("4 comparisons and conversions by hand", by_hand()),
        ("5 facts in three contracts or more", facts()),
        ("5 parameters that three functions take together", together()),
        ("6 buffers with a length beside", counted_buffers()),
        ("7 switches", switches()),
    ]
    for name, places in points:
        print(f"{name}: {len(places)}")
        if wanted.list:
            print("".join(f"    {one}\n" for one in places), end="")
    print("8 proofs: " + "; ".join(proof_lines()))


main()
