#!/usr/bin/env python3
"""Brings the repository's own definitions and lemmas to the library's spelling: words in snake case, types and modules in camel case.

usage: respell.py [--check] [--list] [--text FILE..]       at the top of the repository

    nodeCount, allBelow-at, sized-parent  ->  node_count, all_below_at, sized_parent

A dash stays where it joins two names of definitions, as in length-take, or a type to a name; elsewhere it is an underscore. Names of the
library stay, and so do those that Rattle makes for proofs. In .rt files clauses and comments turn, strings and code do not. --text turns
the names in code spans of the pages that follow. --check writes nothing and tells of names that fall together; --list prints the table.
"""

import glob
import re
import sys

WORD = r"[^\s(){}.;,@\"«»\[\]\\λ`|]+"
TOKEN = re.compile(WORD)
KEPT = {"getD": "get_or"}
# Lemmas that port.py gave the new name of their function.
LEMMAS = {"first_some", "turned_down", "source_fits", "target_fits"}
FUNCTIONS = set("length append take drop eqb ltb leb get_or replicate cond suc concat filter reverse range".split())
DEFINED = re.compile(r"^[ \t]*(?:(?:pub|abbrev|unfoldable|data|record|open)\s+)*(" + WORD + r")(?:\s+\{[^}]*\})?\s+:(?=\s)", re.M)
CLAUSE = re.compile(r"^[ \t]*" + WORD + r"((?:[ \t]+" + WORD + r")+)[ \t]+=(?=\s)", re.M)
DEFINITION = re.compile(r"^[ \t]*(?:pub\s+)?(?:abbrev|unfoldable)\s+(?:pub\s+)?(" + WORD + r")\s+:(?=\s)", re.M)
BINDER = re.compile(r"[({]((?:" + WORD + r"\s+)+):(?=\s)|λ\s*((?:" + WORD + r"\s+)*" + WORD + r")\.(?=\s)|\blet\s+(" + WORD + r")\s")
USE = re.compile(r"^[ \t]*(?:pub\s+)?(?:ghost\s+)?use\s+([\w.+'-]+)\.\{([^}]*)\}", re.M)
FIELD = re.compile(r"^[ \t]+pub\s+(" + WORD + r")\s+:(?=\s)", re.M)
COMMENT = re.compile(r"--[^\n]*")
MADE = re.compile(r"^(invariant|decreases)-")


def antts():
    return sorted(glob.glob("crates/*/specs/**/*.antt", recursive=True) + glob.glob("crates/*/proofs/**/*.antt", recursive=True))


def text(path):
    with open(path, encoding="utf-8") as f:
        return f.read()


def snake(part):
    if part in KEPT:
        return KEPT[part]
    if not re.match(r"[a-z]", part):
        return part
    part = re.sub(r"(?<=[a-z0-9₀-₉])([A-Z])(?=[a-z0-9₀-₉']|$)", lambda m: "_" + m.group(1).lower(), part)
    return re.sub(r"[A-Z]+", lambda m: "_" + m.group(0).lower(), part)


def is_plain(token):
    return all(re.fullmatch(r"[A-Za-zµμℕℤ][\wᴰ']*|\d+", p) for p in token.split("-"))


def respelled(token, names):
    if MADE.match(token) or not is_plain(token):
        return token
    parts = token.split("-")
    new = snake(parts[0])
    for before, after in zip(parts, parts[1:]):
        joins = (before in names or re.match(r"[A-Z]", before)) and (after in names or re.match(r"[A-Z]", after))
        joins = joins or (len(parts) == 2 and re.match(r"[A-Z]", before))
        new += ("-" if joins else "_") + snake(after)
    return new


def table():
    own, library, names = set(), set(), set(FUNCTIONS)
    for path in antts() + glob.glob("crates/*/src/**/*.rt", recursive=True):
        for module, items in USE.findall(text(path)):
            words = {w for item in items.split(",") for w in item.split() if w != "as"}
            crate = re.match(r"Rattle\.(\w+)\.", module)
            if crate is None or not glob.glob(f"crates/{crate.group(1)}/"):
                library |= words
    for path in antts():
        t = COMMENT.sub("", text(path))
        own |= set(DEFINED.findall(t)) | set(FIELD.findall(t))
        names |= {n for n in DEFINITION.findall(t) if "-" not in n}
        for binders in CLAUSE.findall(t):
            own |= {w for w in binders.split() if re.search(r"[a-z][A-Z]", w)}
        for groups in BINDER.findall(t):
            own |= {w for g in groups for w in g.split()}
    rows = {n: respelled(n, names) for n in own - library}
    # A lemma that would have its function's name gets _lem.
    functions = {rows[n] for n in rows if "-" not in n} | library
    rows = {n: new + "_lem" if "-" in n and new != n and new in functions else new for n, new in rows.items()}
    rows |= {n: n + "_lem" for n in LEMMAS}
    return {n: new for n, new in rows.items() if n != new}, own, library


def fields_of():
    found = set()
    for path in antts():
        found |= set(FIELD.findall(COMMENT.sub("", text(path))))
    return found


def turn(t, rows, after_dot):
    def word(m):
        token = m.group(0)
        if m.start() and t[m.start() - 1] == "." and (m.start() < 2 or t[m.start() - 2] != "λ"):
            # λ x. body has a blank behind its dot, so a word right behind a dot is a field or part of a path.
            return rows.get(token, token) if token in after_dot else token
        return rows.get(token, token)

    return TOKEN.sub(word, t)


def turn_antt(t, rows, after_dot):
    out = []
    for line in t.split("\n"):
        at = re.search(r"(?:^|(?<=\s))--(?=\s|$)", line)
        code, comment = (line[: at.start()], line[at.start() :]) if at else (line, "")
        quoted = re.split(r'("(?:[^"\\]|\\.)*")', code)
        code = "".join(q if i % 2 else turn(q, rows, after_dot) for i, q in enumerate(quoted))
        out.append(code + turn_prose(comment, rows, after_dot))
    return "\n".join(out)


def turn_prose(t, rows, after_dot):
    spans = re.split(r"(`[^`\n]*`)", t)
    return "".join(turn(s, rows, after_dot) if i % 2 else turn(s, {k: v for k, v in rows.items() if re.match(r"[a-z]\w*[A-Z]", k) and "-" not in k}, after_dot) for i, s in enumerate(spans))


RUST = re.compile(r'//[^\n]*|b?"(?:[^"\\]|\\.)*"|b?\'(?:[^\'\\\n]|\\.)\'', re.S)


def turn_rt(t, rows, after_dot):
    out, at = [], 0
    for m in RUST.finditer(t):
        out.append(turn(t[at : m.start()], rows, after_dot))
        out.append(turn_prose(m.group(0), rows, after_dot) if m.group(0).startswith("//") else m.group(0))
        at = m.end()
    out.append(turn(t[at:], rows, after_dot))
    return "".join(out)


def turn_page(t, rows, after_dot):
    blocks = re.split(r"(^```.*?^```$)", t, flags=re.S | re.M)
    return "".join(turn_prose(b, rows, after_dot) if not i % 2 else turn(b, rows, after_dot) for i, b in enumerate(blocks))


def fallen(path, t, rows):
    code = COMMENT.sub("", t)
    seen = {}
    for m in TOKEN.finditer(code):
        if m.start() and code[m.start() - 1] == ".":
            continue
        seen.setdefault(rows.get(m.group(0), m.group(0)), set()).add(m.group(0))
    for new, olds in sorted(seen.items()):
        if len(olds) > 1:
            print(f"{path}: {' and '.join(sorted(olds))} fall together as {new}")


PARAMS = re.compile(r"\bfn\s+(\w+)[^(]*\(([^)]*)\)(.*?)^\s*\{\s*$", re.S | re.M)


def hidden(path, t, rows):
    news = {v: k for k, v in rows.items()}
    for name, params, clauses in PARAMS.findall(t):
        for p in re.findall(r"(\w+)\s*:", params):
            if p in news and re.search(r"(?<![\w.])" + re.escape(news[p]) + r"(?!\w)", clauses):
                print(f"{path}: {name}: the parameter {p} hides {news[p]}")


def main(args):
    check = "--check" in args
    rows, own, library = table()
    after_dot = fields_of() - library
    if "--list" in args:
        for k in sorted(rows):
            print(f"{k}\t{rows[k]}")
        return
    if "--text" in args:
        for path in args[args.index("--text") + 1 :]:
            t = text(path)
            new = turn_page(t, rows, after_dot)
            if new != t:
                open(path, "w", encoding="utf-8").write(new)
        return
    for path in antts():
        t = text(path)
        if check:
            fallen(path, t, rows)
            continue
        new = turn_antt(t, rows, after_dot)
        if new != t:
            open(path, "w", encoding="utf-8").write(new)
    for path in sorted(glob.glob("crates/*/src/**/*.rt", recursive=True)):
        t = text(path)
        if check:
            hidden(path, t, rows)
            continue
        new = turn_rt(t, {k: v for k, v in rows.items() if k not in LEMMAS}, after_dot)
        if new != t:
            open(path, "w", encoding="utf-8").write(new)


main(sys.argv[1:])
