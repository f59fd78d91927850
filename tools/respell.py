#!/usr/bin/env python3
"""Brings the names of the repository's own definitions and lemmas to today's spelling: types and facts in camel case, all else in snake case.

usage: python3 tools/respell.py [--list]     at the top of the repository, after port.py, once

It takes the names that stand in crates/*/specs/*.antt and crates/*/proofs/*.antt, at the head of a definition, as a field of a record or as
a parameter, and writes the new name wherever the old one stands as a whole word outside comments, in .antt and .rt files. A name that the
library has too, or that would fall together with another, is left and printed.
"""
import collections
import glob
import re
import sys

WORD = r"[^\s(){}\[\],.;:=|λ∀\"]+"
LIBRARY = {"div-eq_of_lt", "eqb-suc-suc", "eqb-suc-zero", "eqb-zero-suc", "leb-zero", "zero-div"}
OWN = {"yes?": "says_yes", "same?": "is_same_bit"}


def code(line):
    """The line in two parts: code, and comment."""
    m = re.search(r"(^|\s)--(\s|$)|//", line)
    return (line[: m.start()], line[m.start() :]) if m else (line, "")


def words(text):
    return set(re.findall(WORD, text))


def texts(pattern):
    for path in sorted(glob.glob(pattern, recursive=True)):
        if "/out/" not in path:
            with open(path, encoding="utf-8") as f:
                yield path, f.read()


def camel(name):
    return "".join(part[:1].upper() + part[1:] for part in name.split("-"))


def new_name(name):
    if name in OWN:
        return OWN[name]
    return camel(name) if name[:1].isupper() else name.replace("-", "_")


def hyphened(name):
    return name in OWN or re.fullmatch(r"[A-Za-zμ][A-Za-z0-9_']*(-[A-Za-z0-9_']+)+", name) is not None


def main():
    here = {p: t for pattern in ("crates/*/specs/*.antt", "crates/*/proofs/*.antt") for p, t in texts(pattern)}
    crates = [c.split("/")[1] for c in glob.glob("crates/*")]
    own = collections.Counter()
    taken = set()
    for t in here.values():
        for line in t.split("\n"):
            if re.match(r"\s*(pub )?use ", line):
                path = re.search(r"use (\S+)", line)[1]
                if not re.match(r"Rattle\.(" + "|".join(crates) + r")\.", path):
                    taken |= words(line)
                continue
            own.update(w for w in re.findall(WORD, code(line)[0]) if hyphened(w))
    names = {w: new_name(w) for w in own if w not in taken and w not in LIBRARY}
    # names that the library's files define, where this repository does not define them itself
    defined = set()
    for t in here.values():
        for line in t.split("\n"):
            m = re.match(r"\s*(?:(?:abbrev|opaque|unfoldable|pub|instance|record|data|module)\s+)*(" + WORD + ")", line)
            if m:
                defined.add(m[1])
    everywhere = collections.Counter()
    for pattern in ("crates/**/*.antt", "crates/**/*.rt"):
        for p, t in texts(pattern):
            for line in t.split("\n"):
                everywhere.update(re.findall(WORD, code(line)[0]))
    back = collections.defaultdict(list)
    for w, n in names.items():
        back[n].append(w)
    for n, ws in sorted(back.items()):
        if len(ws) > 1 or everywhere[n]:
            print("falls together:", n, ws, everywhere[n])
    if "--list" in sys.argv:
        for w in sorted(names):
            print(w, names[w], own[w], "" if w in defined else "local")
        return
    word = re.compile(r"(?<![\w'?-])(" + "|".join(re.escape(w) for w in sorted(names, key=len, reverse=True)) + r")(?![\w'?-])")
    changed = 0
    for pattern in ("crates/**/*.antt", "crates/**/*.rt"):
        for p, t in texts(pattern):
            lines = []
            for line in t.split("\n"):
                a, b = code(line)
                lines.append(word.sub(lambda m: names[m[1]], a) + b)
            new = "\n".join(lines)
            if new != t:
                with open(p, "w", encoding="utf-8") as f:
                    f.write(new)
                changed += 1
    print(f"{len(names)} names, {changed} files")


main()
