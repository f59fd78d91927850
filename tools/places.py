#!/usr/bin/env python3
"""Lists the places of the design pass (docs/DESIGN-PASS.md) in crates/*/src, point by point, with a count of each.

    python3 tools/places.py            the counts
    python3 tools/places.py -v         and the places

It goes by the text of the sources, so it finds candidates: the page says of each that is left why it stays.
"""
import collections
import pathlib
import re
import sys

VERBOSE = "-v" in sys.argv
ROOT = pathlib.Path(__file__).resolve().parent.parent
SOURCES = sorted(ROOT.glob("crates/*/src/*.rt"))


def name_of(path):
    return f"{path.parent.parent.name}/{path.stem}"


def show(point, what, places):
    print(f"{point}  {len(places):4}  {what}")
    if VERBOSE:
        for place in places:
            print(f"            {place}")


def by_line(pattern):
    """The lines that a pattern matches."""
    found = []
    for path in SOURCES:
        for number, line in enumerate(path.read_text().split("\n"), 1):
            if re.search(pattern, line) and not line.lstrip().startswith("//"):
                found.append(f"{name_of(path)}:{number}: {line.strip()}")
    return found


def by_text(pattern):
    """The places where a pattern matches over several lines."""
    found = []
    for path in SOURCES:
        text = path.read_text()
        for match in re.finditer(pattern, text):
            number = text.count("\n", 0, match.start()) + 1
            found.append(f"{name_of(path)}:{number}: {' '.join(match.group(0).split())[:100]}")
    return found


def functions():
    """Each function of the sources: its place, its parameters, its clauses and its body."""
    found = []
    for path in SOURCES:
        text = path.read_text()
        for match in re.finditer(r"\bfn (\w+)(<[^>(]*>)?\(", text):
            at, depth = match.end(), 1
            while depth:
                depth += {"(": 1, ")": -1}.get(text[at], 0)
                at += 1
            params = re.sub(r"\s+", " ", text[match.end():at - 1])
            rest = text[at:]
            body = re.search(r"^ *\{\n(.*?)^ *\}$|\{\}$", rest, re.S | re.M)
            stop = rest.find("\n\n") if not body else body.start()
            one_line = re.match(r"[^\n;]*;|[^\n]*\{\n", rest)
            clauses = rest[:stop]
            code = body.group(1) or "" if body else ""
            if one_line and one_line.group(0).endswith(";"):
                clauses, code = "", ""
            elif one_line:
                clauses = ""
                code = re.match(r"[^\n]*\{\n(.*?)^ *\}$", rest, re.S | re.M).group(1)
            found.append((f"{name_of(path)}::{match.group(1)}", params, clauses, code))
    return found


def conjuncts(clause):
    """The facts that a clause joins by ×."""
    text, depth, part, parts = clause.strip(), 0, "", []
    for c in text:
        depth += {"(": 1, ")": -1}.get(c, 0)
        if c == "×" and depth == 0:
            parts.append(part)
            part = ""
        else:
            part += c
    parts.append(part)
    out = []
    for piece in parts:
        piece = piece.strip()
        while piece.startswith("(") and piece.endswith(")") and "×" in piece and len(parts) > 1:
            inner = conjuncts(piece[1:-1])
            out += inner
            piece = ""
        if piece:
            out.append(re.sub(r"^\((.*)\)$", r"\1", piece) if piece.count("(") == piece.count(")") else piece)
    return out


def repeated_facts(funs):
    """Facts that stand in the `requires` of three functions or more."""
    where = collections.defaultdict(set)
    for name, _, clauses, _ in funs:
        for clause in re.findall(r"requires(?: \w+)? \{ (.*) \}$", clauses, re.M):
            for fact in conjuncts(clause):
                where[fact].add(name)
    return [f"{len(names)} functions: {fact}" for fact, names in sorted(where.items(), key=lambda x: -len(x[1])) if len(names) >= 3]


def travelling(funs):
    """The largest groups of three or more parameters of the same names and types that stand in three functions or more."""
    kinds = [(name, frozenset(p.strip(" ,") for p in re.split(r", (?=\w+:)", params) if ":" in p)) for name, params, _, _ in funs]
    groups = collections.Counter()
    for i, (_, a) in enumerate(kinds):
        for _, b in kinds[i + 1:]:
            if len(a & b) >= 3:
                groups[a & b] += 1
    out = []
    counts = {group: sum(group <= params for _, params in kinds) for group in groups}
    often = [group for group in groups if counts[group] >= 3]
    for group in often:
        if not any(group < other for other in often):
            out.append((counts[group], len(group), ", ".join(sorted(group))))
    out.sort(reverse=True)
    return [f"{n} functions: {group}" for n, _, group in out]


def twins(funs):
    """Functions whose bodies are the same but for their names and numbers."""
    groups = collections.defaultdict(list)
    for name, _, _, body in funs:
        tokens = re.findall(r"[A-Za-z_]\w*|\d+|[^\s\w]", re.sub(r"//.*", "", body))
        kept = {"for", "in", "if", "else", "while", "let", "return", "match", "mut", "as", "Some", "None", "Ok", "Err", "Self", "self", "true", "false"}
        names, shape = {}, []
        for token in tokens:
            if re.match(r"[A-Za-z_]", token) and token not in kept:
                shape.append(names.setdefault(token, f"n{len(names)}"))
            elif token.isdigit():
                shape.append("0")
            else:
                shape.append(token)
        if len(shape) >= 16:
            groups[" ".join(shape)].append(name)
    return [", ".join(names) for names in groups.values() if len(names) > 1]


def main():
    funs = functions()
    show("1", "functions that answer Option<Refusal>", by_line(r"-> Option<Refusal>"))
    show("1", "refusals passed up by hand", by_text(r"if let (?:Some|Err)\(why\) = [^;]*?\{\s*return (?:Err|Some)\([^;]*;\s*\}"))
    show("1", "a Result in a Result, an Option in a Result", by_line(r"Result<(?:Result|Option)<"))
    show("1", "enums of the crates' own", by_line(r"^(?:pub(?:\(crate\))? )?enum "))
    show("1", "numbers that stand for none", by_text(r"// [^\n]*(?:stands? for (?:none|a day from)|not reached|or the number of points where)[^\n]*"))
    show("2", "functions that are the same but for names and numbers", twins(funs))
    show("3", "loops that ask for the next number from a place on", by_line(r"while let Some\(\w+\) = "))
    show("3", "other while loops", by_line(r"^\s*(?:while (?!let)|loop\b)"))
    show("3", "for loops over numbers", by_line(r"^\s*for \w+ in .*\.\."))
    show("3", "for loops over items", [p for p in by_line(r"^\s*for .* in ") if not re.search(r" in .*\.\.", p)])
    show("4", "fields taken apart one by one to be printed", by_line(r"^\s*let (\w+) = (?!self)\w+\.(?:\1|kind)(?:\(\))?(?: as char)?;$"))
    show("4", "impls of comparisons, copying or conversion by hand", by_line(r"^impl.*\b(?:PartialEq|Eq|PartialOrd|Ord|Clone|Copy|Hash)\b.* for "))
    show("4", "impls of From, TryFrom and Display", by_line(r"^impl.*\b(?:From|TryFrom|Display)\b.* for "))
    show("5", "facts in the requires of three functions or more", repeated_facts(funs))
    show("5", "largest groups of three parameters or more in three functions or more", travelling(funs))
    show("6", "fixed arrays", by_line(r"\[(?:u8|u16|u32|u64|usize|Line|KindRow|none|blank|0u?\d*); \w+\]"))
    show("7", "flags passed as parameters", by_text(r"\bfn \w+(?:<[^>(]*>)?\([^{;]*?\b\w+: bool\b"))
    show("7", "function pointers and boxed closures", by_line(r": fn\(|dyn "))
    proofs = [p for p in ROOT.glob("crates/*/proofs/**/*.antt")]
    print(f"8  {len(proofs):4}  proof files, {sum(len(p.read_text().splitlines()) for p in proofs)} lines")


main()
