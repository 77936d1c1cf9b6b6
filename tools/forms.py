#!/usr/bin/env python3
"""Lists places in src/ that may be written in an older form than the language has.

    python3 tools/forms.py [ROOT]

ROOT is a checkout (default: the one of this file). For each of eight kinds it prints how many places were found and where.
A place is a candidate: docs/DESIGN-PASS.md tells which of them are old forms.
"""
import os
import re
import sys
from collections import defaultdict

ROOT = sys.argv[1] if len(sys.argv) > 1 else os.path.join(os.path.dirname(os.path.abspath(__file__)), "..")


def sources():
    for crate in sorted(os.listdir(os.path.join(ROOT, "crates"))):
        for folder, _, names in sorted(os.walk(os.path.join(ROOT, "crates", crate, "src"))):
            for name in sorted(names):
                if name.endswith(".rt"):
                    path = os.path.join(folder, name)
                    yield os.path.relpath(path, os.path.join(ROOT, "crates")), open(path).read()


def plain(text):
    return re.sub(r"//[^\n]*", "", text)


def block(text, at):
    """From the brace at `at` to the one that closes it."""
    depth = 0
    for i in range(at, len(text)):
        depth += {"{": 1, "}": -1}.get(text[i], 0)
        if depth == 0:
            return text[at:i + 1]
    return text[at:]


def functions(text):
    """Name, parameters, clauses and body of each function."""
    for m in re.finditer(r"\bfn (\w+)(?:<[^(]*>)?\(", text):
        i, depth = m.end(), 1
        while depth:
            depth += {"(": 1, ")": -1}.get(text[i], 0)
            i += 1
        params = re.findall(r"(?:^|,)\s*(?:mut )?(\w+):", text[m.end():i - 1])
        clauses, j = [], i
        while True:
            c = re.compile(r"\s*(?:->\s*[^{]*?)?\s*(requires|ensures\*?)( \w+)? \{").match(text, j) or \
                re.compile(r"[^{;]*?\b(requires|ensures\*?)( \w+)? \{").match(text, j)
            if not c:
                break
            b = block(text, c.end() - 1)
            clauses.append((c.group(1), " ".join(b[1:-1].split())))
            j = c.end() - 1 + len(b)
        k = text.find("{", j)
        s = text.find(";", j)
        body = "" if k < 0 or (0 <= s < k) else block(text, k)
        yield m.group(1), params, clauses, body


FOUND = defaultdict(list)


def found(kind, where, what):
    FOUND[kind].append((where, what))


shapes, facts, travellers = defaultdict(list), defaultdict(list), []
for path, whole in sources():
    text = plain(whole)
    for m in re.finditer(r"\benum (\w+)[^{]*\{", text):
        b = block(text, m.end() - 1)[1:-1]
        flat = re.sub(r"\{[^}]*\}|\([^)]*\)", "()", b)
        variants = [v.strip() for v in flat.split(",") if v.strip()]
        if len(variants) == 2 and any("(" in v for v in variants):
            found("1 own Option or Result", path, f"enum {m.group(1)}")
    for m in re.finditer(r"fn (\w+)[^{;]*?-> (u8|Option<u8>|Option<\w*Fault>)\s", text):
        found("1 number or fault as answer", path, f"{m.group(1)} -> {m.group(2)}")
    for m in re.finditer(r"== (\w+)\.len\(\) \{|Err\(\w+\) => Err\(|Err\(_\) => (?!return)|unreachable", text):
        found("1 sentinel, or Result taken apart", path, m.group(0).strip())
    for name, params, clauses, body in functions(text):
        lines = [l for l in body.splitlines() if l.strip()]
        if len(lines) >= 4:
            shape = re.sub(r"\b[A-Za-z_]\w*\b", "x", re.sub(r"\b\d[\d_]*\b", "0", " ".join(body.replace("!", "").split())))
            shapes[re.sub(r"[<>]=?|[!=]=", "?", shape)].append((path, name))
        for kind, clause in clauses:
            for part in clause.split(" × "):
                part = part.strip("() ")
                if kind == "requires" and len(part) > 8:
                    facts[part].append((path, name))
        if len(params) >= 3:
            travellers.append((path, name, params))
        arms = re.findall(r"=> (true|false),", body)
        if len(arms) >= 2:
            found("4 test by a match of true and false", path, name)
    for m in re.finditer(r"^ *(?:'\w+: )?((?:while|loop|for) [^\n]*)", text, re.M):
        if not m.group(1).startswith("for <"):
            found("3 loop", path, m.group(1))
    for m in re.finditer(r"impl(?:<[^{]*?>)? ((?:\w+::)*(?:From|TryFrom|Display|PartialEq|Ord|Clone|Debug)\b[^{]*)\{", text):
        found("4 impl by hand", path, m.group(1).strip())
    for m in re.finditer(r"\[\w+; ?\d+\]|(?:count|entered|bought|sold|at|from): usize", text):
        found("6 buffer with a length or place beside", path, m.group(0))
    for m in re.finditer(r"\bdyn |: fn\(|\w+::\w+\((?:g|c)\) => ", text):
        found("7 switch or table of functions", path, m.group(0).strip())
for places in shapes.values():
    if len(places) > 1:
        found("2 bodies of one shape", places[0][0], ", ".join(f"{n} ({p})" for p, n in places))
for fact, places in facts.items():
    if len({n for _, n in places}) >= 3:
        found("5 fact required by three or more", places[0][0], f"{fact}  [{len(places)}]")
together = defaultdict(set)
for path, name, params in travellers:
    for _, _, others in travellers:
        common = frozenset(params) & frozenset(others)
        if len(common) >= 3:
            together[common] |= {(p, n) for p, n, ps in travellers if common <= set(ps)}
for common, places in together.items():
    larger = [c for c in together if common < c and len(together[c]) == len(places)]
    if len(places) >= 3 and not larger:
        found("5 three or more parameters together", f"{len(places)} functions", ", ".join(sorted(common)))

for kind in sorted(FOUND):
    print(f"== {kind}: {len(FOUND[kind])}")
    for where, what in FOUND[kind]:
        print(f"   {where}: {what}")
