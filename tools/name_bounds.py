#!/usr/bin/env python3
"""Writes the members of a bound through its type parameter, as `K.kind`, in the clauses of generic functions. Run once, after respell.py."""

import glob
import re

MEMBERS = {"kind": ("ElementKind", None), "row": ("ElementKind", "ElementKind.row"), "sealing": ("Sealer", None)}
FN = re.compile(r"\bfn \w+\s*<([^()]*?)>\s*\(")


def turn(t):
    out, at = [], 0
    for m in FN.finditer(t):
        bounds = dict(reversed(b.strip().split(":", 1)) for b in m.group(1).split(",") if ":" in b)
        bounds = {k.strip(): v.strip() for k, v in bounds.items()}
        body = re.compile(r"^[ \t]*\{[ \t]*$", re.M).search(t, m.end())
        if not body:
            continue
        head = t[m.end() : body.start()]
        first = re.search(r"\b(requires|ensures)\b", head)
        if not first:
            continue
        parameters, clauses = head[: first.start()], head[first.start() :]
        for name, (trait, path) in MEMBERS.items():
            if trait in bounds and not re.search(rf"\b{name}\s*:", parameters) and not re.search(rf"(?<![\w.]){name}\s*\.\s", clauses):
                clauses = re.sub(rf"(?<![\w.'-]){name}(?![\w'-])(?! \{{)", f"{bounds[trait]}.{path or name}", clauses)
        out += [t[at : m.end()], parameters, clauses]
        at = body.start()
    return "".join(out) + t[at:]


for p in sorted(glob.glob("crates/*/src/**/*.rt", recursive=True)):
    with open(p, encoding="utf-8") as f:
        t = f.read()
    if (n := turn(t)) != t:
        with open(p, "w", encoding="utf-8") as f:
            f.write(n)
