#!/usr/bin/env python3
"""Spells the repository's own definitions, constructors, fields and lemmas as Rattle's library does:
types in upper camel case, all else in snake case. It was run once, right after the kit's port.py.

usage: python3 tools/respell.py [--dry]      at the top of the repository

A name counts as the repository's own if a file below specs/ or proofs/ declares it. The goals that Rattle makes
(lines `name : goal.name`), names brought in from a library, and the names of src/ keep their spelling.
"""

import os
import re
import sys

WORD = r'[^\s(){}.;,@"«»]+'
COMMENT = re.compile(r'"(?:[^"\\\n]|\\.)*"|(?:(?<=[\s(){}.;,@"«»])|^)--[^\n]*', re.M)
DECLARED = re.compile(rf"^[ \t]*((?:(?:abbrev|pub|data|record|unfoldable)[ \t]+)*)({WORD})((?:[ \t]+[({{][^\n]*?)?)[ \t]*:(?=[ \t\n])([^\n]*)", re.M)
MODULE_USE = re.compile(r"\buse[ \t]+((?:Rattle\.(?:std|core)|Core|Prim|Math|mathlib|lib|borrow|denote|logic)[^\s;{]*)\{([^}]*)\}")
# A record gate's cases, two of which a script of the kit takes for the axiom of choice.
CASES = {"AC": "ac", "Ac": "ac", "MC": "mc", "AD": "ad", "MU": "mu"}
# Spelled by hand, since the plain spelling is another name's.
BY_HAND = {
    "agree-H": "agree_history",
    "shown-H": "shown_history",
    "stand-H": "stand_history",
    "size-a": "size_of_picked",
    "size-b": "size_of_next",
    "put-mid": "put_mid_lem",
}


def texts(root):
    for folder, dirs, files in os.walk(os.path.join(root, "crates")):
        dirs[:] = sorted(d for d in dirs if d != "out")
        for f in sorted(files):
            if f.endswith((".rt", ".antt")):
                yield os.path.join(folder, f)


def read(p):
    with open(p, encoding="utf-8") as f:
        return f.read()


def imported(text):
    names = set()
    for m in MODULE_USE.finditer(text):
        for item in m.group(2).split(","):
            names.update(item.split()[:1] + item.split()[-1:])
    return names


def spelled(name, is_type):
    if name in BY_HAND:
        return BY_HAND[name]
    parts = [p for p in name.split("-") if p]
    if is_type:
        return "".join(p[:1].upper() + p[1:] for p in parts)
    parts = [re.sub(r"(?<=[a-z0-9])([A-Z])", lambda m: "_" + m.group(1).lower(), p) for p in parts]
    return "_".join(p[:1].lower() + p[1:] if p[:1].isascii() else p for p in parts)


def table(files):
    """Old and new spelling of each own name that changes."""
    types, others = set(), set()
    for p, t in files.items():
        if not p.endswith(".antt"):
            continue
        bare = COMMENT.sub("", t)
        for m in DECLARED.finditer(bare):
            heads, name, _, kind = m.groups()
            if name in ("use", "module", "let", "λ", "→") or not re.search(r"[A-Za-z]", name):
                continue
            if re.match(rf"\s*goal\b", kind) or re.search(r"\bgoal\.", kind):
                continue
            is_type = name[0].isupper() and ("data" in heads.split() or "record" in heads.split() or re.search(r"\bType\b", kind + bare[m.end() : m.end() + 200].split("\n")[0]) is not None)
            (types if is_type else others).add(name)
    new = {}
    for name in sorted(types | others):
        if "-" in name or (name[0].islower() and re.search(r"[a-z][A-Z]", name)) or name in BY_HAND:
            new[name] = spelled(name, name in types)
    return new


def goals(t):
    """The names of goals that a proof file answers: they stay."""
    return {m.group(2) for m in DECLARED.finditer(COMMENT.sub("", t)) if re.search(r"\bgoal\.", m.group(4))}


def turn_antt(t, new, keep):
    def words(s):
        def one(m):
            w, at = m.group(), m.start()
            if w in keep:
                return w
            if w in CASES:
                return CASES[w]
            return new.get(w, w)

        return re.sub(WORD, one, s)

    out, at = [], 0
    for m in COMMENT.finditer(t):
        out += [words(t[at : m.start()]), m.group()]
        at = m.end()
    return "".join(out + [words(t[at:])])


CODE = re.compile(r'//[^\n]*|b?"(?:\\.|[^"\\])*"|ghost use [^;]*;|\b(?:requires|ensures)\*?[ \t]*\w*[ \t\n]*\{|\bghost[ \t]+(?:\w+[ \t]*[:=]?[ \t\n]*)?\{')


def closing(t, at):
    depth = 1
    while depth:
        depth += {"{": 1, "}": -1}.get(t[at], 0)
        at += 1
    return at


def turn_rt(t, new, keep):
    out, at = [], 0
    while m := CODE.search(t, at):
        s = m.group()
        if s.startswith("ghost use") or s.endswith("{") and s[:2] != "//" and '"' not in s:
            end = m.end() if s.startswith("ghost use") else closing(t, m.end())
            out += [t[at : m.start()], turn_antt(t[m.start() : end], new, keep)]
        else:
            end = m.end()
            out.append(t[at:end])
        at = end
    return "".join(out + [t[at:]])


def main(argv):
    files = {p: read(p) for p in texts(".")}
    new = table(files)
    met = 0
    for p, t in files.items():
        # A path's parts, a field and a name of src/ stand apart.
        words = set(re.findall(rf"(?<![.\w]){WORD}(?!\.\w+\.)", COMMENT.sub("", t)))
        for w in sorted(words & set(new)):
            if new[w] in words and p.endswith(".antt"):
                print(f"meets another name: {p}: {w} {new[w]}")
                met += 1
    back = {}
    for w, n in sorted(new.items()):
        back.setdefault(n, []).append(w)
    for n, ws in back.items():
        if len(ws) > 1:
            print(f"fall together: {ws} {n}")
            met += 1
    if "--dry" in argv:
        for w, n in sorted(new.items()):
            print(f"{w}\t{n}")
        return
    if met:
        raise SystemExit("nothing was written")
    for p, t in files.items():
        # Prose that the kit's script took for the axiom of choice.
        t = t.replace("-- Ac a c is", "-- AC a c is").replace("mark: Ac, MC", "mark: AC, MC")
        turned = (turn_antt if p.endswith(".antt") else turn_rt)(t, new, imported(t) | goals(t))
        if turned != files[p]:
            with open(p, "w", encoding="utf-8") as f:
                f.write(turned)


main(sys.argv[1:])
