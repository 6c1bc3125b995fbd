#!/usr/bin/env python3
"""Counts the places in src/ that older forms take, point by point (docs/DESIGN-PASS.md says what each point is).

    python3 tools/places.py [--commit C] [POINT..]     a count for each kind of place, with -v each place as file:line
"""

import argparse
import collections
import re
import subprocess

FN = re.compile(r"\bfn\s+(\w+)")


def sources(commit):
    """Path and text of each source file of a commit, or of the folder as it stands."""
    if commit:
        names = subprocess.run(["git", "ls-tree", "-r", "--name-only", commit, "crates"], capture_output=True, text=True, check=True).stdout.split("\n")
        for n in sorted(names):
            if re.match(r"crates/\w+/src/.*\.rt$", n):
                yield n, subprocess.run(["git", "show", f"{commit}:{n}"], capture_output=True, text=True, check=True).stdout
    else:
        names = subprocess.run(["git", "ls-files", "crates"], capture_output=True, text=True, check=True).stdout.split("\n")
        for n in sorted(names):
            if re.match(r"crates/\w+/src/.*\.rt$", n):
                with open(n, encoding="utf-8") as f:
                    yield n, f.read()


def functions(path, text):
    """Each function: its name, line, parameters, clauses, body."""
    for m in FN.finditer(text):
        end = re.compile(r"\n([ \t]*)\{[ \t]*\n|\{[ \t]*\n|;").search(text, m.end())
        open_paren = text.find("(", m.end())
        if not end or open_paren < 0:
            continue
        depth, i = 0, open_paren
        while i < len(text):
            depth += {"(": 1, ")": -1}.get(text[i], 0)
            if depth == 0:
                break
            i += 1
        params = re.sub(r"\s+", " ", text[open_paren + 1 : i])
        rest = text[i + 1 :]
        body_at = re.search(r"(?m)^[ \t]*\{[ \t]*$|(?<=[>)\w ]) ?\{[ \t]*$|;[ \t]*$", rest)
        if not body_at:
            continue
        clauses = rest[: body_at.start()]
        if body_at.group().strip() == ";":
            body = ""
        else:
            k, depth = i + 1 + body_at.start(), 0
            k = text.find("{", k)
            j = k
            while j < len(text):
                depth += {"{": 1, "}": -1}.get(text[j], 0)
                if depth == 0:
                    break
                j += 1
            body = text[k + 1 : j]
        yield m.group(1), text.count("\n", 0, m.start()) + 1, params, clauses, body


def lines(path, text, pattern, skip=None):
    for n, line in enumerate(text.split("\n"), 1):
        code = line.split("//")[0]
        if re.search(pattern, code) and not (skip and re.search(skip, code)):
            yield f"{path}:{n}: {line.strip()[:110]}"


def by_lines(files, pattern, skip=None):
    return [p for path, text in files for p in lines(path, text, pattern, skip)]


def shape(body):
    """A body with types, numbers and the digits of names left out."""
    body = re.sub(r"//[^\n]*", "", body)
    body = re.sub(r"\b\d[\d_a-fx]*\b", "N", body)
    body = re.sub(r"\b[A-Z]\w*\b", "T", body)
    body = re.sub(r"\bu(8|16|32|64|size)\b", "T", body)
    body = re.sub(r"\b(be|le)\b|_(be|le)_", "E", body)
    body = re.sub(r"(?<=[a-z_])\d+\b", "", body)
    return re.sub(r"\s+", "", body)


def twins(files):
    """Functions of more than one step whose bodies have one shape."""
    groups = collections.defaultdict(list)
    for path, text in files:
        for name, line, _, _, body in functions(path, text):
            s = shape(body)
            if len(s) > 30 and ("(" in s):
                groups[s].append(f"{path}:{line}: {name}")
    return [" = ".join(g) for g in groups.values() if len(g) > 1]


def twin_types(files):
    groups = collections.defaultdict(list)
    for path, text in files:
        for m in re.finditer(r"\b(struct|enum) (\w+)[^;{(]*\{([^}]*)\}", text):
            s = re.sub(r"\bghost[^}]*", "", m.group(3))
            s = re.sub(r"pub(\(crate\))?|\s|//[^\n]*", "", s)
            if len(s) > 10:
                groups[re.sub(r"\bu(8|16|32|64|size)\b", "T", s)].append(f"{path}:{text.count(chr(10), 0, m.start()) + 1}: {m.group(2)}")
    return [" = ".join(g) for g in groups.values() if len(g) > 1]


def indexed(files):
    """Loops over a range whose variable indexes or offsets a slice, and `while` loops that count."""
    found = []
    for path, text in files:
        for m in re.finditer(r"for (\w+) in ([^\n{]*\.\.[^\n{]*)\{", text):
            j, depth = m.end() - 1, 0
            while j < len(text):
                depth += {"{": 1, "}": -1}.get(text[j], 0)
                if depth == 0:
                    break
                j += 1
            body = text[m.end() : j]
            if re.search(rf"\b{m.group(1)}\b", body):
                found.append(f"{path}:{text.count(chr(10), 0, m.start()) + 1}: for {m.group(1)} in {m.group(2).strip()}")
    return found + by_lines(files, r"\bwhile\b")


def clauses(files):
    """Requires that stand in three or more functions."""
    groups = collections.defaultdict(list)
    for path, text in files:
        for name, line, _, cl, _ in functions(path, text):
            for c in re.findall(r"requires(?: \w+)? \{ (.*) \}\s*$", cl, re.M):
                fact = re.sub(r"\b(work|next_work|work1|work2|work3|first|second|third|one|two|three|share1|share2|key|picked|following|view|views|part|lock|shares|masks|products|bytes|given)\b", "_", c)
                fact = re.sub(r"K\.ElementKind\.kind", "K.kind", fact)
                fact = re.sub(r"\.(old|now|entry|new)\b", "", fact)
                groups[fact].append(f"{path}:{line}: {name}")
    return [f"{len(g)} × {f[:110]}" for f, g in sorted(groups.items(), key=lambda x: -len(x[1])) if len(g) > 2]


def together(files):
    """Sets of three parameters that travel together in three or more functions."""
    sets = collections.defaultdict(set)
    for path, text in files:
        for name, line, params, _, _ in functions(path, text):
            names = []
            for p in re.split(r",(?![^<(]*[>)])", params):
                p = p.strip()
                if ":" in p and not p.startswith("&"):
                    names.append(re.sub(r"\s*:\s*", ": ", p.replace("mut ", "", 1) if p.startswith("mut ") else p))
            names = [re.sub(r"'\w+ ", "", n) for n in names]
            for i in range(len(names)):
                for j in range(i + 1, len(names)):
                    for k in range(j + 1, len(names)):
                        sets[(names[i], names[j], names[k])].add(f"{path}:{line}: {name}")
    merged = collections.defaultdict(set)
    for s, g in sets.items():
        if len(g) > 2:
            merged[frozenset(g)] |= set(s)
    return [f"{len(g)} functions: {', '.join(sorted(s))}" for g, s in sorted(merged.items(), key=lambda x: -len(x[0]))]


POINTS = {
    "1 numbers": lambda f: by_lines(f, r"\b(kind|sealer|pick|branch|number)\s*:\s*u8"),
    "1 arms": lambda f: by_lines(f, r"^\s*[0-9]+( \| [0-9]+)* =>|=> [0-9]+,\s*$"),
    "1 dummies": lambda f: [p for path, t in f for n, l, _, c, b in functions(path, t) if re.fullmatch(r"\s*0\s*", b.split(";")[-1]) for p in [f"{path}:{l}: {n}"]],
    "1 passed on": lambda f: by_lines(f, r"Err\((\w+)\) => Err\(\1\)|Ok\((\w+)\) => Ok\(\2\),|Some\((\w+)\) => Some\(\3\),"),
    "2 functions": twins,
    "2 types": twin_types,
    "3 loops": indexed,
    "4 by hand": lambda f: by_lines(f, r"\bfn (equals|number|kind_number|row_length|seal_length|longest_message|picked|number_of|state_numbered|fault_told|extracted_told|refused|told_\w+|read_mark|at_pick|passed_by|before)\b"),
    "5 facts": clauses,
    "5 together": together,
    "6 lengths beside": lambda f: [f"{path}:{l}: {n}" for path, t in f for n, l, p, _, _ in functions(path, t) if re.search(r"\[u8\](, \w+: (&|Tape|usize)[^,]*)*, (n|m|count|inputs|size|wires|own|view_length): usize", p)],
    "6 records": lambda f: by_lines(f, r"\b(one|two|three|first|second|third|(work|blind|share|mask|answer)[123])\s*:\s*(&'a \[u8\]|Vec<u8>|usize),?\s*$") + by_lines(f, r": \[RoundState; 64\]"),
    "7 switches": lambda f: by_lines(f, r"match (kind|sealer|pick)\b") + by_lines(f, r"\[_, _, \w+::NUMBER, \.\.\]"),
}


def main():
    a = argparse.ArgumentParser(description=__doc__, formatter_class=argparse.RawDescriptionHelpFormatter)
    a.add_argument("--commit")
    a.add_argument("-v", action="store_true")
    a.add_argument("points", nargs="*")
    o = a.parse_args()
    files = list(sources(o.commit))
    for point, find in POINTS.items():
        if o.points and point.split()[0] not in o.points:
            continue
        places = find(files)
        print(f"{point}: {len(places)}")
        if o.v:
            for p in places:
                print(f"    {p}")


main()
