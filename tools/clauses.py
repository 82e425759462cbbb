#!/usr/bin/env python3
"""clauses.py NAMES_ROOT CRATE..: answers that gave a tuple for several clauses, or cited one by its number, by the clauses' names.

NAMES_ROOT/CRATE/names.json is what `rt check --generated` wrote."""
import glob
import json
import os
import re
import sys


def contracts():
    """The names of each function's clauses: (crate, function) -> {"requires": [..], "ensures": [..]}, None for a clause with no name."""
    found = {}
    for path in glob.glob("crates/*/src/**/*.rt", recursive=True):
        crate = path.split("/")[1]
        text = open(path, encoding="utf-8").read()
        for m in re.finditer(r"\bfn (\w+)", text):
            rest = text[m.end():]
            end = re.search(r"\n\{|\bfn \w+", rest)
            head = rest[: end.start()] if end else rest
            names = {"requires": [], "ensures": []}
            for c in re.finditer(r"\n\s+(requires|ensures)\*? ?(\w+)? ?\{", head):
                names[c.group(1)].append(c.group(2))
            key = (crate, m.group(1))
            if key in found and found[key] != names:
                names = None
            found[key] = names
    return found


def split(body):
    """The parts of a tuple at its outermost commas, or None."""
    body = body.strip()
    if not (body.startswith("(") and body.endswith(")")):
        return None
    depth, parts, last = 0, [], 1
    for i, ch in enumerate(body):
        if ch in "([{":
            depth += 1
        elif ch in ")]}":
            depth -= 1
            if depth == 0 and i != len(body) - 1:
                return None
        elif ch == "," and depth == 1:
            parts.append(body[last:i])
            last = i + 1
    parts.append(body[last:-1])
    parts = [" ".join(it.split()) for it in parts]
    if parts and not parts[-1]:
        parts.pop()
    return parts if len(parts) > 1 else None


def main():
    root, *crates = sys.argv[1:]
    known = contracts()
    for crate in crates:
        names_file = f"{root}/{crate}/names.json"
        if not os.path.exists(names_file):
            continue
        every = json.load(open(names_file, encoding="utf-8"))
        for key, info in every.items():
            if "-proofs." not in key or not key.endswith(".Lts"):
                continue
            function = key.split("-proofs.", 1)[1][: -len(".Lts")]
            path = f"crates/{crate}/proofs/{function.replace('.', '/')}/Answers.antt"
            if not os.path.exists(path):
                continue
            text = open(path, encoding="utf-8").read()
            own = known.get((crate, function.split(".")[-1]))
            callee = {}
            for place in info["places"]:
                if place[3]:
                    parts = place[3].split("::")
                    callee[place[2][1]] = known.get((parts[0], parts[-1]))
            new = turned(text, own, callee, info, f"{crate}/{function}")
            if new != text:
                with open(path, "w", encoding="utf-8") as file:
                    file.write(new)


def clause(names, kind, n):
    if names and n < len(names[kind]) and names[kind][n] and len(names[kind]) > 1:
        return names[kind][n]
    return None


def turned(text, own, callee, info, where):
    def step(m):
        which, kind, n = m.group(1), m.group(2), int(m.group(3))
        name = clause(callee.get(which), kind, n)
        return f"c.{which}.{kind}.{name}" if name else m.group(0)
    text = re.sub(r"\bc\.([\w-]+)\.(ensures|requires)\.(\d+)", step, text)

    def mine(m):
        name = clause(own, "requires", int(m.group(1)))
        return f"c.requires.{name}" if name else m.group(0)
    text = re.sub(r"\bc\.requires\.(\d+)", mine, text)
    parts = text.split("\n\n")
    for i, part in enumerate(parts):
        m = re.match(r"(pub (\S+) : goal\.\S+\n(?:unfolding [^\n]*\n)?\2 c =)(.*)\Z", part.rstrip("\n"), re.S)
        if not m:
            continue
        goal, body = m.group(2), m.group(3)
        tuple_ = split(body)
        if not tuple_:
            continue
        names, kind = None, None
        if goal.startswith("returns"):
            names, kind = own, "ensures"
        else:
            for which, found in callee.items():
                if goal == f"{which}-requires" or re.match(rf"{re.escape(which)}-requires(-|$)", goal) or goal.startswith(which.split("-")[0] + "-requires"):
                    names, kind = found, "requires"
        if not names or len(names[kind]) != len(tuple_) or not all(names[kind]):
            print(f"{where}: {goal}: {len(tuple_)} parts, clauses {names and names[kind]}")
            continue
        record = "; ".join(f"{n} = {v}" for n, v in zip(names[kind], tuple_))
        parts[i] = m.group(1) + " record { " + record + " }" + ("\n" if part.endswith("\n") else "")
    return "\n\n".join(parts)


main()
