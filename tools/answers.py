#!/usr/bin/env python3
"""answers.py NAMES CRATE [FUNCTION..]: turns the files Proof.antt of an older kit into Invariants.antt and Answers.antt.

NAMES is the folder that `rt check --generated NAMES --old-names` wrote for the crate: each goal's old and new name.
What an answer says stays; `search R` stays `search R`. What it cannot turn it prints."""
import json
import os
import re
import sys

SKIPPED = re.compile(r"\.(Statement|Tie|Lts|Reads|Reaches|Steps)\b")


def declarations(text):
    """The file's declarations, each a list of lines; the lines of a comment stand with what follows."""
    found, comment = [], []
    for line in text.split("\n"):
        if not line.strip():
            continue
        if line.startswith("--"):
            comment.append(line)
        elif line[0] in " )":
            found[-1].append(line)
        else:
            found.append([*comment, line])
            comment = []
    return found


def head(lines):
    return next(it for it in lines if not it.startswith("--"))


def plain(name):
    name = name.replace("_", "-")
    return re.sub(r"^slice-bounds-", "part-", re.sub(r"^(overflow|nonzero)-", "", name))


def name_of(lines):
    line = head(lines)
    words = [it for it in line.split() if it not in ("abbrev", "pub", "unfoldable")]
    return words[0]


def substituted(body, names):
    """The body with each parameter replaced."""
    def one(m):
        return names.get(m.group(0), m.group(0))
    return re.sub(r"(?<![\w.'₀-₉◌-])[A-Za-z_αβκσ][\w'₀-₉-]*", one, body)


def turned_paths(body, steps):
    """Names of older places, `c.before.before.STEP`, as today's flat `c.STEP`."""
    roots = {"c"}
    # Lets that only name a place further up are c itself.
    while True:
        m = re.search(r"\blet ([\w'-]+) = ([\w'-]+)((?:\.before)+) in\s*", body)
        if not m or m.group(2) not in roots:
            break
        roots.add(m.group(1))
        body = body[: m.start()] + body[m.end() :]
    for root in roots:
        body = re.sub(rf"(?<![\w.'-]){re.escape(root)}((?:\.before)*)\.(?!before)", "c.", body)
    for root in roots - {"c"}:
        body = re.sub(rf"(?<![\w.'-]){re.escape(root)}(?![\w.'-])", "c", body)

    def step(m):
        word = plain(m.group(1))
        return "c." + steps.get(word, m.group(1)) + m.group(2)
    return re.sub(r"(?<![\w.'-])c\.([\w'-]+)(\.|(?![\w.'-]))", step, body)


def turn(folder, crate, function, info):
    path = f"{folder}/proofs/{function}/Proof.antt"
    text = open(path, encoding="utf-8").read()
    if " tie." not in text:
        return f"{crate}: {function}: no tie"
    uses, others, sigs, bodies, bad = [], [], {}, {}, []
    unfolding = {}
    needs = {plain(old): new for old, new in info["needs"]}
    loops = {plain(old): (new, variables, changed) for ((old, new), variables), changed in zip(info["loops"], info["changed"])}
    steps = {plain(it[2][0]): it[2][1] for it in info["places"]}
    for lines in declarations(text):
        line = head(lines)
        if line.startswith(("use ", "mod ")):
            whole = " ".join(it.strip() for it in lines)
            if not SKIPPED.search(whole):
                uses.append("\n".join(lines))
            continue
        if line.startswith("unfolding "):
            # Stands between a signature and its definition.
            bodies.setdefault("unfolding", []).append(line)
            last = list(sigs)[-1] if sigs else None
            unfolding[last] = line
            continue
        name = name_of(lines)
        whole = " ".join(it for it in lines if not it.startswith("--"))
        if "tie.close" in whole or re.search(r": .*statement M\s*$", line) or (name.endswith(("-spec", "_spec")) and "statement" in whole):
            continue
        m = re.match(r"(?:abbrev |pub )*(\S+) : tie\.(\S+)", line)
        if m:
            sigs[m.group(1)] = m.group(2)
            continue
        if name in sigs:
            m = re.match(r"(?:\S+)((?: [^=]*?)?) = ?(.*)$", line, re.S)
            rest = [it for it in lines if not it.startswith("--")][1:]
            params = m.group(1).split()
            body = "\n".join([m.group(2), *rest]) if m.group(2) else "\n".join(rest)
            bodies[name] = (params, body)
            continue
        others.append("\n".join(lines))
    invariants, answers = [], []
    for name, sig in sigs.items():
        if name not in bodies:
            bad.append(f"no body of {name}")
            continue
        params, body = bodies[name]
        m = re.match(r"(invariant|decreases)-(.*)$", sig)
        if m:
            if plain(m.group(2)) not in loops:
                bad.append(f"no loop {sig}")
                continue
            new, variables, changed = loops[plain(m.group(2))]
            first = [f"l.initial.{v}" if c else f"l.{v}" for v, c in zip(variables, changed)]
            then = [f"l.{v}" for v, c in zip(variables, changed) if c]
            named = {p: v for p, v in zip(params, first + then) if p != "_"}
            if len(params) != len(first) + len(then):
                # A temporary of the older kit stands among them: by their names then.
                named = {f"{v}₀": f"l.initial.{v}" for v in variables} | {v: f"l.{v}" for v in variables}
                lost = [p for p in params if p not in named and re.search(rf"(?<![\w.'-]){re.escape(p)}(?![\w'-])", body)]
                if lost:
                    bad.append(f"{sig} speaks of {' '.join(lost)}")
                    continue
            goal = f"{m.group(1)}-{new}"
            text = substituted(body, named)
            joint = "\n" if "\n" in text else " "
            invariants.append(f"abbrev pub {goal} : goal.{goal}\n{goal} l ={joint}{text}")
            continue
        m = re.match(r"Need-(.*)$", sig)
        key = plain(m.group(1)) if m else None
        if key is None or key not in needs:
            bad.append(f"gone {sig} = {' '.join(body.split())[:150]}")
            continue
        goal = needs[key]
        text = turned_paths(body, steps) if re.search(r"(?<![\w.'-])c\.", body) else body
        joint = "\n" if "\n" in text else " "
        more = f"{unfolding[name]}\n" if name in unfolding else ""
        answers.append(f"pub {goal} : goal.{goal}\n{more}{goal} c ={joint}{text}")
    base = f"{folder}/proofs/{function}"
    module = f"Rattle.{crate}.proofs.{function.replace('/', '.')}"
    if others and invariants and any(re.search(rf"(?<![\w.'-]){re.escape(name_of(it.split(chr(10))))}(?![\w'-])", inv) for it in others for inv in invariants):
        bad.append("a helper of an invariant")
    if invariants:
        parts = ["\n".join([*uses, f"use {module}.Given as goal"]), *invariants]
        with open(f"{base}/Invariants.antt", "w", encoding="utf-8") as file:
            file.write("\n\n".join(parts) + "\n")
    if answers:
        parts = ["\n".join([*uses, f"use {module}.Goals as goal"]), *others, *answers]
        with open(f"{base}/Answers.antt", "w", encoding="utf-8") as file:
            file.write("\n\n".join(parts) + "\n")
    os.remove(path)
    return f"{crate}: {function}: " + "; ".join(bad) if bad else None


def main():
    names, crate, *functions = sys.argv[1:]
    folder = f"crates/{crate}"
    with open(f"{names}/names.json", encoding="utf-8") as file:
        every = json.load(file)
    for at, _, files in sorted(os.walk(f"{folder}/proofs")):
        if "Proof.antt" not in files:
            continue
        function = os.path.relpath(at, f"{folder}/proofs")
        if functions and function not in functions:
            continue
        info = every.get(f"Rattle-{crate}-proofs.{function.replace('/', '.')}.Lts")
        if info is None:
            print(f"{crate}: {function}: no names")
            continue
        said = turn(folder, crate, function, info)
        if said:
            print(said)


main()
